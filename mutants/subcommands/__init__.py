"""The subcommands of the command `mutants`, a module each."""
