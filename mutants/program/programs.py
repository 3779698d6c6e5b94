"""The programs that the command calls."""

from typing import NamedTuple


class Program(NamedTuple):
    """A program, named as its crate."""

    name: str

    @property
    def variable(self) -> str:
        """The variable of the environment that names it."""
        return self.name.upper()

    @property
    def option(self) -> str:
        """The option that names it."""
        return f"--{self.name}"

    @property
    def help(self) -> str:
        return (
            f"the program {self.name}; else that of the environment's {self.variable}, the one built in the"
            " repository or installed with this command, or that of the path"
        )


# The one that runs mutants, and the one that proves some of them equivalent.
MOTHRA, EQUIVALENTS = Program("mothra"), Program("equivalents")
PROGRAMS = {program.name: program for program in (MOTHRA, EQUIVALENTS)}
