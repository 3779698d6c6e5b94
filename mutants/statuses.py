"""The exit statuses of the command and of the tools, each named once."""

SUCCESS = 0
FAULT = 1
WORDS = 2
BELOW = 3
# A comparison has the same status where a mutant that was killed survives: in both cases the tests say too little.
NEWLY_SURVIVING = BELOW
UNEXPECTED = 4
# For a shell, a command that a signal ended has this status plus the number of the signal; Ctrl-C is signal 2.
BY_SIGNAL = 128
INTERRUPTED = BY_SIGNAL + 2

MEANINGS = {
    SUCCESS: "done, or help was asked for",
    FAULT: "a fault: of the job, of a file, or of the program; or a pipe that nobody reads any more",
    WORDS: "words that are refused",
    BELOW: "the score is below --fail-under, or, of compare and --baseline, a mutant that was killed survives",
    UNEXPECTED: "an outcome of the program is another than the expected one",
    INTERRUPTED: "interrupted by Ctrl-C",
}


def meanings() -> str:
    """The statuses with their meanings, a line each, for the help."""
    lines = [f"  {status:>3}  {meaning}" for status, meaning in MEANINGS.items()]
    return "\n".join(["exit statuses:", *lines])
