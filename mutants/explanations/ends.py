"""How a run ends that neither returns nor stops: its outcome, and the step that ended it.

The step is found by halving: the program is run under different limits on steps, and the least limit under which the
run has its outcome is the number of the step that ended it.
"""

import json
from collections.abc import Callable

from mutants.explanations.words import STEPS
from mutants.program.asking import asked_outcome
from mutants.program.calling import Fault

# The limit on steps of mothra where none is given, and the largest that it takes.
DEFAULT, LARGEST = 10_000, STEPS[1]
LIMITED = "STEPLIMIT"
OUTCOMES = {
    "OVERFLOW": "a value left the range of INTEGER, -2147483648 to 2147483647",
    "DIVIDEBYZERO": "a number was divided by 0, or MOD had the second argument 0",
    "ZEROPOWER": "0 was raised to a power that is 0 or negative",
    "BADSUBSCRIPT": "a subscript was below 1 or above its bound",
    "ZEROSTEP": "the step of a DO was 0",
    "UNDEFINED": "a variable or an array element was read before it had a value",
}
# The outcome of the run under a limit on steps.
Run = Callable[[int], str]


def last_step(run: Run, below: int, enough: int) -> int:
    """The number of the step that ends a run, which is above one limit and at most the other."""
    while below + 1 < enough:
        middle = (below + enough) // 2
        below, enough = (middle, enough) if run(middle) == LIMITED else (below, middle)
    return enough


def limited_notes(run: Run, limit: int) -> list[str]:
    """Notes on a run that has not ended at its limit: its outcomes under limits that are twice as large each time."""
    notes = [f"The run has not come to its end at step {limit}, the limit on steps: its outcome is {LIMITED}."]
    while limit < LARGEST:
        limit = min(2 * limit, LARGEST)
        outcome = run(limit)
        if outcome != LIMITED:
            return [*notes, f"With --steps {limit} it ends as {outcome}."]
    return [*notes, f"With --steps {LARGEST}, the largest limit, it comes to none either: a loop may have no end."]


def end_notes(program: str, source: str, test: object, limit: int) -> list[str]:
    """Notes on the run of the program on a test, under a limit on steps; none where the program has a fault."""
    job = json.dumps({"source": source, "suite": [test]}).encode()

    def run(steps: int) -> str:
        return asked_outcome(program, 1, ["--steps", str(steps)], job)

    try:
        outcome = run(limit)
        if outcome == LIMITED:
            return limited_notes(run, limit)
        step = last_step(run, 0, limit)
    except Fault:
        return []
    return [f"Step {step} ends the run as {outcome}: {OUTCOMES[outcome]}."] if outcome in OUTCOMES else []
