"""The mutants of a job as gfortran compiles them, and what they do on its tests."""

import json
import os
import re
import signal
import subprocess
from collections import Counter
from collections.abc import Callable, Sequence
from concurrent.futures import ThreadPoolExecutor
from pathlib import Path
from typing import NamedTuple

from developing.gfortran.driver import compile_in, driver_of, written_by
from mutants.statuses import SUCCESS
from mutants.texts.cards import Card, action_at, cards_of, lines_of
from mutants.texts.dummies import read_unit
from mutants.texts.jobs import Value

# How many mutants stand in one file; and how many microseconds of a processor a run may take.
TOGETHER = 200
MICROSECONDS = 100_000
LONGEST, STEPS = 600, "10000"
# All checks that gfortran has. Without optimization both operands of .AND. and .OR. are evaluated.
CHECKS = (
    "-ffixed-form -fno-frontend-optimize -fmax-errors=0 -fcheck=all"
    " -ftrapv -fsanitize=signed-integer-overflow -fsanitize-undefined-trap-on-error"
).split()
# A variable without a value gets one of these. So a run that depends on one shows by different answers.
WITHOUT_A_VALUE = [
    ["-finit-integer=1795163377", "-finit-logical=true"],
    ["-finit-integer=-1604329131", "-finit-logical=false"],
    ["-finit-integer=0", "-finit-logical=false"],
]
# The statuses of a trap, and of a power that has no value; and how a run ends that is outside the standard.
TRAPPED, NO_POWER = 70, 71
OUTSIDE = {
    NO_POWER: "a power out of range, or of zero",
    -signal.SIGILL: "a sum, difference, product or sign out of range",
    -signal.SIGABRT: "a sum, difference, product or sign out of range",
    -signal.SIGFPE: "a division by zero or out of range",
}
BY_MOTHRA = "OVERFLOW DIVIDEBYZERO ZEROPOWER BADSUBSCRIPT ZEROSTEP UNDEFINED STEPLIMIT".split()

# How a run compares, and the line that says so where it differs.
Judged = tuple[str, str | None]


class Mutant(NamedTuple):
    """A mutant: its operator and number, its line, the changed statement, and a digit for each test."""

    name: str
    line: int
    text: str
    bits: str


class Outcome(NamedTuple):
    """The outcome of a run: what it wrote; or, where it is outside the standard, why."""

    text: str | None
    outside: str | None


class Compared(NamedTuple):
    """A job that is compared: the program mothra, its bytes, its statements, its tests, and the limit on steps."""

    mothra: str
    job: bytes
    cards: Sequence[Card]
    tests: Sequence[Sequence[Value]]
    steps: str


# What mutants call in the place of STOP, TRAP and ZPUSH; the timer; and powers, which end a run that leaves the range.
# gfortran calls the last one by this name. The value is that of gfortran's own powers in 64 bits.
STOP, TRAP = "CALLSTOP_HERE", "CALLTRAP_HERE"
ROUTINES = f"""
subroutine stop_here
    use the_values
    call print_values('STOPPED')
    stop
end subroutine
subroutine trap_here
    stop {TRAPPED}
end subroutine
integer function no_zero(value)
    integer :: value
    if (value == 0) stop {TRAPPED}
    no_zero = value
end function
function power(base, exponent) bind(c, name='_gfortran_pow_i4_i4')
    use iso_c_binding
    integer(c_int32_t), value :: base, exponent
    integer(c_int32_t) :: power, turn
    integer(c_int64_t) :: exact
    if (base == 0 .and. exponent <= 0) stop {NO_POWER}
    exact = 1
    do turn = 1, merge(exponent, 0, abs(int(base, 8)) > 1)
        exact = exact * base
        if (exact > 2147483647 .or. exact < -2147483647 - 1_8) stop {NO_POWER}
    end do
    power = int(int(base, 8) ** exponent, 4)
end function
subroutine limit_time
    use iso_c_binding
    interface
        integer(c_int) function setitimer(which, new, old) bind(c)
            import
            integer(c_int), value :: which
            integer(c_long) :: new(4)
            type(c_ptr), value :: old
        end function
    end interface
    integer :: ignored
    ignored = setitimer(1, [0_c_long, 0_c_long, 0_c_long, {MICROSECONDS}_c_long], c_null_ptr)
end subroutine
"""


def answer_lines(mothra: str, command: str, job: bytes) -> list[str]:
    text = written_by([mothra, command], given=job, seconds=LONGEST)
    if text.startswith(("FAULT", "status")):
        raise ValueError(f"mothra {command}: {text}")
    return text.split("\n")


def mutants_of(mothra: str, job: bytes) -> tuple[list[Mutant], str]:
    """The mutants of `mothra list` with the bits of the report of `mothra run`, and the report's limit on steps."""
    report = [line.split(" ") for line in answer_lines(mothra, "run", job)]
    steps = next(words[1] for words in report if words[0] == "STEPS")
    bits = {" ".join(words[1:3]): words[5] for words in report if words[0] == "MUTANT"}
    rows = [re.fullmatch(r"(\S+ \d+) \d+ LINE (\d+) (.*)", line) for line in answer_lines(mothra, "list", job)]
    mutants = [Mutant(row[1], int(row[2]), row[3], bits.pop(row[1])) for row in rows if row]
    if bits:
        raise ValueError(f"mothra list has no {min(bits)}")
    return mutants, steps


def with_calls(text: str) -> str:
    """A statement with calls in the place of STOP, TRAP and ZPUSH."""
    text = re.sub(r"\bZPUSH\(", "NO_ZERO(", text).replace(" ", "")
    at = action_at(text)
    return text[:at] + {"STOP": STOP, "TRAP": TRAP}.get(text[at:], text[at:])


def source_of(cards: Sequence[Card], name: str, mutant: Mutant | None) -> list[str]:
    """The lines of a mutant, or of the program for None, as a unit of this name."""
    lines: list[str] = []
    for card in cards:
        text = card.text if mutant is None or card.line != mutant.line else mutant.text
        if card is cards[0]:
            text = re.sub(r"^SUBROUTINE[A-Z0-9]+", f"SUBROUTINE {name}", text)
        lines += lines_of(card.label, with_calls(text) if card is not cards[0] else text)
    return lines


def refusals(said: str, sources: Sequence[Sequence[str]]) -> dict[int, str]:
    """The messages of gfortran on the units of a file, by the place of the unit."""
    ends = [sum(map(len, sources[: place + 1])) for place in range(len(sources))]
    line: int | None = None
    by_place: dict[int, str] = {}
    for text in said.split("\n"):
        where = re.match(r"units\.f:(\d+):", text)
        line = int(where[1]) if where else line
        if text.startswith("Error: ") and line:
            place = next(place for place, end in enumerate(ends) if line <= end)
            by_place.setdefault(place, re.sub(r" at \(\d\)", "", text.removeprefix("Error: ")))
    return by_place


def compile_units(folder: Path, sources: Sequence[list[str]]) -> dict[int, str]:
    """Compiles units for each such value. A unit that gfortran refuses is left empty, and the result has the
    message."""
    refused: dict[int, str] = {}
    while True:
        empty = [lines[:1] + ["      END"] if place in refused else lines for place, lines in enumerate(sources)]
        (folder / "units.f").write_text("".join(f"{line}\n" for lines in empty for line in lines))
        words = ["gfortran", "-std=legacy", "-w", "-O0", *CHECKS, "-c", "units.f"]
        said = subprocess.run(words, cwd=folder, capture_output=True, text=True, timeout=LONGEST)
        if said.returncode == SUCCESS:
            break
        new = refusals(said.stderr, empty)
        if not new:
            raise ValueError(f"gfortran: {said.stderr}")
        refused |= new
    # A backtrace would take the time that a run has.
    compile_in(folder, "-fno-backtrace", "-fno-range-check", "-ffree-line-length-none", "-c", "driver.f90")
    for number, value in enumerate(WITHOUT_A_VALUE):
        compile_in(folder, *CHECKS, *value, "-c", "units.f")
        compile_in(folder, "-o", f"program_{number}", "driver.o", "units.o")
    return refused


def ending_of(program: Path, unit: int, test: int) -> Outcome:
    """How one run ends."""
    ended = subprocess.run([program, str(unit), str(test)], capture_output=True, text=True, timeout=LONGEST)
    fault = re.search("Fortran runtime error: (.*)", ended.stderr)
    if ended.returncode == SUCCESS:
        return Outcome(ended.stdout.removesuffix("\n"), None)
    if ended.returncode == TRAPPED:
        return Outcome("TRAPPED", None)
    if ended.returncode == -signal.SIGVTALRM:
        return Outcome("NO END", None)
    if fault:
        return Outcome(None, re.sub("'.*?'|[0-9-]+", "..", fault[1]))
    if ended.returncode in OUTSIDE:
        return Outcome(None, OUTSIDE[ended.returncode])
    return Outcome(f"status {ended.returncode}", None)


def outcome_of(folder: Path, unit: int, test: int) -> Outcome:
    """The outcome of a unit on a test."""
    outcomes = [ending_of(folder / f"program_{number}", unit, test) for number in range(len(WITHOUT_A_VALUE))]
    if len(set(outcomes)) == 1:
        return outcomes[0]
    return Outcome(None, "a variable without a value")


def mothra_word(compared: Compared, mutant: Mutant, test: int) -> str:
    """What `mothra exec` says of a mutant on a test, with e in the place of ZPUSH(e). TRAP can not be written in a
    source."""
    if with_calls(mutant.text).endswith(TRAP):
        return "TRAPPED"
    text = mutant.text.replace("ZPUSH(", "(")
    kept = [(card.label, text if card.line == mutant.line else card.text) for card in compared.cards]
    lines = [line for label, statement in kept for line in lines_of(label, statement)]
    changed = json.dumps({**json.loads(compared.job), "source": "\n".join(lines) + "\n"}).encode()
    return written_by([compared.mothra, "exec", "--test", str(test), "--steps", compared.steps], given=changed)


def judged(original: Outcome, outcome: Outcome, bit: str, ask: Callable[[], str]) -> str:
    """How one run compares: "agree", "differ", or why it is not counted."""
    killed = bit == "1"
    if outcome.outside:
        return f"outside the standard: {outcome.outside}" if killed else "differ"
    if (outcome != original) == killed:
        return "agree"
    word = ask()
    if word == "STEPLIMIT":
        return "beyond the limit on steps, by mothra's word alone"
    return f"outside the standard by mothra's word alone: {word}" if word in BY_MOTHRA else "differ"


def judged_program(compared: Compared, test: int, outcome: Outcome) -> Judged:
    """How a run of the program itself compares with the line of `mothra exec`."""
    ours = written_by([compared.mothra, "exec", "--test", str(test), "--steps", compared.steps], given=compared.job)
    if ours in BY_MOTHRA:
        return f"outside the standard by mothra's word alone: {ours}", None
    theirs = outcome.text or outcome.outside
    return ("agree", None) if ours == theirs else ("differ", f"test {test}: mothra {ours}, gfortran {theirs}")


def judged_run(compared: Compared, mutant: Mutant, test: int, original: Outcome, outcome: Outcome) -> Judged:
    """How one run of a mutant compares, and the line that says so where it differs."""
    bit = mutant.bits[test - 1]
    judgement = judged(original, outcome, bit, lambda: mothra_word(compared, mutant, test))
    if judgement != "differ":
        return judgement, None
    other = outcome.text or outcome.outside
    return judgement, f"{mutant.name} LINE {mutant.line} {mutant.text}: test {test} has bit {bit}, gfortran: {other}"


def compare_batch(compared: Compared, batch: Sequence[Mutant], folder: Path, pool: ThreadPoolExecutor) -> list[Judged]:
    """How each run of some mutants compares, in one program; or of the program, where there are none."""
    dummies = read_unit(json.loads(compared.job)["source"])[1]
    units = [f"unit_{number}" for number in range(len(batch) + 1)]
    sources = [source_of(compared.cards, unit, mutant) for unit, mutant in zip(units, [None, *batch])]
    (folder / "driver.f90").write_text(driver_of(units, dummies, compared.tests, ["call limit_time"], ROUTINES))
    refused = compile_units(folder, sources)
    if 0 in refused:
        raise ValueError(f"gfortran: {refused[0]}")
    numbers = range(1, len(compared.tests) + 1)
    originals = [outcome_of(folder, 1, test) for test in numbers]

    def judge(place: int, test: int) -> Judged:
        if place in refused:
            return f"not compiled: {refused[place]}", None
        if place == 0:
            return judged_program(compared, test, originals[test - 1])
        outcome = outcome_of(folder, place + 1, test)
        return judged_run(compared, batch[place - 1], test, originals[test - 1], outcome)

    pairs = [(place, test) for place in range(min(len(batch), 1), len(units)) for test in numbers]
    return list(pool.map(judge, *zip(*pairs))) if pairs else []


def compared_runs(mothra: str, job: bytes, folder: Path, with_mutants: bool) -> tuple[int, Counter[str], list[str]]:
    """The number of mutants, how often each judgement came, and the differences."""
    given = json.loads(job)
    cards = cards_of(given["source"])
    if any("ZPUSH" in card.text for card in cards):
        raise ValueError("the program has a name ZPUSH of its own")
    mutants, steps = mutants_of(mothra, job) if with_mutants else ([], STEPS)
    compared = Compared(mothra, job, cards, given.get("suite", []), steps)
    judged: list[Judged] = []
    with ThreadPoolExecutor(max(len(os.sched_getaffinity(0)) // 2, 1)) as pool:
        for at in range(0, max(len(mutants), 1), TOGETHER):
            judged += compare_batch(compared, mutants[at : at + TOGETHER], folder, pool)
    return len(mutants), Counter(judgement for judgement, _ in judged), [line for _, line in judged if line]
