"""A main program in Fortran that runs subroutines on the tests of a job, compiled by gfortran.

Names that are made here have an underscore, which names of a unit can not have.
"""

import subprocess
from collections.abc import Iterable, Sequence
from pathlib import Path

from mutants.statuses import SUCCESS
from mutants.texts.dummies import Dummy
from mutants.texts.jobs import Value

SECONDS = 30
FORMS = {"integer": "i0", "logical": "l1"}


def literal(value: int) -> str:
    return f".{value}." if isinstance(value, bool) else str(value)


def declared(name: str, kind: str, elements: int | None) -> str:
    return f"{kind}, target :: {name}" + (f"({elements})" if elements is not None else "")


def assigned(name: str, value: Value) -> list[str]:
    """How the driver sets a variable, or an array with its elements in the order of the test."""
    if isinstance(value, list):
        return [f"{name}({place}) = {literal(element)}" for place, element in enumerate(value, 1)]
    return [f"{name} = {literal(value)}"]


def printed(name: str, kind: str, elements: int | None) -> list[str]:
    """How the driver prints a variable, or an array as the row of its elements."""
    form = FORMS[kind]
    if elements is None:
        return [f"""write (*, '(" ", {form})', advance='no') {name}"""]
    return [
        f"""write (*, '(" (", *({form}, :, ","))', advance='no') {name}""",
        """write (*, '(")")', advance='no')""",
    ]


def chosen(number: str, cases: Iterable[Sequence[str]]) -> list[str]:
    """A choice between lists of lines by a number, from 1."""
    numbered: list[list[str]] = [[f"case ({case})", *lines] for case, lines in enumerate(cases, 1)]
    return [f"select case ({number})", *sum(numbered, []), "end select"]


def values_module(names: Sequence[str], dummies: Sequence[Dummy], tests: Iterable[Sequence[Value]]) -> list[str]:
    """The module of the arguments of the calls: how they are set for a test, and how they are printed after a word."""
    given: list[list[str]] = [sum(map(assigned, names, test), []) for test in tests]
    lines = ["module the_values", "implicit none"]
    lines += [declared(name, *dummy) for name, dummy in zip(names, dummies)]
    lines += ["contains", "subroutine set_values(test)", "integer :: test", *chosen("test", given), "end subroutine"]
    lines += ["subroutine print_values(word)", "character(*) :: word", "write (*, '(a)', advance='no') word"]
    lines += [line for name, dummy in zip(names, dummies) for line in printed(name, *dummy)]
    return [*lines, "print '()'", "end subroutine", "end module"]


def driver_of(
    units: Sequence[str],
    dummies: Sequence[Dummy],
    tests: Iterable[Sequence[Value]],
    begin: Sequence[str] = (),
    routines: str = "",
) -> str:
    """A program that gets two numbers, of a unit and of a test, both from 1, and prints how the call ended.

    It begins with the lines given, and the routines stand beside it.
    """
    names = [f"arg_{number}" for number in range(1, len(dummies) + 1)]
    calls = [[f"call {unit}({', '.join(names)})"] for unit in units]
    lines = [*values_module(names, dummies, tests), routines, "program the_driver", "use the_values", "implicit none"]
    lines += [*[f"external {unit}" for unit in units], "character(9) :: words(2)", "integer :: unit, test"]
    lines += ["call get_command_argument(1, words(1))", "call get_command_argument(2, words(2))"]
    lines += ["read (words, *) unit, test", "call set_values(test)", *begin, *chosen("unit", calls)]
    return "\n".join([*lines, "call print_values('RETURNED')", "end", ""])


def written_by(
    words: Sequence[str | Path], folder: Path | None = None, given: bytes = b"", seconds: int = SECONDS
) -> str:
    """What a command writes; where it fails, one line that begins with "status"."""
    try:
        ended = subprocess.run(words, cwd=folder, input=given, capture_output=True, timeout=seconds)
    except subprocess.TimeoutExpired:
        return f"status unknown: no end within {seconds} seconds"
    if ended.returncode == SUCCESS:
        return ended.stdout.decode(errors="replace").removesuffix("\n")
    lines = (ended.stdout or ended.stderr).decode(errors="replace").split("\n")
    errors = [line for line in lines if line.startswith(("Error", "Fatal Error"))]
    return f"status {ended.returncode}: {(errors or lines)[0]}".rstrip(": ")


def compile_in(folder: Path, *words: str) -> None:
    text = written_by(["gfortran", "-std=legacy", "-w", "-O0", *words], folder, seconds=600)
    if text.startswith("status"):
        raise ValueError(f"gfortran: {text}")
