"""The source of a job, from a file as it is: in UTF-8 or Latin-1, with tabs, several units, or adjustable bounds."""

from collections import defaultdict
from collections.abc import Mapping
from pathlib import Path
from types import MappingProxyType
from typing import NamedTuple

from mutants.english import joined_words
from mutants.jobs.remarks import remarks_on_text
from mutants.jobs.sizes import Bound, names_for, sized, unsized
from mutants.jobs.units import picked, units_of, with_lines
from mutants.texts.decoding import decoded
from mutants.texts.tabs import has_tab, without_tabs

# The most bytes that a source may have.
LARGEST = 65_536
SUFFIXES = (".f", ".for", ".ftn", ".f77")
FREE = (".f90", ".f95", ".f03", ".f08")


class Wish(NamedTuple):
    """How a job is to be made: a unit by name, the values of bounds, and whether tabs become blanks.

    Sizes that are shared are for several programs: those that fit no bound of a program are passed over.
    """

    unit: str | None = None
    sizes: Mapping[str, int] = MappingProxyType({})
    expands_tabs: bool = False
    shares_sizes: bool = False


class Source(NamedTuple):
    """A source: the text that the job has, the text as it is shown, line for line, and remarks on it.

    `unit` is the name of the unit that was picked among several; else it is empty. `file` is the whole text of the
    file, with its tabs and its other units.
    """

    text: str
    shown: str
    unit: str
    remarks: list[str]
    file: str


def is_program(path: Path) -> bool:
    """Whether a file is a program in fixed form, by the ending of its name."""
    return path.suffix.lower() in SUFFIXES


def tabs_fault(source: str) -> str:
    """Why a source with tabs can not be used, and what to do; no text where it has no tabs."""
    lines = [number for number, line in enumerate(source.split("\n"), 1) if has_tab(line)]
    if not lines:
        return ""
    many = f" (and {len(lines) - 1} more)" if len(lines) > 1 else ""
    where = f"line {lines[0]}{many} has a tab, which FORTRAN 77 does not know: --expand-tabs reads the first tab of"
    return f"{where} a line as the way to column 7, or to column 6 before a digit from 1 to 9, and any other as a blank"


def unit_in(source: str, name: str | None) -> tuple[str, str, list[str]]:
    """The source with the lines of one unit alone, its name where there are others, and a remark on that."""
    units = units_of(source)
    if len(units) < 2 and name is None:
        return source, "", []
    unit = picked(units, name)
    if len(units) == 1:
        return source, "", []
    remarks = [] if name is not None else [f"of {len(units)} units the only subroutine is taken, {unit.text()}"]
    return with_lines(source, unit), unit.name, remarks


def bounds_remarks(source: str) -> list[str]:
    """A sentence for each line with bounds that are no numbers, with the option that gives them values."""
    by_line: dict[int, list[Bound]] = defaultdict(list)
    for line, bound in unsized(source):
        by_line[line].append(bound)
    remarks = []
    for line, bounds in by_line.items():
        which = joined_words(f"{bound.text} of {bound.array}" for bound in bounds)
        names = dict.fromkeys(name for bound in bounds for name in names_for(bound))
        offer = f": --size {','.join(f'{name}=..' for name in names)} gives values" if names else ""
        remarks.append(f"line {line}: no number is the bound {which}{offer}")
    return remarks


def source_of(data: bytes, wish: Wish) -> Source:
    """The source of a job, made of the bytes of a file; ValueError says why there is none."""
    text = decoded(data)
    plain = "\n".join(map(without_tabs, text.split("\n")))
    # Units are found by their statements, which tabs would hide.
    kept, unit, remarks = unit_in(plain, wish.unit)
    if not wish.expands_tabs:
        kept = "\n".join(old if new else "" for old, new in zip(text.split("\n"), kept.split("\n"))) if unit else text
    shown, fault = kept, tabs_fault(kept)
    if fault:
        raise ValueError(fault)
    kept = sized(kept, wish.sizes, wish.shares_sizes) if wish.sizes else kept
    size = len(kept.encode())
    if size > LARGEST:
        advice = "leave out comments" if unit else "leave out comments, or pick a unit by --unit"
        raise ValueError(f"the source has {size:,} bytes, and a job takes {LARGEST:,}: {advice}")
    return Source(kept, shown, unit, remarks + bounds_remarks(kept) + remarks_on_text(shown), text)
