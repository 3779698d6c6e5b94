"""The declared mutants of a page: each with its change and its reason, and first those that a test kills anyway.

Mutants that are declared by a proof alone stand apart from those of a person, and are folded.
"""

from collections.abc import Iterable, Mapping, Sequence

from mutants.declarations.proofs import wrongly_declared
from mutants.declarations.said import NO_REASON, Group, Said, groups_of_person, groups_of_proofs, proved_text
from mutants.english import plural, tests_text
from mutants.pages.frame import Cell, table, text
from mutants.pages.program import difference
from mutants.texts.lines import Mutant
from mutants.texts.reports import Row, tests_in
from mutants.texts.twins import name_of, names_text

# What proofs promise, and what those with steps to spare promise.
ALL_TESTS = (
    "No test that a suite may have kills these, and nobody has to think about them: of each it is proved that it"
    " does what the program does, on all arguments on which the program returns or stops."
)
STEPS_TO_SPARE = (
    " Where there are steps to spare, this is promised of the tests as they are: the mutant may take so many more, and"
    " each test leaves room for them under the limit on steps."
)


def declared_row(group: Group, statement: str) -> list[Cell]:
    """The row of a declared mutant; where tests kill it this comes before the reason."""
    mutant, row = group.mutants[0], group.row
    killed = f'<b class="live">Killed by {tests_text(tests_in(row.bits))}.</b> ' if row.status == "W" else ""
    said = text(group.reason) if group.reason else f'<span class="soft">{NO_REASON}</span>'
    return [
        ("", f"<b>{text(names_text(group.mutants))}</b>"),
        ("n", f'<a href="#L{mutant.line}">{mutant.line}</a>'),
        ("", f"<code>{difference(statement, mutant.text)}</code>"),
        ("", killed + said),
    ]


HEAD: list[Cell] = [("", "Mutant"), ("n", "Line"), ("", "Change"), ("", "Why")]


def groups_table(groups: Sequence[Group], statements: Mapping[int, str], label: str) -> str:
    return table(HEAD, [declared_row(group, statements[group.mutants[0].line]) for group in groups], label=label)


def declared_part(listed: Iterable[Mutant], rows: Sequence[Row], statements: Mapping[int, str], said: Said) -> str:
    """The table of the mutants that a person declares; no text where there is none."""
    groups = groups_of_person(listed, rows, said)
    if not groups:
        return ""
    count = sum(len(group.mutants) for group in groups)
    wrong = len(wrongly_declared(rows, said.proofs))
    sentence = f"{plural(count, 'mutant')} {'is' if count == 1 else 'are'} declared equivalent: no test can kill"
    sentence += f" {'it' if count == 1 else 'them'}, so it is said."
    sentence += f" Tests kill {wrong} of them all the same, and {wrong} counts as killed." if wrong else ""
    return f"<p>{sentence}</p>\n" + groups_table(groups, statements, "Declared equivalent")


def proved_part(listed: Iterable[Mutant], rows: Sequence[Row], statements: Mapping[int, str], said: Said) -> str:
    """The table of the mutants that are declared by a proof alone, folded; no text where there is none."""
    groups = groups_of_proofs(listed, rows, said)
    if not groups:
        return ""
    has_spare = any(said.proofs.has_spare(name_of(group.mutants[0])) for group in groups)
    promise = ALL_TESTS + (STEPS_TO_SPARE if has_spare else "")
    inner = groups_table(groups, statements, "Proved equivalent")
    summary = f"<summary>{proved_text(groups, said.proofs)}</summary>"
    return f"<p>{promise}</p>\n<details>{summary}\n{inner}</details>\n"


def remarks_part(remarks: Iterable[str]) -> str:
    """Remarks on declarations and on the making of the job, at the top of a page."""
    return "".join(f'<p class="warn">{text(remark)}</p>\n' for remark in remarks)
