"""The page of one job: its score, its program with the survivors, its operators, its tests and its kill matrix."""

from collections import Counter, defaultdict
from collections.abc import Iterable, Mapping, Sequence
from typing import NamedTuple

from mutants.declarations.boxes import NO_PROOF, boxed_text
from mutants.declarations.proofs import (
    Proofs, count_of_proved, decided_text, left_out_text, score_without, wrongly_declared, wrongly_proved,
)  # fmt: skip
from mutants.declarations.said import NOTHING, Said
from mutants.english import joined_words, plural
from mutants.operators import NAMES
from mutants.pages.declared import declared_part, proved_part, remarks_part
from mutants.pages.frame import Cell, bar, numbers, page, remark_part, sections, table, text
from mutants.pages.matrix import matrix_part
from mutants.pages.program import AtLines, program_part
from mutants.pages.suite import tests_part
from mutants.texts.jobs import Job
from mutants.texts.lines import Mutant
from mutants.texts.prints import statements_by_line
from mutants.texts.reports import Count, Report, Row, assert_same_mutants, counts_by, score_of, summed, with_status
from mutants.texts.subsuming import subsuming
from mutants.texts.twins import name_of, twins_in

# What a page is, for its title.
KIND = "kills and survivors"


def counts_by_line(listed: Sequence[Mutant], rows: Iterable[Row]) -> dict[int, Count]:
    """How many mutants each line has, how many are killed, and how many are declared and survived."""
    lines = dict.fromkeys(mutant.line for mutant in listed)
    return counts_by(((mutant.line, row.status) for mutant, row in zip(listed, rows)), lines)


def by_line(mutants: Iterable[Mutant]) -> dict[int, list[Mutant]]:
    lines: dict[int, list[Mutant]] = defaultdict(list)
    for mutant in mutants:
        lines[mutant.line].append(mutant)
    return lines


def at_lines(listed: Sequence[Mutant], rows: Sequence[Row], survivors: Iterable[Mutant], proofs: Proofs) -> AtLines:
    """What stands at each line of the program: the declared and proved mutants are those that survive."""
    equivalent = with_status(listed, rows, "E")
    proved = by_line(mutant for mutant in equivalent if proofs.is_alone(name_of(mutant)))
    declared = by_line(mutant for mutant in equivalent if not proofs.is_alone(name_of(mutant)))
    return AtLines(counts_by_line(listed, rows), by_line(survivors), declared, proved)


def score_part(count: Count, proved: int = 0) -> str:
    """The score in large figures, and what it is made of; `proved` mutants do not count, by a proof alone."""
    score, wanted = score_of(count), count.wanted
    said = f"{count.killed} of {plural(wanted, 'mutant')} killed{left_out_text(count, proved)}"
    figures = "no score" if score == "NONE" else f"{score} %"
    return f'<div class="score"><b>{figures}</b>{bar(count.killed, wanted)}<span>{said}</span></div>\n'


def proofs_part(count: Count, proved: int) -> str:
    """The score without the proofs, where there are some."""
    sentence = f"Without the proofs the score is {score_without(count, proved)}."
    return f'<p class="soft">{sentence}</p>\n' if proved else ""


def decided_part(count: Count, proved: int, proofs: Proofs) -> str:
    """How many mutants are killed, proved equivalent, and neither; no text where no proofs were asked for."""
    sentence = decided_text(count, proved, proofs)
    return f'<p class="soft">{sentence}</p>\n' if sentence else ""


def subsuming_part(listed: Sequence[Mutant], rows: Sequence[Row]) -> str:
    """The score over the mutants that subsume all others, and a fold with those of them that are killed."""
    least = subsuming(listed, rows)
    if least.counted.total == sum(row.status != "E" for row in rows):
        return ""
    links = [f'<a href="#L{mutant.line}">{text(name_of(mutant))}</a>' for mutant in least.killed]
    whose = f"Killed: {joined_words(links) or 'none'}. {plural(least.survivors, 'survivor')}, each program once."
    return f'<details class="soft"><summary>{text(least.text())}</summary>\n<p>{whose}</p></details>\n'


def facts_of(report: Report) -> str:
    facts = f"{plural(report.tests, 'test')}; runs of at most {report.steps} steps"
    if report.every > 1:
        facts += f"; of each operator's list the mutants 1, {report.every + 1}, {2 * report.every + 1} and on"
    return f'<p class="soft">{facts}.</p>\n'


def first_look(survivors: Sequence[Mutant], proved: int, said: Said) -> str:
    """Where the survivors are, and how many of them are killed by no row of a box."""
    if not survivors:
        return f"<p>{no_survivor_text(proved)}</p>\n"
    lines = Counter(mutant.line for mutant in survivors)
    line, most = lines.most_common(1)[0]
    where = survivors_text(survivors)
    where += f'; the most, {most}, on <a href="#L{line}">line {line}</a>' if len(lines) > 1 else ""
    asked = "Each asks: on what values does the changed line do something else? Such values are a test that is missing;"
    asked += " where there are none, the mutant is equivalent."
    boxed = said.killed_by_no_row(survivors)
    asked += f" {boxed_text(boxed)} {NO_PROOF}" if boxed else ""
    return f"<p>{where}. {asked}</p>\n"


def survivors_text(survivors: Sequence[Mutant]) -> str:
    """How many survivors there are, on how many lines, and how many different programs they are."""
    different, lines = len(twins_in(survivors)), {mutant.line for mutant in survivors}
    count = f"{plural(len(survivors), 'survivor')} on {plural(len(lines), 'line')}"
    return f"{count}, {plural(different, 'different program')}" if different < len(survivors) else count


def no_survivor_text(proved: int) -> str:
    """What is said where no mutant survives that counts."""
    return f"No mutant survives that is not declared {'or proved ' if proved else ''}equivalent."


def warning(what: str, names: Sequence[str], why: str) -> str:
    """Mutants that a test kills though it should not be able to; no text where there is none."""
    return f'<p class="warn"><b>{what}:</b> {text(joined_words(names))}. {why}</p>\n' if names else ""


def wrong_part(rows: Sequence[Row], proofs: Proofs) -> str:
    """The mutants that a test kills though a person declares them, or a proof does."""
    wrong, proved = wrongly_declared(rows, proofs), wrongly_proved(rows, proofs)
    which = f"A test kills {'it' if len(wrong) == 1 else 'each of them'}."
    return warning("Wrongly declared equivalent", wrong, which) + warning("Proved, and yet killed", proved, DISAGREE)


def operator_row(op: str, count: Count) -> list[Cell]:
    name = f'<b>{text(op)}</b> <span class="name">{text(NAMES.get(op, ""))}</span>'
    counts = numbers(*count, count.survived, score_of(count))
    return [("", name), *counts, ("bar", bar(count.killed, count.wanted))]


def operators_part(counts: Mapping[str, Count]) -> str:
    """The table of the operators that have mutants, and the names of those that have none."""
    words = ["Operator", "Mutants", "Killed", "Equi&shy;valent", "Sur&shy;vive", "Score", ""]
    head: list[Cell] = [("n" if 0 < at < 6 else "bar" if at == 6 else "", word) for at, word in enumerate(words)]
    rows = [operator_row(op, count) for op, count in counts.items() if count.total]
    total = [("", "All"), *operator_row("All", summed(counts.values()))[1:]]
    without = [f"{op} ({NAMES.get(op, '')})" for op, count in counts.items() if not count.total]
    rest = f'<p class="soft">Without a mutant in this program: {text(joined_words(without))}.</p>\n' if without else ""
    return table(head, rows, total, label="The operators", does_sort=True) + rest


# What is said where a test kills a mutant that is proved equivalent.
DISAGREE = "The programs mothra and equivalents do not agree, which proved builds of the same sources never do."


class Outcomes(NamedTuple):
    """What the program itself does on each test, and by test, from 1, what was expected where it is something else."""

    lines: Sequence[str] = ()
    unexpected: Mapping[int, str] = {}


def unexpected_part(unexpected: Mapping[int, str]) -> str:
    if not unexpected:
        return ""
    which = f"Test {joined_words(unexpected)}" if len(unexpected) == 1 else f"Tests {joined_words(sorted(unexpected))}"
    sentence = f"<b>{which}: the program does not do what is expected.</b> The score is that of a wrong program."
    return f'<p class="warn">{sentence}</p>\n'


class Analysed(NamedTuple):
    """A job, its printed program, its list of mutants, and its report."""

    job: Job
    printed: Sequence[str]
    listed: Sequence[Mutant]
    report: Report


def report_page(analysed: Analysed, remark: str = "", outcomes: Outcomes = Outcomes(), said: Said = NOTHING) -> str:
    """The page of a job that was analysed, with what else is said of it."""
    job, printed, listed, report = analysed
    assert_same_mutants(listed, report)
    if len(job.suite) != report.tests:
        raise ValueError("the report and the job have not the same number of tests")
    statements = statements_by_line(job.source, printed)
    if not {mutant.line for mutant in listed} <= set(statements):
        raise ValueError("the list has mutants of lines that are none of the job")
    survivors, count, proofs = report.survivors, summed(report.counts.values()), said.proofs
    listing = listing_part(job, statements, listed, report, said)
    reasons = declared_part(listed, report.rows, statements, said)
    folded, proved = proved_part(listed, report.rows, statements, said), count_of_proved(report.rows, proofs)
    links, bodies = sections(
        [
            ("program", "The program", program_key() + filter_part(survivors) + listing),
            *([("declared", "Declared equivalent", reasons)] if reasons else []),
            *([("proved", "Proved equivalent", folded)] if folded else []),
            ("operators", "The operators", operators_part(report.counts)),
            ("tests", "The tests", tests_part(job.suite, report.rows, *outcomes, said.titles)),
            ("matrix", "The kill matrix", matrix_part(listed, report.rows, statements, report.tests)),
        ]
    )
    head = f"<h1>{text(report.unit)}: which mutants the tests kill</h1>\n" + remark_part(remark)
    head += remark_part(proofs.remark) if proved else ""
    head += unexpected_part(outcomes.unexpected) + score_part(count, proved) + proofs_part(count, proved)
    head += decided_part(count, proved, proofs) + subsuming_part(listed, report.rows) + facts_of(report)
    head += wrong_part(report.rows, proofs) + remarks_part(said.remarks)
    return page(f"{report.unit}: {KIND}", head + first_look(survivors, proved, said) + links, bodies)


def listing_part(job: Job, statements: Mapping[int, str], listed: Sequence[Mutant], report: Report, said: Said) -> str:
    """The program with its survivors, and the declared and proved mutants that survived."""
    marked = at_lines(listed, report.rows, report.survivors, said.proofs)
    remarks = {**{name: each.text for name, each in said.boxes.items()}, **said.all_reasons}
    return program_part(said.shown_for(job), statements, marked._replace(remarks=remarks), has_links=True)


def filter_part(survivors: Iterable[Mutant]) -> str:
    """A choice of one operator, which only a script can serve: without one it is not seen."""
    ops = sorted({mutant.op for mutant in survivors})
    if len(ops) < 2:
        return ""
    options = "".join(f"<option>{text(op)}</option>" for op in ops)
    choice = f'<select><option value="">all operators</option>{options}</select>'
    return f'<p class="filter" hidden><label>Survivors of {choice}</label></p>\n'


def program_key() -> str:
    return (
        "<p>Before each statement: how many of its mutants are killed, and how many survive. A survivor is named by its"
        " operator and its number there; <del>what the mutant takes away</del> is struck out, and"
        " <ins>what it puts there</ins> is underlined.</p>\n"
    )
