"""The page of a class: for each program the scores, the survivors in common, and the tests that matter most."""

from collections.abc import Mapping, Sequence
from typing import NamedTuple
from urllib.parse import quote

from mutants.classes.results import (
    Class, ClassTest, Reported, Result, class_count, class_of, only_here, reported_of, survivors_in_common,
)  # fmt: skip
from mutants.declarations.proofs import NO_PROOFS, Proofs, count_of_proved
from mutants.english import first_words, joined_words, plural
from mutants.pages.frame import Cell, bar, numbers, page, remark_part, table, text
from mutants.pages.program import program_part
from mutants.pages.report import at_lines, proofs_part, score_part
from mutants.pages.suite import least_set_text, values_of
from mutants.texts.lines import Mutant
from mutants.texts.reports import Count, Row, score_of, summed


class View(NamedTuple):
    """What is shown of a program: its source, its printed statements by line, its mutants, and what is proved."""

    source: str
    statements: dict[int, str]
    listed: list[Mutant]
    proofs: Proofs = NO_PROOFS


# So many tests that kill most are shown, and so many names of those who have a test.
MOST, NAMED = 12, 3

NUMBERS = ["Tests", "Killed", "Equi&shy;valent", "Sur&shy;vive", "Only here", "Score"]
HEAD: list[Cell] = [("", "Name"), *[("n", word) for word in NUMBERS], ("bar", "")]


def linked(name: str) -> str:
    return f'<a href="jobs/{quote(name, errors="surrogateescape")}.html">{text(name)}</a>'


def score_row(result: Reported, only: Mapping[str, int]) -> list[Cell]:
    count = summed(result.report.counts.values())
    counts = result.report.tests, count.killed, count.equivalent, count.survived, only[result.name]
    return [("", linked(result.name)), *numbers(*counts), *score_cells(count)]


def score_cells(count: Count) -> list[Cell]:
    """The score, in figures and as a bar."""
    said = f"{count.killed} of {count.total}"
    return [("n", f"<b>{score_of(count)}</b>"), ("bar", bar(count.killed, count.wanted, said))]


def by_score(results: Sequence[Reported]) -> list[Reported]:
    """The results with the highest score first."""

    def order(result: Reported) -> tuple[float, str]:
        count = summed(result.report.counts.values())
        return -count.killed / count.wanted if count.wanted else 0, result.name

    return sorted(results, key=order)


def scores_part(results: Sequence[Reported]) -> str:
    only = only_here(results)
    legend = "<p><b>Only here</b>: how many mutants this suite kills that no other suite of the class kills.</p>\n"
    return table(HEAD, [score_row(result, only) for result in by_score(results)]) + legend


def refused_part(results: Sequence[Result]) -> str:
    if not results:
        return ""
    rows: list[list[Cell]] = [[("", text(result.name)), ("", text(result.refusal))] for result in results]
    return f"<h3>Without a report</h3>\n{table([('', 'Name'), ('', 'Why')], rows)}"


def unexpected_part(results: Sequence[Result]) -> str:
    """The suites that expect something else of the program than it does, or whose expectations cannot be read."""
    names = [f"{each.name} ({plural(each.unexpected, 'test')})" for each in results if each.unexpected]
    more = [f"{each.name}: {each.refusal}" for each in results if each.report and each.refusal]
    which = f"The program does not do what is expected of it by {joined_words(names)}." if names else ""
    return "".join(f'<p class="warn">{text(each)}</p>\n' for each in [which, *more] if each)


def test_row(test: ClassTest) -> list[Cell]:
    values = f"<code>{text(values_of(test.values))}</code>"
    return [("", values), ("", text(first_words(test.names, NAMED))), *numbers(test.kills, test.alone or "none")]


TESTS_HEAD: list[Cell] = [("", "Values"), ("", "Of"), ("n", "Kills"), ("n", "It alone")]


def best_tests_part(whole: Class) -> str:
    order = sorted(range(len(whole.tests)), key=lambda place: (-whole.tests[place].kills, place))
    rows: list[list[Cell]] = [
        [*test_row(whole.tests[place]), ("", "yes" if place in whole.least else "")] for place in order[:MOST]
    ]
    head = f"<p>Of {plural(len(whole.tests), 'different test')} of the class, those that kill the most.</p>\n"
    return head + table([*TESTS_HEAD, ("", "In the smallest set")], rows)


def least_part(whole: Class) -> str:
    killed = sum(mask != 0 for mask in whole.killers)
    head = f"<p>{text(least_set_text(whole.least, whole.is_least, killed, 'class'))}.</p>\n"
    return head + (table(TESTS_HEAD, [test_row(whole.tests[place]) for place in whole.least]) if whole.least else "")


def listing_part(whole: Class, results: Sequence[Reported], known: View | None) -> str:
    """The program with the survivors that all suites have in common."""
    common = survivors_in_common(whole, results)
    if known is None:
        return f"<p>{plural(len(common), 'mutant')} survive in all suites.</p>\n"
    rows = rows_of_all(whole)
    head = f"<p>{plural(len(common), 'mutant')} that no suite of the class kills. The counts are of all suites.</p>\n"
    source, statements, listed, proofs = known
    return head + program_part(source, statements, at_lines(listed, rows, common, proofs))


def rows_of_all(whole: Class) -> list[Row]:
    """The row of each mutant, where all tests of the class count as one suite."""
    return [
        row._replace(status="K" if mask else "E" if row.status in "EW" else "S")
        for row, mask in zip(whole.rows, whole.killers)
    ]


def overview(programs: Mapping[str, Sequence[Result]], classes: Mapping[str, Class | None]) -> str:
    """A row for each program, with a link to what is said of it below; nothing where there is one."""
    if len(programs) < 2:
        return ""
    rows: list[list[Cell]] = []
    for place, (name, results) in enumerate(programs.items(), 1):
        whole = classes[name]
        count = class_count(whole) if whole else Count(0, 0, 0)
        link = f'<a href="#program-{place}">{text(name or "-")}</a>'
        rows.append([("", link), *numbers(len(results), count.killed, count.wanted), *score_cells(count)])
    head: list[Cell] = [("", "Program"), *[("n", word) for word in ("Jobs", "Killed", "Of", "Score")], ("bar", "")]
    return table(head, rows)


def program_section(place: int, name: str, results: Sequence[Result], whole: Class | None, known: View | None) -> str:
    """What is said of one program: its heading, and the parts."""
    reported = reported_of(results)
    refused = refused_part([result for result in results if result.report is None])
    head = f'<h2 id="program-{place}">{text(name or "Without a program")}</h2>\n'
    if whole is None:
        return head + refused
    proofs = known.proofs if known else NO_PROOFS
    count, proved = class_count(whole), count_of_proved(rows_of_all(whole), proofs)
    parts = [
        (f"Together: {plural(len(reported), 'suite')}", score_part(count, proved) + proofs_part(count, proved)),
        ("Scores", unexpected_part(results) + scores_part(reported) + refused),
        ("Survivors in common", listing_part(whole, reported, known)),
        ("Tests that kill most", best_tests_part(whole)),
        ("The smallest set of tests", least_part(whole)),
    ]
    return head + "".join(f"<h3>{title}</h3>\n{inner}" for title, inner in parts)


def course_page(title: str, results: Sequence[Result], known: Mapping[str, View], remark: str = "") -> str:
    """The page of a class: results in order, and what is shown of each program that is known."""
    names = dict.fromkeys(result.program for result in results)
    programs = {name: [result for result in results if result.program == name] for name in names}
    reported = {name: reported_of(ours) for name, ours in programs.items()}
    classes = {name: class_of(ours) if ours else None for name, ours in reported.items()}
    done = len(reported_of(results))
    count = f"<p>{plural(len(results), 'job')}, {done} with a report.</p>\n"
    head = f"<h1>{text(title)}: what the suites kill</h1>\n{count}" + remark_part(remark)
    sections = [
        program_section(place, name, ours, classes[name], known.get(name))
        for place, (name, ours) in enumerate(programs.items(), 1)
    ]
    return page(title, head, overview(programs, classes) + "".join(sections))
