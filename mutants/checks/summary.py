"""What a check shows on the terminal: the score and the lines with most survivors. Or all: what the program does on the
tests, the survivors by line with what each changes, and the tests that add nothing."""

from collections.abc import Iterable, Iterator, Sequence
from itertools import groupby
from textwrap import wrap
from typing import NamedTuple

from mutants.checks.checking import Checked
from mutants.declarations.boxes import boxed_text
from mutants.declarations.proofs import (
    count_of_proved, decided_text, left_out_text, score_without, wrongly_declared, wrongly_proved,
)  # fmt: skip
from mutants.declarations.said import NO_REASON, Group, groups_of_person, groups_of_proofs, proved_text
from mutants.english import joined_words, plural
from mutants.pages.report import DISAGREE, by_line, counts_by_line, no_survivor_text, survivors_text
from mutants.pages.suite import NUMBERS, alone_of, needless_text, titled
from mutants.texts.lines import Mutant
from mutants.texts.ranges import rows_of
from mutants.texts.reports import score_of, summed
from mutants.texts.spans import change_of
from mutants.texts.subsuming import subsuming
from mutants.texts.twins import count_of_programs, name_of, names_text, twins_in

# So many survivors of an operator are shown on a line; so wide is a name at least.
ALIKE, NAME = 8, 8
# The lines of the program, and the survivors of each, that are shown where not all is asked for.
TOP, FEW = 10, 3
ABS = "ABS"
# Where more lines than these are shown, the score stands at the end again; and so wide is a long sentence.
LONG, WIDTH = 60, 118


class Telling(NamedTuple):
    """How much is shown: the survivors of at most `top` lines of the program, or everything; and whether each proved
    mutant is named."""

    top: int = TOP
    is_all: bool = False
    shows_proved: bool = False


def outcome_lines(checked: Checked) -> Iterator[str]:
    """What the program itself does on each test."""
    tests, titles = [*enumerate(checked.job.suite, 1)], checked.said.titles
    shown = [(titled(test, number, titles), outcome) for (number, test), outcome in zip(tests, checked.outcomes)]
    if not shown:
        return
    yield "The program on the tests:"
    wide = max(len(values) for values, _ in shown)
    for number, (values, outcome) in enumerate(shown, 1):
        yield f"  {number:>3}  {values:<{wide}}  {outcome}"


def difference_lines(checked: Checked) -> Iterator[str]:
    """The tests on which the program does not do what is expected; or on how many it does."""
    differences = checked.unexpected
    if checked.expected and not differences:
        yield f"As expected on {plural(checked.expected, 'test')}."
    if differences:
        yield f"NOT AS EXPECTED: {plural(len(differences), 'test')}. The score is that of a program that is wrong."
    for each in differences:
        values = titled(checked.job.suite[each.test - 1], each.test, checked.said.titles)
        yield f"  test {each.test}  {values}: {each.outcome}, expected {each.expected}"


def proved_count(checked: Checked) -> int:
    """How many mutants do not count since they are proved equivalent, and for no other reason."""
    return count_of_proved(checked.report.rows, checked.said.proofs)


def score_line(checked: Checked) -> str:
    count = summed(checked.report.counts.values())
    score = f"Score {score_of(count)} %" if count.wanted else "No score"
    line = f"{score}: {count.killed} of {plural(count.wanted, 'mutant')} killed"
    line += left_out_text(count, proved_count(checked))
    return f"{line}, of those that were asked for." if checked.left_out else f"{line}."


def proof_lines(checked: Checked) -> Iterator[str]:
    """The score without the proofs, and how many mutants are decided."""
    proved, count = proved_count(checked), summed(checked.report.counts.values())
    if proved:
        yield f"Without the proofs it is {score_without(count, proved)}."
    yield from filter(None, [decided_text(count, proved, checked.said.proofs)])


def subsuming_lines(checked: Checked) -> Iterator[str]:
    """The score over the mutants that subsume all others, where it differs from the score."""
    least = subsuming(checked.listed, checked.report.rows)
    if least.counted.total < sum(row.status != "E" for row in checked.report.rows):
        yield least.text()


def twin_lines(checked: Checked) -> Iterator[str]:
    """The counts of programs, where several mutants are one program. The score counts mutants, as the report does."""
    count = count_of_programs(checked.listed, checked.report.rows)
    if count.total < len(checked.listed):
        programs = plural(count.wanted, "different program")
        yield f"Some of the mutants are the same program: {count.killed} of {programs} killed."


def wrong_lines(checked: Checked) -> Iterator[str]:
    rows, proofs = checked.report.rows, checked.said.proofs
    wrong, proved = wrongly_declared(rows, proofs), wrongly_proved(rows, proofs)
    if wrong:
        verb = "it" if len(wrong) == 1 else "each of them"
        yield f"WRONGLY DECLARED EQUIVALENT: {joined_words(wrong)}. A test kills {verb}."
    if proved:
        yield f"PROVED, AND YET KILLED: {joined_words(proved)}. {DISAGREE}"


def declared_lines(checked: Checked) -> Iterator[str]:
    """The mutants that a person declares, with their texts and reasons, those first that a test kills."""
    groups = groups_of_person(checked.listed, checked.report.rows, checked.said)
    if groups:
        yield f"{plural(sum(len(each.mutants) for each in groups), 'mutant')} declared equivalent:"
    yield from group_lines(checked, groups)


def proved_lines(checked: Checked, shows_proved: bool) -> Iterator[str]:
    """The mutants that are proved equivalent: their number, or each; and how many of them a person declares too. A
    person's word is of all tests, so a proof with steps to spare does not stand for it."""
    said, proofs = checked.said, checked.said.proofs.for_all_tests()
    groups = groups_of_proofs(checked.listed, checked.report.rows, said)
    if groups:
        is_one = sum(len(each.mutants) for each in groups) == 1
        end = ":" if shows_proved else f" (--show-proved tells {'it' if is_one else 'each'})."
        yield f"{proved_text(groups, said.proofs)}{end}"
    yield from group_lines(checked, groups if shows_proved else [])
    both = [name for name in map(name_of, checked.listed) if name in proofs.spares and name in proofs.declared]
    if both:
        verb = "is" if len(both) == 1 else "are"
        yield f"Of the declared mutants {len(both)} {verb} proved too, and need not be declared."


def group_lines(checked: Checked, groups: Iterable[Group]) -> Iterator[str]:
    """Declared mutants with their texts and reasons."""
    for each in groups:
        first = each.mutants[0]
        change = changed_text(checked.statements[first.line], first.text)
        killed = "KILLED, " if each.row.status == "W" else ""
        yield f"  {names_text(each.mutants):<{NAME}}  line {first.line}: {change}: {killed}{each.reason or NO_REASON}"


def changed_text(old: str, new: str) -> str:
    """A statement with what a mutant changes, as [old -> new]."""
    change = change_of(old, new)
    return f"{change.front}[{change.old} -> {change.new}]{change.back}"


def line_lines(survivors: Iterable[Mutant], statement: str) -> Iterator[str]:
    """The survivors of a line, twins as one; where an operator has many, some of them."""
    every = twins_in(survivors)
    wide = max([NAME, *(len(names_text(twins)) for twins in every)])
    for op, alike in groupby(every, key=lambda twins: twins[0].op):
        groups = list(alike)
        shown = groups if len(groups) <= ALIKE else groups[: ALIKE - 1]
        for twins in shown:
            yield f"  {names_text(twins):<{wide}}  {changed_text(statement, twins[0].text)}"
        if len(shown) < len(groups):
            yield f"  {op:<{wide}}  and {sum(map(len, groups[len(shown) :]))} more"


def few_lines(survivors: Iterable[Mutant], statement: str) -> Iterator[str]:
    """A few survivors of a line, those of ABS last, which are equivalent most often."""
    groups = sorted(twins_in(survivors), key=lambda twins: twins[0].op == ABS)
    shown = groups if len(groups) <= FEW else groups[: FEW - 1]
    for twins in shown:
        yield f"  {names_text(twins):<{NAME}}  {changed_text(statement, twins[0].text)}"
    rest = [mutant for twins in groups[len(shown) :] for mutant in twins]
    if rest:
        yield f"  and {len(rest)} more, of {joined_words(sorted({mutant.op for mutant in rest}))}"


def survivor_lines(checked: Checked, telling: Telling) -> Iterator[str]:
    """The survivors by line: all of them, or a few of those lines that have most."""
    survivors, counts = checked.report.survivors, counts_by_line(checked.listed, checked.report.rows)
    lines = by_line(survivors)
    if not survivors:
        yield no_survivor_text(proved_count(checked))
        return
    head = survivors_text(survivors)
    order = sorted(lines, key=lambda line: (-len(lines[line]), line))[: telling.top]
    rest = len(lines) - len(order)
    more = f" The {plural(len(order), 'line')} with most (--top N tells more, --all all):" if rest else ""
    yield f"{head}, each with what it changes:" if telling.is_all else f"{head}.{more}" if more else f"{head}:"
    for line in sorted(lines) if telling.is_all else order:
        yield f"line {line}: {checked.statements[line]} ({len(lines[line])} of {counts[line].total} survive)"
        tell = line_lines if telling.is_all else few_lines
        yield from tell(lines[line], checked.statements[line])


def box_lines(checked: Checked) -> Iterator[str]:
    """How many of the survivors are killed by no row of a box that was searched."""
    boxed = checked.said.killed_by_no_row(checked.report.survivors)
    if boxed:
        yield f"{boxed_text(boxed)} The page names the box."


def half_declared_lines(checked: Checked) -> Iterator[str]:
    """The survivors whose program is declared equivalent, but only under the name of another mutant."""
    declared = {name_of(row) for row in checked.report.rows if row.status == "E"}
    alive = {name_of(row) for row in checked.report.rows if row.status == "S"}
    for group in twins_in(checked.listed):
        others = [twin for twin in group if name_of(twin) in declared]
        left = [twin for twin in group if name_of(twin) in alive]
        if others and left:
            same = f"{names_text(left)} and {names_text(others)} are the same program"
            yield f"{same}, and only the last is declared equivalent (mutants declare takes all names)."


def unreached_lines(checked: Checked) -> Iterator[str]:
    """The statements that no test comes to, as far as the report shows it: a trap in their place survives. Where the
    trap is proved equivalent, no test can come there."""
    traps = [mutant for mutant in checked.listed if mutant.op == "SAN" and mutant.text == "TRAP"]
    alive, proved = set(checked.report.survivors), checked.said.proofs.spares
    for verb, lines in (
        ("comes", [mutant.line for mutant in traps if mutant in alive]),
        ("can come", [mutant.line for mutant in traps if name_of(mutant) in proved]),
    ):
        if lines:
            yield f"No test {verb} to {'line' if len(lines) == 1 else 'lines'} {joined_words(sorted(lines))}."


def ranges_text(numbers: Sequence[int]) -> str:
    """Numbers in ascending order, those in a row as a range: 1, 3 to 9 and 12."""
    return joined_words(" to ".join(map(str, row)) for row in rows_of(numbers))


def suite_lines(checked: Checked) -> Iterator[str]:
    """The tests that add nothing; where these are too many for one sentence, their numbers stand behind it."""
    tests = len(checked.job.suite)
    if not tests or not checked.report.rows:
        return
    alone = alone_of(checked.report.rows, tests)
    yield needless_text(alone)
    numbers = [number for number, count in enumerate(alone, 1) if not count]
    if len(numbers) > NUMBERS:
        yield from wrap(f"They are {ranges_text(numbers)}.", WIDTH, subsequent_indent="  ")


def score_lines(checked: Checked) -> Iterator[str]:
    """The score, with what is wrong with it in front and what it leaves out behind."""
    yield from wrong_lines(checked)
    yield score_line(checked)
    yield from proof_lines(checked)
    yield from subsuming_lines(checked)
    yield from (f"Left out: {each}." for each in checked.left_out)


def short_lines(checked: Checked, telling: Telling, since: Sequence[str]) -> Iterator[str]:
    """The score, what changed, and the lines with most survivors."""
    yield from [*difference_lines(checked), *score_lines(checked), *since, ""]
    yield from survivor_lines(checked, telling)
    yield from [*box_lines(checked), *half_declared_lines(checked), *unreached_lines(checked)]
    yield from [*(proved_lines(checked, True) if telling.shows_proved else ()), ""]


def all_lines(checked: Checked, telling: Telling, since: Sequence[str]) -> Iterator[str]:
    yield from [*outcome_lines(checked), *difference_lines(checked), ""]
    yield from [*score_lines(checked), *twin_lines(checked), *since, ""]
    yield from survivor_lines(checked, telling)
    yield from [*box_lines(checked), *half_declared_lines(checked), *unreached_lines(checked)]
    yield from [*declared_lines(checked), *proved_lines(checked, telling.shows_proved), "", *suite_lines(checked)]


def summary(
    checked: Checked, program: object, more: Sequence[str], telling: Telling = Telling(), since: Sequence[str] = ()
) -> str:
    """The whole text; `since` are lines on the last check, and `more` those on what was written."""
    lines = [f"{checked.report.unit} of {program}: {plural(len(checked.job.suite), 'test')}"]
    lines += (all_lines if telling.is_all else short_lines)(checked, telling, since)
    lines += [score_line(checked)] if telling.is_all and len(lines) > LONG else []
    lines += more
    return "\n".join(lines).rstrip("\n") + "\n"
