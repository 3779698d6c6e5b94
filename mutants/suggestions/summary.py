"""What is said of suggestions: the rows, what each of them does and kills, and the survivors that none killed."""

from collections import defaultdict
from collections.abc import Iterable, Iterator, Mapping, Sequence
from pathlib import Path
from textwrap import wrap

from mutants.checks.checking import dummies_of
from mutants.checks.summary import WIDTH, difference_lines, line_lines, ranges_text, score_line, wrong_lines
from mutants.declarations.boxes import NO_PROOF
from mutants.declarations.proofs import count_of_proved, killed_later
from mutants.english import joined_words, plural
from mutants.pages.report import by_line, no_survivor_text
from mutants.suggestions.aims import Aim, kept_lines
from mutants.suggestions.box import BoxSearch
from mutants.suggestions.shapes import Row
from mutants.suggestions.suggesting import Suggested
from mutants.suggestions.tables import Layout
from mutants.texts.lines import Mutant
from mutants.texts.proofs import Left
from mutants.texts.twins import name_of, names_text, twins_in

LOOK = "What the program does on a row is its own outcome, right or wrong: look at it before you take the row."
HINT = "That is a hint at equivalence, and no more than that."
UNTRIED = "No row was tried, so this says nothing of them."


def killed_by(result: Suggested, number: int) -> tuple[list[Mutant], int]:
    """The survivors of the tests that a suggested row kills, and how many of them it alone kills."""
    alive = {mutant[:3] for mutant in result.start.report.survivors}
    pairs = [pair for pair in zip(result.final.listed, result.final.report.rows) if pair[0][:3] in alive]
    killed = [(mutant, row) for mutant, row in pairs if row.bits[number - 1] == "1"]
    return [mutant for mutant, _ in killed], sum(row.bits.count("1") == 1 for _, row in killed)


def mutants_text(mutants: Iterable[Mutant]) -> str:
    """Mutants by operator, with their numbers, and twins together: ROR 1 and 3 to 5; SDL 2; AAR 1, SVR 15 as one."""
    groups = twins_in(mutants)
    by_op: dict[str, list[int]] = defaultdict(list)
    for first, *others in groups:
        if not others:
            by_op[first.op].append(first.place)
    alone = [f"{op} {ranges_text(numbers)}" for op, numbers in by_op.items()]
    return "; ".join([*alone, *(f"{names_text(twins)} as one" for twins in groups if len(twins) > 1)])


def row_lines(result: Suggested, row: Row, number: int, layout: Layout) -> Iterator[str]:
    """What a row does as a test of this number: its outcome, and the survivors that it kills, by line."""
    killed, alone = killed_by(result, number)
    yield f"test {number}  {layout.line(row)}: {result.final.outcomes[number - 1]}"
    yield f"  kills {plural(len(killed), 'survivor')}, {alone} of them alone"
    lines = by_line(killed)
    for line in sorted(lines):
        yield from wrap(f"  line {line}: {mutants_text(lines[line])}", WIDTH, subsequent_indent="    ")


def block_lines(rows: Sequence[Row], layout: Layout) -> Iterator[str]:
    """Rows, ready to be added to the table."""
    lines = [layout.line(row) for row in rows]
    yield from (",\n".join(lines) if layout.is_json else "\n".join(lines)).split("\n")


def suggestion_lines(result: Suggested, layout: Layout, tests: Path) -> Iterator[str]:
    """The rows, those with far values apart, and then what each of them does."""
    shape = result.search.shape
    near = [row for row in result.rows if shape.is_near(row)]
    far = result.rows[len(near) :]
    yield f"{plural(len(result.rows), 'row')} to be put behind those of {tests}."
    yield LOOK
    for values, rows in (("values like those", near), ("a value far from those", far)):
        if rows:
            yield f"With {values} of the tests:"
            yield from block_lines(rows, layout)
    yield ""
    for number, row in enumerate(result.rows, len(result.start.job.suite) + 1):
        yield from row_lines(result, row, number, layout)


def box_text(search: BoxSearch) -> str:
    """How many rows of the box were tried, and on how many the program fails."""
    whole = "all" if search.count == search.box.size else f"{search.count:,} of the"
    fails = f"; on {search.failed:,} of them the program fails, or takes over {search.steps} steps"
    tried = f"Tried: {whole} {search.box.size:,} rows of the box {search.box.text}{fails if search.failed else ''}."
    return tried if search.is_whole else f"{tried} The search was cut, so nothing is said of the others."


def tried_line(result: Suggested, seed: int) -> str:
    """How much was searched."""
    search = result.search
    if isinstance(search, BoxSearch):
        return box_text(search)
    tried = f"{plural(len(search.tried), 'row')}, {plural(search.round_number, 'round')}, seed {seed}"
    left_out = f" On {search.failed} more the program fails, or takes over {search.steps} steps: they were left out."
    return f"Tried: {tried}.{left_out if search.failed else ''}"


def proving_lines(result: Suggested) -> Iterator[str]:
    """What came of the rows that failed proofs led to, where such were run."""
    tried, killed, proved = result.proving.tried, result.proving.killed, result.search.proved.bit_count()
    if tried:
        more = f"; with them {plural(proved, 'mutant')} more could be proved equivalent" if proved else ""
        yield f"Failed proofs led to {tried} of these rows, which kill {plural(killed, 'survivor')}{more}."


def which_lines(result: Suggested) -> Iterator[str]:
    """Which of three things holds of each mutant that the tests do not kill."""
    start, left = len(result.start.report.survivors), len(result.final.report.survivors)
    before, proved = (count_of_proved(each.report.rows, each.said.proofs) for each in (result.start, result.final))
    is_box = isinstance(result.search, BoxSearch) and result.search.is_whole
    which = "that no row of this box kills" if is_box else "undecided"
    counts = f"{start + before - proved - left} killed by a row, {proved} proved equivalent, {left} {which}"
    yield f"Of the {plural(start + before, 'mutant')} that the tests do not kill: {counts}."


def reached_text(result: Suggested, line: int) -> str:
    """How many of the rows came to a line, if that is known."""
    count, asked = result.reached.by_line.get(line), result.reached.asked
    if count is None:
        return ""
    of_first = " first" if asked < len(result.search.tried) else ""
    return f"; {count} of the{of_first} {asked} rows came here"


def ends_lines(survivors: Iterable[Mutant], left: Mapping[str, Left]) -> Iterator[str]:
    """Where the proofs of survivors were given up, if that is known, and of which survivors each is so."""
    ends: dict[str, list[Mutant]] = defaultdict(list)
    for mutant in survivors:
        if name_of(mutant) in left:
            ends[left[name_of(mutant)].text()].append(mutant)
    for told, mutants in ends.items():
        yield from wrap(f"  {told}: {mutants_text(mutants)}", WIDTH, subsequent_indent="    ")


def left_lines(result: Suggested) -> Iterator[str]:
    """The survivors that no row killed, by line, and what is missing to their proofs."""
    survivors = result.final.report.survivors
    lines = by_line(survivors)
    if not survivors:
        yield no_survivor_text(count_of_proved(result.final.report.rows, result.final.said.proofs))
        return
    verb = "is one survivor" if len(survivors) == 1 else f"are {len(survivors)} survivors"
    is_box = isinstance(result.search, BoxSearch) and result.search.is_whole
    hint = HINT if result.search.tried else UNTRIED
    which = f"no row of this box kills. {NO_PROOF}" if is_box else f"no row killed. {hint}"
    yield f"There {verb} on {plural(len(lines), 'line')} that {which}"
    for line in sorted(lines):
        statement = result.final.statements[line]
        yield f"line {line}: {statement} ({len(lines[line])} left{reached_text(result, line)})"
        yield from line_lines(lines[line], statement)
        yield from ends_lines(lines[line], result.proving.proofs.left)


def needless_lines(result: Suggested) -> Iterator[str]:
    """The tests of the table that may be left out once the rows are in it."""
    if not result.needless:
        yield "No test of the table becomes needless." if result.rows else "No row is new, so no test becomes needless."
        return
    rest = len(result.final.job.suite) - len(result.needless)
    which = f"{'Test' if len(result.needless) == 1 else 'Tests'} {joined_words(result.needless)}"
    sentence = f"{which} of the table may be left out then: the other {plural(rest, 'test')} kill the same mutants"
    yield f"{sentence}{' of those that were asked for' if result.final.left_out else ''}."


def spare_lines(result: Suggested) -> Iterator[str]:
    """The mutants with steps to spare that a row kills. The next check does not call them proved."""
    names = killed_later(result.final.report.rows, result.final.said.proofs)
    if names:
        verb, them = ("is", "it") if len(names) == 1 else ("are", "them")
        which = f"{joined_words(names)} {verb} proved equivalent for the tests as they are, with steps to spare"
        yield f"{which}. A row below kills {them}: it does not leave that room under the limit on steps."


def head_lines(result: Suggested, program: Path) -> Iterator[str]:
    start = result.start
    yield f"{start.report.unit} of {program}: {plural(len(start.job.suite), 'test')}"
    yield from difference_lines(start) if start.unexpected else ()
    yield from (f"Left out: {each}." for each in start.left_out)
    yield f"The tests: {score_line(start)}"
    if result.rows:
        yield f"With the rows below: {score_line(result.final)}"
    yield from wrong_lines(result.final)
    yield from spare_lines(result)


def summary(result: Suggested, program: Path, tests: Path, layout: Layout, aim: Aim) -> str:
    """The whole text, without what is said of files and of the program mothra."""
    lines = [*head_lines(result, program), ""]
    if not result.start.report.survivors:
        lines += ["No mutant survives that is not declared equivalent: there is nothing to suggest."]
        return "\n".join(lines) + "\n"
    if result.is_cut:
        lines += ["Cut short by Ctrl-C: what follows was found until then."]
    lines += [tried_line(result, aim.seed), *proving_lines(result), *which_lines(result)]
    lines += kept_lines(result.search.shape.keeps, dummies_of(result.start.printed))
    none = ["No row was found that kills a survivor."]
    lines += ["", *(suggestion_lines(result, layout, tests) if result.rows else none)]
    lines += needless_lines(result) if aim.drops else []
    return "\n".join([*lines, "", *left_lines(result)]) + "\n"
