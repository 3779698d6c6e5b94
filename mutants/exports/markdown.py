"""A check in Markdown, for the summary of a build or a review: the score, and the lines with survivors."""

from collections.abc import Iterable, Sequence

from mutants.checks.checking import Checked
from mutants.checks.summary import changed_text, difference_lines, score_line, score_lines
from mutants.english import plural
from mutants.pages.report import by_line, counts_by_line, no_survivor_text
from mutants.texts.lines import Mutant
from mutants.texts.markdown import cell, code, table
from mutants.texts.twins import names_text, twins_in

# So many changes of a line are shown; where there are more rows than these, the table is folded.
SHOWN, UNFOLDED = 3, 10


def changes_text(survivors: Iterable[Mutant], statement: str) -> str:
    """The first few survivors of a line, each with its change."""
    groups = twins_in(survivors)
    changes = [f"{cell(names_text(group))} {code(changed_text(statement, group[0].text))}" for group in groups[:SHOWN]]
    return "<br>".join([*changes, *([f"and {len(groups) - SHOWN} more"] if len(groups) > SHOWN else [])])


def lines_table(checked: Checked) -> list[str]:
    """A row for each line with survivors, those with most first."""
    counts, lines = counts_by_line(checked.listed, checked.report.rows), by_line(checked.report.survivors)
    order = sorted(lines, key=lambda line: (-len(lines[line]), line))
    head = ["Line", "Statement", "Survive", "What survives"]
    rows = [
        [line, code(checked.statements[line]), f"{len(lines[line])} of {counts[line].total}",
         changes_text(lines[line], checked.statements[line])]
        for line in order
    ]  # fmt: skip
    shown = table(head, rows)
    if len(rows) <= UNFOLDED:
        return shown
    summary = f"{plural(len(checked.report.survivors), 'survivor')} on {plural(len(rows), 'line')}"
    return ["<details>", f"<summary>{summary}</summary>", "", *shown, "", "</details>"]


def markdown_text(checked: Checked, program: object, remarks: Sequence[str] = ()) -> str:
    """The whole text; `remarks` are further lines, on what changed and on the build."""
    score = score_line(checked)
    more = [*difference_lines(checked), *(line for line in score_lines(checked) if line != score), *remarks]
    lines = [f"### {cell(checked.report.unit)} of {cell(program)}: {plural(len(checked.job.suite), 'test')}", ""]
    lines += [f"**{cell(score)}**", "", *(f"- {cell(line.strip())}" for line in more), ""]
    lines += lines_table(checked) if checked.report.survivors else [no_survivor_text(0)]
    return "\n".join(lines) + "\n"
