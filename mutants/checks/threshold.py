"""The least score that is asked for, by --fail-under or by a file of options."""

import argparse
from collections.abc import Iterator
from fractions import Fraction

from mutants.texts.reports import Count
from mutants.words import percent, percent_text


def add_threshold(parser: argparse.ArgumentParser) -> None:
    text = "exit status 3 where the score is below this percentage"
    parser.add_argument("--fail-under", metavar="PERCENT", type=percent, help=text)


def is_below(count: Count, least: Fraction | None) -> bool:
    """Whether the exact score is below what is asked for; where there is none, nothing is."""
    return least is not None and count.wanted > 0 and Fraction(100 * count.killed, count.wanted) < least


def below_lines(count: Count, least: Fraction | None) -> Iterator[str]:
    if least is not None and count.wanted == 0:
        yield "There is no score, and --fail-under says nothing."
    if least is not None and is_below(count, least):
        yield f"BELOW --fail-under: the score is below {percent_text(least)} %."
