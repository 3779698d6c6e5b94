"""What each fault means: its sentence, the rule that is broken, and what to do. They stand by code in faults.txt.

Tests make sure that there is a paragraph for every code that the program has.
"""

import re
from typing import NamedTuple

from mutants.explanations.paragraphs import paragraphs_of


class Meaning(NamedTuple):
    """`detail` says what stands after the code in the line of a fault; `sections` are those of ANSI X3.9-1978."""

    detail: str
    says: str
    sections: str
    rule: str
    advice: str


PARAGRAPH = re.compile(
    r"(?P<code>[A-Z]\d+)(?: (?P<detail>[a-z]+))?\n(?P<says>.+)\n"
    r"(?:(?P<kind>Rule|Job|Limit)(?: (?P<sections>[\d., to]+))?: (?P<rule>.+)\n)?Do: (?P<advice>.+)"
)
KINDS = {
    "Rule": "",
    "Job": "A rule of jobs, not of the language: ",
    "Limit": "A limit of this program, not of the language: ",
}


def meaning_of(paragraph: "re.Match[str]") -> Meaning:
    detail, says, kind, sections, rule, advice = paragraph.groups()[1:]
    whole_rule = KINDS[kind] + rule if kind else "No rule is broken."
    return Meaning(detail or "", says, sections or "", whole_rule, advice)


MEANINGS = {paragraph["code"]: meaning_of(paragraph) for paragraph in paragraphs_of("faults.txt", PARAGRAPH)}
