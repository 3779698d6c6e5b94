"""Statements outside the subset, recognised by their first words: of FORTRAN 77, of later Fortran, of compilers."""

import re
from collections.abc import Iterable, Iterator

from mutants.explanations.habits import Seen
from mutants.explanations.names import TYPES

NAME = "[A-Z][A-Z0-9]*"
# Statements by their beginnings without blanks, longer ones first. The first group that matched is the word.
BEGINNINGS = (
    (r"CALL[A-Z]", "CALL"),
    (r"READ[(*A-Z0-9]", "READ"),
    (r"WRITE\(", "WRITE"),
    (r"PRINT[*A-Z0-9']", "PRINT"),
    (r"FORMAT\(", "FORMAT"),
    (r"(OPEN|CLOSE|INQUIRE)\(|(REWIND|BACKSPACE|ENDFILE)[(A-Z0-9]", "files"),
    (r"PARAMETER\(", "PARAMETER"),
    (rf"(?:{TYPES})?FUNCTION[A-Z]", "FUNCTION"),
    (r"(RECURSIVE|PURE|ELEMENTAL|IMPURE|MODULE)SUBROUTINE[A-Z]", "words before SUBROUTINE"),
    (r"PROGRAM[A-Z]", "PROGRAM"),
    (r"(BLOCKDATA|ENDMODULE|MODULE|CONTAINS|INTERFACE|ENDINTERFACE)(?![(*+])|(USE)[A-Z]", "other unit"),
    (r"IMPLICITNONE", "IMPLICIT NONE"),
    (r"IMPLICIT[A-Z]", "IMPLICIT"),
    (r"DOUBLEPRECISION[A-Z:,]", "DOUBLE PRECISION"),
    (r"REAL[*(A-Z:,]", "REAL"),
    (r"COMPLEX[*(A-Z:,]", "COMPLEX"),
    (r"CHARACTER[*(A-Z:,]", "CHARACTER"),
    (r"COMMON[/A-Z]", "COMMON"),
    (r"SAVE(?:$|[/A-Z:])", "SAVE"),
    (r"EXTERNAL[A-Z:]", "EXTERNAL"),
    (r"INTRINSIC[A-Z:]", "INTRINSIC"),
    (r"EQUIVALENCE\(", "EQUIVALENCE"),
    (r"ENTRY[A-Z]", "ENTRY"),
    (r"PAUSE(?:$|['0-9])", "PAUSE"),
    (r"ASSIGN\d+TO[A-Z]", "ASSIGN"),
    (r"GOTO[A-Z]", "assigned GO TO"),
    (rf"(?:{NAME}:)?DO(?:\d+,?)?WHILE\(", "DO WHILE"),
    (rf"{NAME}:(?:DO|IF\(|SELECTCASE)", "name of a block"),
    (rf"DO(?:$|,?{NAME}=[^,]+,)", "DO without a label"),
    (r"ENDDO", "END DO"),
    (r"END(?:SUBROUTINE|PROGRAM|FUNCTION)", "END SUBROUTINE"),
    (r"SELECTCASE\(|CASE\(|CASEDEFAULT|ENDSELECT", "SELECT CASE"),
    (r"CYCLE(?:$|[A-Z])", "CYCLE"),
    (r"EXIT(?:$|[A-Z])", "EXIT"),
    (r"STOP.", "STOP with a code"),
    (r"RETURN.|SUBROUTINE[A-Z][A-Z0-9]*\(.*\*", "alternate return"),
    (r"INCLUDE['\"]", "INCLUDE"),
    (r"(ALLOCATE|DEALLOCATE|NULLIFY|WHERE|FORALL|INTENT|ASSOCIATE)\(", "later statement"),
    (r"(ENDTYPE|ENDWHERE|ELSEWHERE|ENDFORALL)", "later statement"),
    (r"(TYPE)[A-Z(,]|(POINTER|TARGET|ALLOCATABLE|OPTIONAL|DOCONCURRENT)[A-Z:(]", "later statement"),
    (r"(NAMELIST)/|(BYTE|VIRTUAL|STRUCTURE|RECORD|AUTOMATIC|VOLATILE)[A-Z/:]", "other statement"),
)  # fmt: skip
# What a type statement of the subset may have besides.
ADDED = (
    (r"(INTEGER|LOGICAL)\*\d+", "length"),
    (r"(INTEGER|LOGICAL)\((?:KIND=)?[A-Z0-9]+\)(?!=)", "kind"),
    (r"(?:INTEGER|LOGICAL|DIMENSION)[A-Z0-9*(),=:_]*::", "colons"),
    (rf"(?:INTEGER|LOGICAL)(?:\*\d+)?{NAME}(?:\([0-9,]+\))?/", "first value"),
)
# Words that are shown with their blanks.
BLANKS = {"BLOCKDATA": "BLOCK DATA", "DOCONCURRENT": "DO CONCURRENT"}
# An assignment to a name that begins like a keyword is no such statement.
ASSIGNMENT = re.compile(rf"{NAME}(?:\([^=]*\))?=(?!=)")
LOOP = re.compile(rf"DO,?{NAME}=[^,]+,")


def seen_by(forms: Iterable[tuple[str, str]], text: str) -> Iterator[Seen]:
    """The habits whose forms a text begins with."""
    for form, habit in forms:
        match = re.match(form, text)
        if match:
            word = next(filter(None, match.groups()), "")
            yield Seen(habit, {"word": BLANKS.get(word, word)})


def keyword_habits(text: str) -> list[Seen]:
    """The habits of a statement, without blanks, by its first words; for a type statement also by all else that it
    has."""
    if ASSIGNMENT.match(text) and not LOOP.match(text):
        return []
    return list(seen_by(BEGINNINGS, text))[:1] or list(seen_by(ADDED, text))
