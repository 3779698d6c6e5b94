"""What a source may hide: text after column 72, which is not read, and comments that look like statements."""

import re
from collections.abc import Iterator, Sequence

from mutants.english import first_words, plural
from mutants.texts.cards import is_comment, source_lines

# How many lines get a remark each, and how many characters of a line are shown.
MOST, LONGEST = 5, 50
# What columns 73 to 80 of cards had: a number of the card, or a name and a number.
CARD_NUMBER = re.compile(r"[A-Z]{0,4} *\d{2,8}")
NAME = "[A-Z][A-Z0-9]{0,5}"
TERM = rf"[+-]?(?:\.NOT\.)?(?:{NAME}|\d+|\.TRUE\.|\.FALSE\.)"
SUM = rf"{TERM}(?:(?:[-+/]|\*\*?|\.(?:EQ|NE|LT|LE|GT|GE|AND|OR|EQV|NEQV)\.){TERM})*"
# Statements, without their parentheses and all that stands in them.
STATEMENT = re.compile(
    rf"\d{{0,5}}(?:{NAME}={SUM}|GOTO(?:\d+|,?{NAME})|IF(?:THEN|GOTO\d+|RETURN|STOP|CONTINUE|{NAME}={SUM}|\d+,\d+,\d+)"
    rf"|ELSEIFTHEN|DO\d+,?{NAME}={SUM},{SUM}(?:,{SUM})?|CALL{NAME}|CONTINUE|RETURN|ENDIF|ENDDO"
    rf"|(?:INTEGER|LOGICAL|DIMENSION|COMMON){NAME}(?:,{NAME})*)"
)
# Words that are followed by other words in a statement, with blanks between them.
KEYWORD = re.compile(r" *\d* *(GO *TO|DO +\d+|CALL|ELSE *IF|END *(IF|DO)|INTEGER|LOGICAL|DIMENSION|COMMON|IF\b.*)")


def without_parentheses(text: str) -> str:
    """A text without what stands in parentheses. After a name nothing takes its place, elsewhere a number."""
    while True:
        shorter = re.sub(r"([A-Z0-9]?)\([^()=]*\)", lambda item: item[1] or "1", text)
        if shorter == text:
            return text
        text = shorter


def is_statement(text: str) -> bool:
    """Whether a text looks like a statement. Two words with only a blank between are prose, unless a keyword is in
    front."""
    keyword = KEYWORD.match(text.upper())
    bare = text.upper()[keyword.end() :] if keyword else text.upper()
    if re.search(r"[A-Z0-9] +[A-Z0-9]", bare) or not text.strip():
        return False
    flat = without_parentheses(re.sub(r"\s", "", text.upper()))
    # An IF has a condition in parentheses.
    is_bare = "IF" in flat[:11] and "(" not in text
    return STATEMENT.fullmatch(flat) is not None and not is_bare


def hidden_statement(line: str) -> bool:
    """Whether a comment looks like a statement, from column 1 on or after its C or star."""
    if line[:1] not in ("C", "c", "*"):
        return False
    if line[:1] != "*" and line[1:2] not in ("", " ") and is_statement(line[:72]):
        return True
    # Two words such as CALL ME may be prose; a statement that was commented out has more words, or only one.
    text = line[1:72].strip()
    has_more = " " not in text or re.search(r"[=(,\d]", text) is not None
    return line[1:6].strip(" 0123456789") == "" and has_more and is_statement(text)


def listed(lines: Sequence[tuple[int, str]], one: str, many: str) -> Iterator[str]:
    """A sentence for each of a few lines, or one for all; `{}` stands for what is shown of them."""
    if len(lines) <= MOST:
        yield from (f"line {number}: {one.format(shown[:LONGEST].strip())}" for number, shown in lines)
        return
    yield f"lines {first_words([number for number, _ in lines], MOST)}: {many.format(lines[0][1][:LONGEST].strip())}"


def behind_72(lines: Sequence[str]) -> Iterator[str]:
    """Remarks on text after column 72. Numbers of cards have a single one."""
    texts = [(number, line[72:].strip()) for number, line in enumerate(lines, 1) if not is_comment(line)]
    numbers = [(number, text) for number, text in texts if CARD_NUMBER.fullmatch(text.upper())]
    others = [(number, text) for number, text in texts if text and not CARD_NUMBER.fullmatch(text.upper())]
    one, many = "{!r} stands behind column 72 and is not read", "text behind column 72 is not read, as {!r}"
    yield from listed(others, one, many)
    if numbers:
        cards = f"{plural(len(numbers), 'line')} with what looks like the number of a card"
        yield f"{cards} behind column 72, which is not read: the first is line {numbers[0][0]}, {numbers[0][1]!r}"


def remarks_on_text(source: str) -> list[str]:
    """Remarks on a source that may have been meant otherwise."""
    lines = source_lines(source)
    comments = [(number, line) for number, line in enumerate(lines, 1) if hidden_statement(line)]
    one = "column 1 makes a comment of what looks like a statement: {!r}"
    many = "column 1 makes comments of what looks like statements, the first {!r}"
    return [*behind_72(lines), *listed(comments, one, many)]
