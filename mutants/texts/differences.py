"""What differs between a statement and the statement of a mutant, word by word."""

import re
from collections.abc import Sequence
from difflib import SequenceMatcher

# A word of the language, such as .EQ., a name, a constant, **; a run of blanks; or any other character.
WORD = re.compile(r"\.[A-Z]+\.|[A-Z][A-Z0-9]*|[0-9]+|\*\*| +|.", re.DOTALL)


def common_front(old: Sequence[str], new: Sequence[str]) -> int:
    count = 0
    while count < min(len(old), len(new)) and old[count] == new[count]:
        count += 1
    return count


def pieces(old: str, new: str) -> list[tuple[str, str]]:
    """The two texts as pieces in order: a mark ("=", "-" or "+") and a text; the "=" and "-" are old, "=" and "+" new.

    What is the same at both ends is set aside first, so that the change is looked for where it is.
    """
    olds, news = WORD.findall(old), WORD.findall(new)
    front = common_front(olds, news)
    back = common_front(olds[front:][::-1], news[front:][::-1])
    marked = [("=", olds[:front])]
    middles = olds[front : len(olds) - back], news[front : len(news) - back]
    for what, i, j, k, l in SequenceMatcher(None, *middles, autojunk=False).get_opcodes():
        if what == "equal":
            marked.append(("=", middles[0][i:j]))
        else:
            marked += [("-", middles[0][i:j]), ("+", middles[1][k:l])]
    marked.append(("=", olds[len(olds) - back :] if back else []))
    return [(mark, "".join(words)) for mark, words in marked if words]
