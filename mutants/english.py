"""Words of English: numbers with their nouns, and lists."""

from collections.abc import Iterable, Sequence


def plural(count: int, noun: str) -> str:
    return f"{count} {noun}" if count == 1 else f"{count} {noun}s"


def joined_words(words: Iterable[object]) -> str:
    """Words joined by commas, and "and" before the last."""
    texts = list(map(str, words))
    return " and ".join([", ".join(texts[:-1]), texts[-1]] if len(texts) > 1 else texts)


def first_words(words: Sequence[object], most: int) -> str:
    """At most `most` words joined; of more words the first ones, and how many others there are."""
    rest = [f"{len(words) - most} more"] if len(words) > most else []
    return joined_words([*words[:most], *rest])


def tests_text(numbers: Sequence[int], most: int = 5) -> str:
    """Tests by number, the first few of many."""
    return f"test{'s' if len(numbers) > 1 else ''} {first_words(numbers, most)}"
