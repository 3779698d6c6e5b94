"""Answers of `equivalents`, kept in the user's folder for caches: for a program that has not changed it is not asked
again."""

from collections.abc import Callable, Sequence

from mutants.caches import keep_answer, kept_answer, path_of_answer

KIND = "proofs"
# At most this many answers and bytes are kept; the oldest are removed first.
MOST, MOST_BYTES = 5_000, 1 << 25


def answered(program: str, words: Sequence[str], job: bytes, ask: Callable[[], str], anew: bool = False) -> str:
    """The answer of the program, from the folder or asked for now. A refusal is not kept."""
    path = path_of_answer(KIND, program, words, job)
    kept = None if anew else kept_answer(path)
    if kept is not None:
        return kept
    text = ask()
    keep_answer(path, text, MOST, MOST_BYTES)
    return text
