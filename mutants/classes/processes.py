"""The jobs of a class are run on this machine, each by a process of the program, several at once."""

from collections.abc import Callable, Sequence

from mutants.program.calling import Fault
from mutants.program.many import Calls, Handling, ask_many, processors
from mutants.program.parallel import text_of_answer
from mutants.statuses import SUCCESS


def text_of_call(calls: Calls, words: Sequence[str], job: bytes) -> str:
    """What is kept of a job: the report, or the line that says why there is none. Other jobs go on."""
    try:
        return text_of_answer(calls.answer(words, job), SUCCESS)
    except Fault as fault:
        return f"{fault.line}\n"


def run_here(
    program: str, words: Sequence[str], jobs: Sequence[bytes], count: int | None, keep: Callable[[int, str], None]
) -> None:
    """Runs the jobs; `keep` is called with the place and the text of each as it ends."""
    calls = [(["run", *words], job) for job in jobs]
    ask_many(program, calls, count or processors(), Handling(keep, ask=text_of_call))
