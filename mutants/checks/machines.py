"""GNU parallel runs the parts of a job on several machines. The first part that has no report ends all of them."""

from collections.abc import Callable, Iterable, Sequence

from mutants.english import plural
from mutants.program.calling import Fault, failure_of
from mutants.program.many import Call, Keep
from mutants.program.parallel import find_parallel, spread
from mutants.statuses import SUCCESS

# So much of what parallel says of a failure is shown.
LONGEST = 200


def ask_machines(
    program: str, calls: Sequence[Call], jobs: int | None, logins: Iterable[str], keep: Keep, tick: Callable[[], None]
) -> None:
    """Makes these calls on the machines. `keep` is called with the place and the text of each as it ends."""
    find_parallel()
    come: list[int] = []

    def take(place: int, text: str, status: int) -> None:
        if status != SUCCESS:
            raise Fault(calls[place][0][0], failure_of(text, status), status)
        keep(place, text)
        tick()
        come.append(place)

    tick()
    complaint = spread(program, calls, jobs, logins, take)[:LONGEST]
    if len(come) < len(calls):
        missing = plural(len(calls) - len(come), "part")
        raise ValueError(f"{missing} of the job without an answer{f': {complaint}' if complaint else ''}")
