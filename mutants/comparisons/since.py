"""What changed since an earlier state of the same program and its tests, in a line or two; and the state of the last
check, which is kept in the user's folder for caches.

What is kept is this tool's own, so a file that is damaged, or of another version, counts as none.
"""

import gzip
import json
from collections.abc import Iterator, Sequence
from pathlib import Path
from typing import NamedTuple

from mutants import __version__
from mutants.caches import digest_of
from mutants.checks.checking import Checked
from mutants.comparisons.comparing import in_common, newly_killed, newly_surviving
from mutants.comparisons.matching import Matched, matched, tests_matched
from mutants.comparisons.states import State, Verdict, count_of
from mutants.comparisons.telling import mutants_text, score_text
from mutants.english import plural
from mutants.texts.lines import Mutant
from mutants.texts.twins import name_of

# So many states are kept, the newest.
KEPT = 100


def state_of(checked: Checked) -> State:
    """What a check says, as a comparison takes it; which tests kill is left out."""
    proofs = checked.said.proofs
    verdicts = [
        Verdict(mutant, row.status, (), proofs.is_alone(name_of(mutant)))
        for mutant, row in zip(checked.listed, checked.report.rows)
    ]
    report, tests = checked.report, [json.dumps(test) for test in checked.job.suite]
    return State(report.unit, report.steps, 1, list(report.counts), verdicts, tests, checked.statements)


class Since(NamedTuple):
    """Two states, the mutants that both have, and the name of the older one."""

    what: str
    old: State
    new: State
    mutants: Matched

    @property
    def lost(self) -> list[Mutant]:
        """The mutants that were killed and survive."""
        return [now.mutant for _, now in newly_surviving(self.mutants.pairs)]

    @property
    def changes(self) -> list[str]:
        """What changed, and how often."""
        same = len(tests_matched(self.old.tests, self.new.tests))
        counts = (
            (len(newly_killed(self.mutants.pairs)), "mutant", "newly killed"),
            (len(self.lost), "mutant", "newly surviving"),
            (len(self.mutants.added), "mutant", "new"), (len(self.mutants.gone), "mutant", "gone"),
            (len(self.new.tests) - same, "test", "new"), (len(self.old.tests) - same, "test", "gone"),
        )  # fmt: skip
        return [f"{plural(count, noun)} {how}" for count, noun, how in counts if count]

    def lines(self) -> Iterator[str]:
        yield f"Since {self.what} ({score_text(self.old)}): {', '.join(self.changes) or 'nothing has changed'}."
        if self.lost:
            yield f"NEWLY SURVIVING: {mutants_text(self.lost)}."


def since(what: str, old: State, checked: Checked) -> Since:
    """The comparison of an older state with a check, by the operators that both have."""
    one, other = in_common(old, state_of(checked))
    return Since(what, one, other, matched(one, other))


def kept_path(folder: Path, asked: Sequence[object]) -> Path:
    """Where the state of a check that is asked these things is kept."""
    return folder / f"{digest_of(json.dumps([__version__, *map(str, asked)]).encode())}.json.gz"


def kept_state(path: Path) -> State | None:
    """The state that is kept; None where there is none that can be read."""
    try:
        stored = json.loads(gzip.decompress(path.read_bytes()))
        verdicts = [Verdict(Mutant(*mutant), status, (), proved) for mutant, status, proved in stored.pop("verdicts")]
        statements = {int(line): statement for line, statement in stored.pop("statements").items()}
        state = State(**stored, verdicts=verdicts, statements=statements)
        count_of(state.verdicts)
        return state
    except (OSError, EOFError, ValueError, TypeError, KeyError, AttributeError):
        return None


def bytes_of(state: State) -> bytes:
    """A state as it is kept."""
    verdicts = [[each.mutant, each.status, each.is_proved] for each in state.verdicts]
    stored = {**state._asdict(), "verdicts": verdicts}
    return gzip.compress(json.dumps(stored).encode(), 1, mtime=0)
