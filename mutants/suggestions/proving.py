"""Rows that failed proofs lead to: the program equivalents gives them, and they are run before rows are made by chance.

Where they kill, equivalents is asked again, about the tests and some of these rows: fewer mutants are left then, and
each of them is followed further.
"""

from collections import Counter
from collections.abc import Callable, Iterable

from mutants.declarations.proofs import proofs_of
from mutants.program.calling import Fault, OutOfTime
from mutants.suggestions.covering import few_rows
from mutants.suggestions.rounds import Search, Tell
from mutants.suggestions.shapes import Row, row_of, test_of
from mutants.texts.jobs import Job
from mutants.texts.proofs import Answer, Candidate
from mutants.texts.twins import name_of

# How many rows are asked for, of each mutant; how often it is asked again at most; and which share of the time this
# takes.
ROWS, TURNS, SHARE = 4, 6, 0.3
# What equivalents says of a job, within so many seconds.
Ask = Callable[[Job, float | None], Answer]


def in_turns(candidates: Iterable[Candidate]) -> list[list[Candidate]]:
    """The first candidate of each mutant, then the second of each, and so on."""
    counts, turns = Counter[tuple[str, int]](), list[list[Candidate]]()
    for candidate in candidates:
        turn = counts[candidate.op, candidate.place]
        counts[candidate.op, candidate.place] += 1
        turns += [[]] if turn == len(turns) else []
        turns[turn].append(candidate)
    return turns


class Proving:
    """What comes of proofs that failed: how many rows were tried, how many survivors these kill, and what is proved by
    now."""

    def __init__(self, search: Search, ask: Ask) -> None:
        self.search, self.ask = search, ask
        self.job, self.proofs = search.asker.checked.job, search.asker.checked.said.proofs
        self.tried = self.killed = 0

    def go(self, tell: Tell) -> None:
        """Runs the rows that are known, and asks again as long as a kill or a proof comes of it."""
        try:
            is_new, turns = self.run(self.proofs.candidates), 0
            while is_new and turns < TURNS and self.may_go_on():
                turns += 1
                left = self.search.alive.bit_count()
                tell(f"rows of failed proofs: {left} of {len(self.search.asker.mutants)} survivors are left")
                is_new = self.ask_again()
        except OutOfTime:
            # There is time for rows by chance.
            pass

    def may_go_on(self) -> bool:
        return self.search.alive != 0 and self.search.clock.has(0.0, SHARE)

    def run(self, candidates: Iterable[Candidate]) -> bool:
        """Runs rows for the mutants that are left. The result says whether one of them is killed."""
        search, alive, tried = self.search, self.search.alive, len(self.search.tried)
        for turn in in_turns(candidates):
            rows = self.rows(turn)
            while rows and self.may_go_on():
                search.take(rows[: search.size])
                rows = rows[search.size :]
        self.tried += len(search.tried) - tried
        self.killed += (alive & ~search.alive).bit_count()
        return search.alive != alive

    def rows(self, candidates: Iterable[Candidate]) -> list[Row]:
        """The rows that may kill a mutant that is left, where they keep what rows have to keep, and are not known."""
        search = self.search
        left = {name_of(mutant) for mutant in search.asker.of_mask(search.alive)}
        tests = [candidate.test for candidate in candidates if name_of(candidate) in left]
        kept = dict.fromkeys(search.shape.kept(row_of(test)) for test in tests)
        return [row for row in kept if row is not None and row not in search.known]

    def ask_again(self) -> bool:
        """Asks about the tests behind few rows that kill as much as all do. The result says whether anything is new."""
        search = self.search
        rows = few_rows(search.killed, search.exact, search.shape.cost)
        job = Job(self.job.source, [*map(test_of, rows), *self.job.suite])
        try:
            answer = self.ask(job, search.clock.left(SHARE))
        except Fault:
            # The first answer was one, so want of memory has come since.
            return False
        is_proved = self.learn(answer)
        return self.run(answer.candidates) or is_proved

    def learn(self, answer: Answer) -> bool:
        """Takes proofs of mutants that are left, and where others were given up. Where proofs have steps to spare, that
        is so of the tests alone too."""
        search, found = self.search, proofs_of(answer)
        left = {name_of(each): search.asker.numbers[each.op, each.place] for each in search.asker.of_mask(search.alive)}
        new = {name: spare for name, spare in found.spares.items() if name in left}
        bits = sum(1 << left[name] for name in new)
        search.alive, search.proved = search.alive & ~bits, search.proved | bits
        spares, given_up = {**self.proofs.spares, **new}, {**self.proofs.left, **found.left}
        self.proofs = self.proofs._replace(spares=spares, unfinished=found.unfinished, left=given_up)
        return bool(new)
