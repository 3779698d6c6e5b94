"""Small programs made by chance: assignments, IFs, DOs, GO TOs, arrays and LOGICAL, each legal in the subset.

The target of a jump is a statement outside of blocks and DOs, so no jump leads into one. Most jumps lead forward, and
most variables have a value before they are read, so that most runs end.
"""

from collections.abc import Callable, Sequence
from random import Random

from developing.robustness.jobs import continued, source_of

ARGUMENTS, LOCALS = ("I", "J", "K", "N"), ("L", "M1")
# The elements of arrays: a dummy argument and a local one.
ARRAYS = {"IA": 4, "NB": 3}
TRUTHS = ("P", "Q")
CONSTANTS = ("0", "0", "1", "1", "1", "2", "2", "3", "4", "5", "7", "10", "100", "2147483647")
RELATIONS = (".LT.", ".LE.", ".EQ.", ".NE.", ".GE.", ".GT.")
# How deep expressions are at most, and blocks, and how many statements stand outside of blocks and within each.
DEPTH, NESTED = 2, (1, 1, 2)
STATEMENTS, INSIDE = (3, 6), (1, 2)
Make = Callable[[int], list[str]]


class Maker:
    """Makes one program."""

    def __init__(self, name: str, chance: Random) -> None:
        self.name, self.chance = name, chance
        self.scalars = [*chance.sample(ARGUMENTS, chance.randint(1, 3)), *LOCALS[: chance.randint(1, 2)]]
        self.arrays = [each for each in ARRAYS if chance.random() < 0.35]
        self.truths = [each for each in TRUTHS if chance.random() < 0.5]
        # The variables of the DOs that are open may not be assigned to. Labels of DOs are above those of targets of
        # jumps.
        self.busy: list[str] = []
        self.next_label = 100

    def pick(self, *items: str) -> str:
        return self.chance.choice(items)

    def number(self, depth: int = DEPTH) -> str:
        """An expression that is INTEGER."""
        if depth == 0 or self.chance.random() < 0.45:
            return self.atom()
        one, other = self.number(depth - 1), self.number(depth - 1)
        return self.pick(
            f"{one}+{other}", f"{one}-({other})", f"({one})*({other})", f"({one})/{self.divisor()}", f"IABS({one})",
            f"MOD({one},{self.pick('2', '3', '10')})", f"MIN0({one},{other})", f"MAX0({one},{other})", f"(-({one}))",
            f"({one})**2", f"{one}+1", f"{one}-1",
        )  # fmt: skip

    def divisor(self) -> str:
        return self.pick("2", "3", "10", f"({self.atom()})")

    def atom(self) -> str:
        if self.arrays and self.chance.random() < 0.2:
            return self.element()
        return self.pick(*self.scalars) if self.chance.random() < 0.65 else self.pick(*CONSTANTS)

    def element(self) -> str:
        name, scalar = self.pick(*self.arrays), self.pick(*self.scalars)
        place, within = str(self.chance.randint(1, ARRAYS[name])), f"IABS(MOD({scalar},{ARRAYS[name]}))+1"
        return f"{name}({self.pick(place, place, place, within, *self.busy, *([scalar] if self.rarely() else []))})"

    def rarely(self) -> bool:
        return self.chance.random() < 0.15

    def truth(self, depth: int = DEPTH) -> str:
        """An expression that is LOGICAL."""
        if self.truths and self.chance.random() < 0.25:
            return self.pick(*self.truths)
        if depth == 0 or self.chance.random() < 0.6:
            return f"{self.number(1)}{self.pick(*RELATIONS)}{self.number(1)}"
        one, other = self.truth(depth - 1), self.truth(depth - 1)
        joined = self.pick(".AND.", ".OR.", ".EQV.", ".NEQV.")
        return f".NOT.({one})" if self.chance.random() < 0.15 else f"({one}){joined}({other})"

    def assignment(self) -> str:
        free = [name for name in self.scalars if name not in self.busy]
        if self.truths and self.chance.random() < 0.2:
            return f"{self.pick(*self.truths)}={self.truth()}"
        if self.arrays and (not free or self.chance.random() < 0.2):
            return f"{self.element()}={self.number()}"
        return f"{self.pick(*free)}={self.number()}" if free else "CONTINUE"

    def jump(self, targets: Sequence[str]) -> str:
        """A jump to one of these labels, or to several; or an end of the run."""
        if not targets or self.chance.random() < 0.2:
            return self.pick("RETURN", "RETURN", "STOP")
        some = [self.pick(*targets) for _ in range(3)]
        return self.pick(
            f"GO TO {some[0]}", f"GO TO {some[0]}", f"GO TO ({','.join(some)}),{self.pick(*self.scalars)}",
            f"IF ({self.number(1)}) {','.join(some)}",
        )  # fmt: skip

    def simple(self, targets: Sequence[str]) -> str:
        """A statement without another statement in it, which goes on to the next one or leaves by its own condition."""
        way = self.chance.random()
        if way < 0.55:
            return self.assignment()
        if way < 0.8:
            return f"IF ({self.truth()}) {self.assignment()}"
        return f"IF ({self.truth(1)}) {self.jump(targets)}"

    def body(self, depth: int, targets: Sequence[str]) -> list[str]:
        return [line for _ in range(self.chance.randint(*INSIDE)) for line in self.statement(depth, targets)]

    def block(self, depth: int, targets: Sequence[str]) -> list[str]:
        lines = [f"IF ({self.truth()}) THEN", *self.body(depth - 1, targets)]
        if self.chance.random() < 0.3:
            lines += [f"ELSE IF ({self.truth(1)}) THEN", *self.body(depth - 1, targets)]
        if self.chance.random() < 0.5:
            lines += ["ELSE", *self.body(depth - 1, targets)]
        return [*lines, "END IF"]

    def loop(self, depth: int, targets: Sequence[str]) -> list[str]:
        free = [name for name in self.scalars if name not in self.busy]
        if len(free) < 2:
            return [self.simple(targets)]
        variable, label = self.pick(*free), str(self.next_label)
        self.next_label += 1
        first, last = self.pick("1", "1", "0", self.number(0)), self.pick("3", "4", "5", self.number(1))
        step = self.pick("", "", "", ",2", ",-1")
        self.busy.append(variable)
        inner = self.body(depth - 1, targets)
        self.busy.pop()
        return [f"DO {label} {variable}={first},{last}{step}", *inner, f"{label} CONTINUE"]

    def statement(self, depth: int, targets: Sequence[str]) -> list[str]:
        way = self.chance.random()
        if depth and way < 0.22:
            return self.block(depth, targets)
        if depth and way < 0.38:
            return self.loop(depth, targets)
        return [self.simple(targets)]

    def declarations(self) -> list[str]:
        """The declarations, and values of locals by DATA; SUBROUTINE stands before them."""
        arguments = [*[name for name in self.scalars if name in ARGUMENTS], *self.arrays[:1], *self.truths[:1]]
        lines = [f"SUBROUTINE {self.name}({','.join(arguments)})"]
        lines += [f"INTEGER {name}({ARRAYS[name]})" for name in self.arrays]
        lines += [f"LOGICAL {name}" for name in self.truths]
        given = [f"{name}/{self.pick('0', '1', '5', '-1')}/" for name in self.locals() if self.chance.random() < 0.4]
        given += [f"{name}/{self.pick('.TRUE.', '.FALSE.')}/" for name in self.truths[1:]]
        given += [f"{name}/{ARRAYS[name]}*{self.pick('0', '2')}/" for name in self.arrays[1:]]
        return lines + ([f"DATA {','.join(given)}"] if given else [])

    def first(self) -> str:
        """The first value of a local variable."""
        given = self.pick(*[name for name in self.scalars if name in ARGUMENTS])
        return self.pick("0", "1", "3", given, given, f"MOD({given},4)", f"MAX0({given},1)", f"IABS({given})")

    def locals(self) -> list[str]:
        return [name for name in self.scalars if name in LOCALS]

    def program(self) -> str:
        """The source. Statements outside of blocks have labels; statements before them may jump there, and some after
        them."""
        head, count = self.declarations(), self.chance.randint(*STATEMENTS)
        firsts = [f"{name}={self.first()}" for name in self.locals() if f"{name}/" not in head[-1]]
        labels = [str(10 * place) for place in range(1, count + 1)]
        executed: list[str] = []
        for place, label in enumerate(labels, 1):
            back = labels[: place - 1] if self.chance.random() < 0.15 else []
            first, *rest = self.statement(self.chance.choice(NESTED), [*labels[place:], *back])
            executed += [f"{label} {first}", *rest]
        last = [self.pick("RETURN", "CONTINUE")]
        return source_of([wrapped(line) for line in [*head, *firsts, *executed, *last, "END"]])


def wrapped(line: str) -> str:
    """A statement, with the label in front that it may have, on as many lines as it needs."""
    label, _, rest = line.partition(" ")
    return f"{label} {continued(rest)}" if label.isdigit() else continued(line)


def program_of(number: int, seed: int) -> str:
    """The program of a number: the same for the same seed."""
    return Maker(f"G{number}", Random(f"{seed} {number}")).program()
