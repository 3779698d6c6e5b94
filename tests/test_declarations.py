"""Declarations: entries are tied to their texts, and no mutant is declared that was not meant."""

import json
import random
import re
import unittest
from collections.abc import Iterator, Sequence

import running
from mutants.declarations.entries import COLUMNS, Entry, appended, entries_text, read_entries
from mutants.declarations.files import read_declarations
from mutants.declarations.said import NOTHING, Said
from mutants.declarations.settling import Present, entry_for, settled
from mutants.pages.declared import declared_part
from mutants.subcommands.declare import names_in
from mutants.texts.lines import Mutant
from mutants.texts.reports import Row
from running import has

# The statements of a program, with two that stand twice.
DAYS = [
    "IF (M.LE.2) Y=Y-1", "K=Y/100", "IF (M.LE.2) M=M+12", "J=Y-100*K", "N=13*M-27", "N=N/5", "N=N+D+J+J/4",
    "K=K/4-2*K", "N=N/5", "N=N+K+77", "IF (N.LT.0) N=N+7", "N=N-7*(N/7)", "IF (N.EQ.0) N=7", "K=Y/100",
]  # fmt: skip
RELATIONS = [".LT.", ".LE.", ".EQ.", ".NE.", ".GE.", ".GT."]


def changes(op: str, statement: str) -> Iterator[str]:
    """What stands there in the mutants of a statement: relations, constants, and an operator that doubles a text."""
    if op == "ROR":
        for found in re.finditer(r"\.[A-Z]{2}\.", statement):
            yield from (
                statement[: found.start()] + other + statement[found.end() :]
                for other in RELATIONS
                if other != found[0]
            )
    elif op == "CRP":
        for found in re.finditer(r"\d+", statement):
            yield from (
                statement[: found.start()] + str(int(found[0]) + by) + statement[found.end() :] for by in (1, -1)
            )
    elif op == "SDL":
        yield "CONTINUE"


def present_of(statements: Sequence[str]) -> Present:
    """What mothra would say of a program: its statements from line 2 on, and their mutants operator by operator."""
    by_line = dict(enumerate(statements, 2))
    listed: list[Mutant] = []
    for op in ("CRP", "ROR", "SDL"):
        texts = [(line, text) for line, statement in by_line.items() for text in changes(op, statement)]
        listed += [Mutant(op, place, place, line, text) for place, (line, text) in enumerate(texts, 1)]
    return Present(by_line, listed)


def declared_in(present: Present, count: int) -> list[Entry]:
    """Entries for so many mutants of a program, spread over all of them."""
    step = len(present.listed) / count
    chosen = [present.listed[int(place * step)] for place in range(count)]
    return [entry_for(mutant, f"reason {place}", present) for place, mutant in enumerate(chosen)]


class Inserted(unittest.TestCase):
    """45 mutants are declared, and then a statement is put in front."""

    def setUp(self) -> None:
        self.before = present_of(DAYS)
        self.entries = declared_in(self.before, 45)
        self.after = present_of(["IF (D.EQ.0) D=1", *DAYS])

    def test_bare_numbers_would_mean_other_mutants(self) -> None:
        wanted = {entry.name: entry.texts for entry in self.entries}
        now = {f"{each.op} {each.place}": self.after.texts_of(each) for each in self.after.listed}
        self.assertGreater(sum(now.get(name) != texts for name, texts in wanted.items()), 30)

    def test_no_mutant_is_declared_that_was_not_meant(self) -> None:
        found = settled(self.entries, self.after)
        # What was meant stands one line further down now, with the same texts; some of these stand twice.
        places = {(mutant.op, mutant.place): mutant for mutant in self.before.listed}
        meant = [(each.op, places[each.op, each.place].line + 1, each.after) for each in self.entries]
        self.assertEqual([(each.mutant.op, each.mutant.line, each.mutant.text) for each in found.declared], meant)
        self.assertEqual((len(set(found.names)), found.refused), (45, []))
        self.assertIn("found by the texts under a new number: ", " ".join(found.remarks()))

    def test_what_is_not_clear_is_refused_and_named(self) -> None:
        found = settled(self.entries, present_of(["IF (D.EQ.0) D=1", *DAYS, "N=N+1"]))
        self.assertEqual({entry.before for entry, _ in found.refused}, {"K=Y/100", "N=N/5"})
        for (entry, _), remark in zip(found.refused, found.remarks()[1:], strict=True):
            self.assertRegex(
                remark, rf"^{entry.name} is not declared: its texts stand on lines \d+ and \d+, and before and behind "
            )
        changed = settled(self.entries, present_of([text.replace("13", "14") for text in DAYS]))
        self.assertEqual({entry.before for entry, _ in changed.refused}, {"N=13*M-27"})

    def test_while_nothing_changes_all_are_taken_and_nothing_is_told(self) -> None:
        found = settled(self.entries, self.before)
        self.assertEqual(found.names, [entry.name for entry in self.entries])
        self.assertEqual((found.remarks(), found.moved, found.refused), ([], [], []))
        self.assertEqual(found.reasons[self.entries[3].name], "reason 3")


class Edits(unittest.TestCase):
    """Statements are pairs of a number of their own and a text; many texts stand twice."""

    def room(self) -> tuple[list[tuple[int, str]], list[Entry], set[tuple[int, str, str]]]:
        """A program, entries, and what these mean: a statement by its number, the operator, and the text."""
        program = [(place, random.choice(DAYS)) for place in range(random.randint(4, 9))]
        before = present_of([text for _, text in program])
        entries = declared_in(before, random.randint(1, len(before.listed)))
        places = {(mutant.op, mutant.place): mutant for mutant in before.listed}
        lines = [places[entry.op, entry.place].line for entry in entries]
        return program, entries, {(program[line - 2][0], each.op, each.after) for line, each in zip(lines, entries)}

    def edited(self, program: list[tuple[int, str]], kind: str) -> list[tuple[int, str]]:
        """A program with some statements less, one that was never there, or a copy of one more."""
        place = random.randrange(len(program))
        if kind == "less":
            return program[:place] + program[place + random.randint(1, 2) :] or program
        text = random.choice(program)[1] if kind == "copy" else f"L=L+{random.randint(1000, 9999)}"
        return program[:place] + [(random.randint(1000, 10**9), text)] + program[place:]

    def test_after_an_edit_what_is_declared_was_meant(self) -> None:
        random.seed(1977)
        for _ in range(150):
            program, entries, meant = self.room()
            program = self.edited(program, random.choice("less new copy".split()))
            found = settled(entries, present_of([text for _, text in program]))
            self.assertEqual(len(found.declared) + len(found.refused), len(entries))
            for each in found.declared:
                self.assertIn((program[each.mutant.line - 2][0], each.mutant.op, each.mutant.text), meant)

    def test_a_new_statement_leaves_all_that_is_declared(self) -> None:
        random.seed(1978)
        for _ in range(50):
            program, entries, _ = self.room()
            found = settled(entries, present_of([text for _, text in self.edited(program, "new")]))
            self.assertEqual((len(found.declared), found.refused), (len(entries), []))

    def test_after_many_edits_the_texts_are_those_of_the_entries(self) -> None:
        random.seed(1979)
        for _ in range(50):
            program, entries, _ = self.room()
            for _ in range(random.randint(2, 5)):
                program = self.edited(program, random.choice("less new copy".split()))
            present = present_of([text for _, text in program])
            found = settled(entries, present)
            self.assertEqual(len(found.declared) + len(found.refused), len(entries))
            self.assertEqual(len(set(found.names)), len(found.names))
            for each in found.declared:
                self.assertEqual(present.texts_of(each.mutant), each.entry.texts)


class Settling(unittest.TestCase):
    def test_why_an_entry_is_refused(self) -> None:
        present = present_of(["K=I", "K=J", "K=I"])
        for entry, told in (
            (Entry("SDL", 1, "K=N", "CONTINUE"), "no statement is K=N any more"),
            (Entry("CRP", 1, "K=J", "K=J+1"), "K=J stands on line 3, but no mutant of CRP makes K=J+1 of it"),
            (Entry("SDL", 1, "K=I", "CONTINUE"), "its texts stand on lines 2 and 4, and which is meant is not said"),
            (
                Entry("SDL", 1, "K=I", "CONTINUE", where="2:a:b"),
                "lines 2 and 4, and before and behind them the program has changed",
            ),
            (
                Entry("SDL", 2, "K=J", "CONTINUE", where="2:a:b"),
                "line 3, and before and behind them the program has changed",
            ),
            (Entry("SDL", 1, "K=I", "CONTINUE", where="wrong"), "declare it again"),
            (Entry("SDL", 1, "K=I", "CONTINUE", where=present.where(2, 3)), "declare it again"),
        ):
            with self.subTest(told):
                found = settled([entry], present)
                self.assertEqual(found.declared, [])
                self.assertIn(told, found.refused[0][1])

    def test_two_mutants_that_are_one_program_keep_their_numbers(self) -> None:
        listed = [Mutant("AOR", place, place, 2, "K=I") for place in (1, 2)]
        entries = [Entry("AOR", place, "K=I+I", "K=I") for place in (2, 1, 3)]
        found = settled(entries, Present({2: "K=I+I"}, listed))
        self.assertEqual(found.names, ["AOR 2", "AOR 1"])
        self.assertEqual(found.refused, [(entries[2], "an earlier entry declares the same mutant")])


class Files(unittest.TestCase):
    entries = [
        Entry("ROR", 1, "IF (MIN0(I,J).LE.0) RETURN", "RETURN", 'a "reason", of two parts'),
        Entry("SDL", 12, "K=1", "CONTINUE"),
    ]

    def test_entries_are_read_as_they_were_written(self) -> None:
        text = entries_text(self.entries)
        self.assertEqual([entry._replace(row=0) for entry in read_entries(text)], self.entries)
        self.assertEqual([entry.row for entry in read_entries("\n" + text.replace("\n", "\r\n"))], [3, 4])
        self.assertEqual(appended(entries_text(self.entries[:1]).rstrip("\n"), self.entries[1:]), text)
        self.assertEqual(appended("", self.entries), text)

    def test_columns_may_stand_in_another_order_and_some_may_be_missing(self) -> None:
        text = "Reason,after,before,mutant\nwhy,CONTINUE,K=1,sdl  12\n"
        entry = Entry("SDL", 12, "K=1", "CONTINUE", "why", row=2)
        self.assertEqual(read_entries(text), [entry])
        whole = appended(text, self.entries[:1])
        self.assertEqual(whole.splitlines()[0], ",".join(COLUMNS))
        self.assertEqual(
            [each._replace(row=0) for each in read_entries(whole)], [entry._replace(row=0), self.entries[0]]
        )

    def test_what_is_no_file_of_entries_is_refused(self) -> None:
        for text, told in (
            ("ROR 1,a,b\n", "does not name the columns mutant, before"),
            ("mutant,before,after\nROR,a,b\n", "row 2: 'ROR' is no name of a mutant"),
            ("mutant,before,after\nROX 1,a,b\n", "row 2: there is no operator ROX"),
            ("mutant,before,after\nROR 1,a\n", "row 2: ROR 1 has not both texts"),
            ("mutant,before,after\nROR 1,a,b,c\n", "row 2 has 4 cells"),
            ('mutant,before,after\nROR 1,"a\n', "row 2: unexpected end of data"),
        ):
            with self.subTest(told), self.assertRaisesRegex(ValueError, re.escape(told)):
                read_entries(text)

    def test_the_words_that_name_mutants(self) -> None:
        wanted = [("ABS", 7), ("ABS", 9), ("ROR", 1)]
        for words in (["ABS 7", "ABS 9", "ROR 1"], ["abs", "7,9", "ror", "1"], ["ABS7", "9", "7", "ROR-1,"]):
            self.assertEqual(names_in(words), wanted)
        for words in (["7"], ["XYZ 1"], ["ROR one"], ["ROR 3-5"], ["ROR", "-", "3"], ["RORS 1"]):
            with self.assertRaises(ValueError):
                names_in(words)

    def test_those_of_the_example_are_the_ones_of_its_job(self) -> None:
        found = read_declarations(running.example("triangle-full", ".equivalent.csv"))
        declared = json.loads(running.example("triangle-full", ".json").read_text())["equivalent"]
        self.assertEqual([entry.name for entry in found.entries], declared)
        self.assertEqual(len(declared), 61)
        self.assertTrue(all(entry.reason for entry in found.entries))


class Pages(unittest.TestCase):
    def test_those_that_a_test_kills_come_first(self) -> None:
        listed = [Mutant("ROR", n, n, 3, f"K={n}") for n in range(1, 4)]
        rows = [Row("ROR", 1, 1, "E", "000"), Row("ROR", 2, 2, "S", "000"), Row("ROR", 3, 3, "W", "101")]
        page = declared_part(listed, rows, {3: "K=9"}, Said(None, {"ROR 1": "it <is>"}, []))
        self.assertLess(page.index("ROR 3"), page.index("ROR 1"))
        has(self, page, "Killed by tests 1 and 3.", "no reason is given", "it &lt;is&gt;", "<del>9</del><ins>1</ins>")
        self.assertNotIn("ROR 2", page)
        self.assertEqual(declared_part(listed[1:2], rows[1:2], {3: "K=9"}, NOTHING), "")


if __name__ == "__main__":
    unittest.main()
