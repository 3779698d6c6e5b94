"""The handout has the tasks of the lesson, without the answers, which the guide has."""

import re
import unittest

import running

HANDOUT = (running.ROOT / "docs" / "HANDOUT.md").read_text()
GUIDE = (running.ROOT / "docs" / "GUIDE.md").read_text()
LESSON = GUIDE.partition("\n## The lesson\n")[2].partition("\n## ")[0]
TASK = r"^##+ (Task \d: .*)$"
ROW = r"\d\.\d+"


def rows(page: str) -> list[list[str]]:
    """The cells of each row of the tables of a page."""
    return [[cell.strip() for cell in line.strip("|").split("|")] for line in page.split("\n") if line[:1] == "|"]


class Handout(unittest.TestCase):
    def test_it_has_the_tasks_of_the_lesson_with_their_minutes(self) -> None:
        tasks = re.findall(TASK, LESSON, re.M)
        self.assertEqual(len(tasks), 6)
        self.assertEqual(re.findall(TASK, HANDOUT, re.M), tasks)

    def test_each_row_of_a_task_has_an_answer_in_the_lesson_alone(self) -> None:
        asked = {cells[0]: cells for cells in rows(HANDOUT) if re.fullmatch(ROW, cells[0])}
        self.assertEqual(len(asked), 17)
        answers = {cells[0]: cells[2:] for cells in rows(LESSON) if re.fullmatch(ROW, cells[0])}
        answers |= {number: [text] for number, text in re.findall(rf"^- \*\*({ROW}): ?(.*)$", LESSON, re.M)}
        self.assertEqual(answers.keys(), asked.keys())
        for number, cells in asked.items():
            self.assertEqual(cells[-2:], ["", ""], number)
            for answer in answers[number]:
                self.assertTrue(answer and answer not in HANDOUT, answer)

    def test_an_answer_names_the_mutants_of_its_row(self) -> None:
        answers = {cells[0]: cells[1] for cells in rows(LESSON) if re.fullmatch(ROW, cells[0])}
        answers |= {f"4.{number}": text for number, text in re.findall(r"4\.(\d): ROR (\d+) is", LESSON)}
        for number, mutants in answers.items():
            asked = next(" ".join(cells) for cells in rows(HANDOUT) if cells[0] == number)
            self.assertEqual(", ".join(re.findall(r"ROR (\d+)", asked)), mutants)
        self.assertEqual(len(answers), 14)

    def test_no_answer_is_given(self) -> None:
        for answer in ("OVERFLOW", "2147483647", "coupling", "18 of the 21", "mutant survives", "are equivalent. `"):
            self.assertTrue(answer in LESSON and answer not in HANDOUT, answer)

    def test_what_no_build_needs_is_said(self) -> None:
        for said in ("Python 3.10", "crates/mothra/out/mothra", "export MOTHRA", "bin/mutants unproved"):
            self.assertTrue(said in HANDOUT, said)


if __name__ == "__main__":
    unittest.main()
