"""The jobs of a class without a program: as processes, with what is kept of their answers, and in batches."""

import unittest
from unittest import mock

import running  # noqa: F401  it finds the package
from mutants.classes import processes
from mutants.classes.batched import whole_text
from mutants.classes.results import Result, failed_text
from mutants.program import many
from mutants.program.calling import Fault
from mutants.program.parallel import answers_in, parallel_words, text_of_answer
from mutants.texts.report_lines import report_text
from mutants.texts.reports import read_report
from pieces import batch_of, stored

COMMAND = (
    "sh -c 'echo JOB {#}; read -r words; '\"'\"'/a b/mothra'\"'\"' $words; status=$?; echo; echo STATUS $status'"
)

class Processes(unittest.TestCase):
    """The jobs of a class as processes of this machine."""

    def test_one_process_for_each_processor_or_as_many_as_are_asked_for(self) -> None:
        for count, wanted in ((None, many.processors()), (3, 3)):
            with mock.patch.object(processes, "ask_many") as ask_many:
                processes.run_here("mothra", ["--workers", "1"], [b"{}", b"[]"], count, lambda place, text: None)
            program, calls, at_once = ask_many.call_args.args[:3]
            self.assertEqual((program, at_once), ("mothra", wanted))
            self.assertEqual(calls, [(["run", "--workers", "1"], job) for job in (b"{}", b"[]")])

    def test_what_comes_of_a_job_ends_no_other(self) -> None:
        texts = {b"a": "REPORT 2\nEND\n", b"b": Fault("run", "FAULT B3 1"), b"c": Fault("run", "status -9")}
        found: dict[int, str] = {}
        with mock.patch.object(many.Calls, "answer", lambda calls, words, job: given(texts[job])):
            processes.run_here("mothra", [], list(texts), 2, found.__setitem__)
        self.assertEqual(found, {0: "REPORT 2\nEND\n", 1: "FAULT B3 1\n", 2: "status -9\n"})


class Failed(unittest.TestCase):
    def test_the_count_and_a_few_names_are_told(self) -> None:
        found = [Result(f"s{number}", "least", [], None, "FAULT B3 1") for number in range(7)]
        self.assertEqual(failed_text(found), "7 of 7 jobs failed: s0, s1, s2, s3, s4 and 2 more")
        self.assertEqual(failed_text(found[:1]), "1 of 1 job failed: s0")
        self.assertEqual(failed_text([]), "")


def given(answer: str | Fault) -> str:
    if isinstance(answer, Fault):
        raise answer
    return answer


class Answers(unittest.TestCase):
    def test_the_words_for_parallel(self) -> None:
        words = ["parallel", "--pipe", "-N2", "--block", "2M"]
        more = ["--jobs", "3", "--sshlogin", "8/anna", "--sshlogin", "bert"]
        self.assertEqual(parallel_words("/a b/mothra", 3, ["8/anna", "bert"]), [*words, *more, COMMAND])
        self.assertEqual(parallel_words("/a b/mothra", None, [":"]), [*words, "--sshlogin", ":", COMMAND])

    def test_an_answer_counts_when_it_is_whole(self) -> None:
        text = "JOB 2\nREPORT 2\nEND\n\nSTATUS 0\nJOB 1\nFAULT B3 1\n\nSTATUS 1\nJOB 3\nREP"
        found = list(answers_in(text.splitlines(keepends=True)))
        self.assertEqual(found, [(1, "REPORT 2\nEND\n", 0), (0, "FAULT B3 1\n", 1)])

    def test_what_is_kept_without_a_report(self) -> None:
        for text, status, wanted in (
            ("FAULT B3 1\n", 1, "FAULT B3 1\n"),
            ("", 127, "status 127, and nothing was written\n"),
            ("REPORT 2\nEND\n", 0, "REPORT 2\nEND\n"),
        ):
            self.assertEqual(text_of_answer(text, status), wanted)


class Batches(unittest.TestCase):
    def test_batches_make_the_one_report(self) -> None:
        whole = read_report(stored("euclid"))
        parts = [report_text(batch_of(whole, first, last)) for first, last in ((0, 3), (3, whole.tests))]
        self.assertEqual(read_report(whole_text(parts, [0, 3])).rows, whole.rows)

    def test_the_first_fault_names_the_test_of_the_suite(self) -> None:
        self.assertEqual(whole_text(["REPORT 2\n", "FAULT B4 3\n", "FAULT B3 1\n"], [0, 256, 512]), "FAULT B4 259\n")
        self.assertEqual(whole_text(["FAULT S2 3\n"], [0]), "FAULT S2 3\n")


if __name__ == "__main__":
    unittest.main()
