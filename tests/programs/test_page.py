"""The page of a job: what stands on it, that nothing is loaded or run, and what is refused."""

import json
import re
import tempfile
import unittest
from collections.abc import Iterable
from functools import lru_cache
from pathlib import Path

import running
from proved import MOTHRA, OPS, mutants, said
from room import without_progress
from mutants import statuses
from mutants.pages.style import SCRIPT
from running import LEAST, Folder, has, refuses, run
from tags import Tags

EUCLID = running.example("euclid", ".json")
CONTINUED = LEAST.replace("      IF (J.LT.I) K=J\n", "      IF (J\nC     THE REST\n     &   .LT.\n*\n     & I) K=J\n")


def job_of(source: str = LEAST, suite: Iterable[object] = ((1, 2, 0), (2, 1, 0)), **more: object) -> bytes:
    return json.dumps({"source": source, "suite": list(suite), **more}).encode()


@lru_cache
def page_of(job: bytes, *words: str) -> running.Ended:
    """What comes of the page of a job, which is asked for once."""
    with tempfile.TemporaryDirectory() as folder:
        path = Path(folder, "job.json")
        path.write_bytes(job)
        return mutants("page", *words, path)


def plain(page: str) -> str:
    return re.sub(r"<[^>]+>", "", page)


class Pages(Folder):
    def test_shows_the_survivors_under_their_line(self) -> None:
        status, page, errors = page_of(job_of())
        self.assertEqual((status, errors), (0, ""))
        has(self, page, "15 of 16 mutants killed")
        has(self, page, "93.75 %")
        line = page.index("IF (J.LT.I) K=J</span>")
        survivor = page.index("IF (J<del>.LT.</del><ins>.LE.</ins>I) K=J")
        self.assertLess(line, survivor)
        self.assertLess(survivor, page.index('<span class="number">5</span>'))
        has(self, page, "relational operator replacement", '<a href="#L4" aria-label="line 4">')
        self.assertRegex(plain(page), r"4\s+IF \(J\.LT\.I\) K=J12 of 131 survives")
        self.assertRegex(plain(page), r"3\s+K=I3 of 3all killed")

    def test_mutants_stand_behind_the_last_line_of_their_statement(self) -> None:
        for declared, class_name in (([], "mutants"), (["ROR 1"], "mutants declared")):
            page = page_of(job_of(source=CONTINUED, equivalent=declared))[1]
            texts = ["IF (J</span>", "C     THE REST</span>", "&amp;   .LT.</span>", "*</span>", "&amp; I) K=J</span>"]
            texts += [f'<div class="{class_name}">', "<del>.LT.</del><ins>.LE.</ins>", "      END</span>"]
            places = [page.index(text) for text in texts]
            self.assertEqual(places, sorted(places))
            self.assertRegex(plain(page), r"4 +IF \(J\d+ of 13")
            has(self, page, '<div class="line" id="L4">')

    def test_the_tests_and_what_they_add(self) -> None:
        page = plain(page_of(job_of(suite=[[1, 2, 0], [2, 1, 0], [3, 3, 0]]))[1])
        has(self, page, "Test 3 kills nothing that others do not: it may be left out.")
        has(self, page, "The smallest set that kills all 15 that the suite kills has 2 tests: 1 and 2.")

    def test_what_the_program_does_on_each_test(self) -> None:
        page = page_of(job_of())[1]
        has(self, page, "The program</th>", "<td><code>[2, 1, 0]</code></td><td><code>RETURNED 2 1 1</code>")

    def test_an_equivalent_mutant_is_counted_and_a_wrong_one_is_told(self) -> None:
        page = page_of(job_of(equivalent=["ROR 1", "SDL 2"]))[1]
        has(self, page, "100.00 %")
        has(self, page, "15 of 15 mutants killed, not counting 1 declared equivalent")
        has(self, page, "<b>Wrongly declared equivalent:</b> SDL 2.")
        has(self, page, "1 equivalent")
        has(self, page, "<summary>1 declared equivalent</summary>")
        has(self, page, "IF (J<del>.LT.</del><ins>.LE.</ins>I) K=J")

    def test_a_page_is_one_sound_file(self) -> None:
        suites: list[list[object]] = [[], [[n, 3, 0] for n in range(60)]]
        for suite in suites:
            page = page_of(job_of(suite=suite))[1]
            tags = Tags(page)
            self.assertEqual((tags.open, tags.wrong), ([], []))
            names = [found["id"] for _, found in tags.found if "id" in found]
            self.assertEqual(len(names), len(set(names)))
            links = [found["href"] for tag, found in tags.found if tag == "a"]
            self.assertTrue({link.removeprefix("#") for link in links} <= set(names))
            self.assertFalse({"link", "iframe", "object"} & {tag for tag, _ in tags.found})
            pairs = [pair for _, found in tags.found for pair in found.items()]
            loaded = [value for name, value in pairs if name in ("src", "href", "style")]
            self.assertTrue(all(value.startswith(("#", "data:image/png;base64,")) for value in loaded), loaded)
            # It has one script, which is the same on all pages and asks for nothing.
            self.assertEqual([found for tag, found in tags.found if tag == "script"], [{}])
            has(self, page, f"<script>{SCRIPT}</script>")
            self.assertNotRegex(page, r"url\(|@import|https?:|\bon\w+=\"|fetch|import\b")

    def test_what_the_job_says_is_only_text(self) -> None:
        evil = 'C <script>alert("1")</script> & \x01\u202e\n' + LEAST
        status, page, errors = page_of(job_of(source=evil))
        self.assertEqual((status, errors), (0, ""))
        has(self, page, "C &lt;script&gt;alert(&quot;1&quot;)&lt;/script&gt; &amp; \ufffd\ufffd")
        self.assertEqual(page.count("<script"), 1)

    def test_saved_texts_need_no_program(self) -> None:
        job = self.put("job.json", job_of())
        words: list[object] = []
        for option, call in (("print", ["print"]), ("list", ["list", "--ops", OPS]), ("report", ["run", "--ops", OPS])):
            words += [f"--{option}", self.put(option, said(call[0], job_of(), *call[1:]))]
        self.assertNotIn(">The program</th>", run("page", *words, job)[1])
        words += ["--outcomes", self.put("outcomes", "RETURNED 1 2 1\nRETURNED 2 1 1\n")]
        ended = run("page", "--mothra", "there-is-none", *words, job)
        self.assertEqual(ended, (0, page_of(job_of())[1], ""))
        for option in ("print", "list", "report", "outcomes"):
            whole = (self.folder / option).read_text()
            self.put(option, whole[: len(whole) * 2 // 3])
            refuses(self, run("page", *words, job), option)
            self.put(option, whole)
        self.put("job.json", job_of(suite=[[1, 2, 0]]))
        refuses(self, run("page", *words, job), "it has 2 outcomes, and the job 1 tests")
        words = words[:-2]
        refuses(self, run("page", *words, job), "not the same number of tests")
        self.put("job.json", job_of(source=LEAST.replace("      K=I\n", "")))
        refuses(self, run("page", *words, job), "not the same statements")


class Refusals(Folder):
    def test_bad_input_is_one_line(self) -> None:
        refuses(self, page_of(b"{"), "no text in JSON")
        refuses(self, page_of(b"[]"), "no job")
        refuses(self, page_of(job_of(source="      SUBROUTINE OTHER\n      CALL X\n      END\n")), "FAULT S2 2")
        refuses(self, page_of(job_of(suite=[[1]])), "FAULT B3 1")
        for words in (["--ops", "XYZ"], ["--steps", "x"]):
            self.assertEqual(page_of(job_of(), *words)[0], statuses.WORDS)
        refuses(self, mutants("page", "there-is-none"), "there-is-none", "No such file")
        refuses(self, run("page", "--mothra", "there-is-none", EUCLID), "no program there-is-none")
        refuses(self, mutants("page", running.ROOT), "Is a directory")
        refuses(self, run("page", "--mothra", "false", EUCLID), "mothra print")
        refuses(self, run("page", "--mothra", "true", EUCLID), "cut short")

    def test_ctrl_c_ends_it_without_more(self) -> None:
        slow = self.put_program("slow", "#!/bin/sh\ntouch begun\nexec sleep 20\n")
        ended = running.interrupted(str(self.folder), "page", "--mothra", slow, EUCLID)
        self.assertEqual(ended, (statuses.INTERRUPTED, "\n"))

    def test_a_closed_pipe_ends_it_without_more(self) -> None:
        words = ["--mothra", MOTHRA, "--no-proofs", self.put("job.json", job_of())]
        self.assertEqual(without_progress(running.with_closed_pipe("page", *words)), "")


class Looks(unittest.TestCase):
    def test_landmarks_headings_and_heads_of_tables(self) -> None:
        page = page_of(job_of())[1]
        tags = Tags(page).found
        names = [tag for tag, _ in tags]
        self.assertEqual([names.count(name) for name in ("header", "nav", "main", "h1", "html")], [1] * 5)
        self.assertEqual(names.count("section"), names.count("h2"))
        self.assertTrue(all(found.get("scope") in ("col", "row") for tag, found in tags if tag == "th"))
        self.assertTrue(all("aria-label" in found for tag, found in tags if tag in ("table", "nav")))

    def test_the_tests_that_alone_kill_the_most_come_first(self) -> None:
        page = page_of(job_of(suite=[[3, 3, 0], [1, 2, 0], [2, 1, 0]]))[1]
        part = page[page.index('id="tests"') : page.index('id="matrix"')]
        self.assertEqual(re.findall(r'<tr><th scope="row" class="n">(\d)', part), ["3", "2", "1"])
        has(self, part, "<td>ROR 2, 7, RSR 2, 3 and 3 more</td>", "<code>RETURNED 2 1 1</code>")


if __name__ == "__main__":
    unittest.main()
