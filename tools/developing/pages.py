"""Look at the pages of the examples in a real browser, and take the pictures of docs/.

    tools/pages [--into FOLDER] [MOTHRA]

The pages are those that `mutants check` writes of examples, with many survivors and with declared mutants, and that
`mutants course` writes of examples/class; they are made with MOTHRA, or with the program that is found. A headless
Chromium shows each in windows of 400 and of 1,200 pixels, with all folds open, and each head of a table that sorts is
clicked. A line tells where a page is wider than its window, where a link leads nowhere, and where a script fails; the
exit status is then 1.

--into writes the pictures as FOLDER/page.png and so on; for docs/ it takes a proved program alone. Without Chromium
(Debian's package chromium-headless-shell) this is said, and nothing is done.
"""

import argparse
import html
import json
import re
import shutil
import subprocess
import sys
import tempfile
from collections.abc import Iterator
from pathlib import Path
from typing import Any
from urllib.parse import unquote

from mutants.program.finding import find_program
from mutants.program.roots import ROOT
from mutants.program.unproved import is_unproved
from mutants.statuses import FAULT, SUCCESS

NAMES = ("chromium-headless-shell", "chrome-headless-shell")
OPTIONS = "--no-sandbox --disable-gpu --hide-scrollbars --virtual-time-budget=5000".split()
WIDTHS, HEIGHT, SECONDS = (400, 1200), 900, 300
# What a copy of a page begins with: it opens all folds, sorts by each head, and leaves what it found on the page.
LOOK = """<script>
const errors = [];
addEventListener("error", event => errors.push(event.message));
addEventListener("load", () => {
  for (const fold of document.querySelectorAll("details")) fold.open = true;
  for (const button of document.querySelectorAll("thead button")) button.click();
  const links = [...new Set([...document.links].map(link => link.getAttribute("href")))];
  const names = [...document.querySelectorAll("[id]")].map(each => each.id);
  const looked = document.createElement("pre"), wide = document.documentElement.scrollWidth;
  looked.id = "looked";
  looked.textContent = JSON.stringify({ wide, links, names, errors });
  document.body.append(looked);
});
</script>
"""
# The pictures: the page of each, its width and height, and the part that is shown.
SHOTS: dict[str, tuple[str, int, int, str]] = {
    "page.png": ("date.html", 1000, 1200, "body"),
    "page-narrow.png": ("date.html", 400, 1500, "body"), "course.png": ("class/out/course.html", 1200, 1100, "body"),
    "matrix.png": ("triangle.html", 1200, 1300, "section[aria-labelledby=matrix]"),
}  # fmt: skip
PART = "<script>addEventListener('load', () => document.body.replaceChildren(document.querySelector({})));</script>"
# The checks whose pages are looked at, by their names.
CHECKS = {
    "date": ["examples/date.f", "examples/date.csv"],
    "triangle": ["examples/triangle.f", "examples/triangle.suite.json"],
    "full": ["--equivalent", "examples/triangle-full.equivalent.csv", "examples/triangle.f",
             "examples/triangle-full.suite.json"],
}  # fmt: skip


def shown(chromium: str, page: Path, script: str, size: tuple[int, int], *words: str) -> str:
    """What the browser writes for a copy of a page that begins with a script."""
    copy = page.with_name(f"copy-of-{page.name}")
    copy.write_text(page.read_text(encoding="utf-8").replace("<head>", f"<head>{script}", 1), encoding="utf-8")
    call = [chromium, *OPTIONS, f"--window-size={size[0]},{size[1]}", *words, copy.as_uri()]
    return subprocess.run(call, capture_output=True, text=True, timeout=SECONDS).stdout


def is_there(link: str, page: Path, names: list[str]) -> bool:
    """Whether a link leads to a name on its page or to a file beside it."""
    path, _, name = link.partition("#")
    if not path:
        return unquote(name) in names
    return ":" not in path and (page.parent / unquote(path)).is_file()


def faults_of(page: Path, width: int, dump: str) -> Iterator[str]:
    """What is wrong with a page, from what the browser wrote."""
    looked = re.search(r'<pre id="looked">(.*?)</pre>', dump, re.S)
    if not looked:
        yield "the browser has not shown it"
        return
    looks: dict[str, Any] = json.loads(html.unescape(looked[1]))
    if looks["wide"] > width:
        yield f"it is {looks['wide']} pixels wide in a window of {width}"
    yield from (f"the link {link} leads nowhere" for link in looks["links"] if not is_there(link, page, looks["names"]))
    yield from (f"a script fails: {error}" for error in looks["errors"])


def output_of(mothra: str, *words: str) -> str:
    """What a subcommand writes, called at the top of the repository. One suite of the class can not be run, which is
    reported."""
    call = [sys.executable, "-B", str(ROOT / "bin" / "mutants"), *words, "--mothra", mothra, "--no-proofs"]
    ended = subprocess.run(call, cwd=ROOT, capture_output=True, text=True)
    if ended.returncode != SUCCESS and words[0] != "course":
        raise ValueError(f"mutants {' '.join(words)}: {ended.stderr.strip()}")
    return ended.stdout


def made_pages(mothra: str, folder: Path) -> list[Path]:
    """Makes all pages in a folder."""
    for name, words in CHECKS.items():
        output_of(mothra, "check", "--page", str(folder / f"{name}.html"), *words)
    shutil.copytree(ROOT / "examples" / "class", folder / "class", ignore=shutil.ignore_patterns("out"))
    output_of(mothra, "course", str(folder / "class"))
    return sorted(folder.rglob("*.html"))


def add_words(parser: argparse.ArgumentParser) -> None:
    parser.add_argument("mothra", metavar="MOTHRA", nargs="?", help="the program, else the one that is found")
    parser.add_argument("--into", metavar="FOLDER", type=Path, help="where the pictures are written")


def run(given: argparse.Namespace, name: str) -> int:
    paths = [str(path) for path in map(shutil.which, NAMES) if path]
    if not paths:
        print("Skipped: there is no headless Chromium (Debian's package chromium-headless-shell).")
        return SUCCESS
    mothra = find_program(given.mothra)
    if given.into and given.into.resolve() == ROOT / "docs" and is_unproved(mothra):
        raise ValueError("the pictures of docs/ are those of a proved program, and this one is unproved")
    count = 0
    with tempfile.TemporaryDirectory(ignore_cleanup_errors=True) as room:
        pages = made_pages(mothra, Path(room))
        for page, width in ((page, width) for page in pages for width in WIDTHS):
            for fault in faults_of(page, width, shown(paths[0], page, LOOK, (width, HEIGHT), "--dump-dom")):
                print(f"{page.name}: {fault}", flush=True)
                count += 1
        for picture, (of_page, width, height, part) in SHOTS.items() if given.into else ():
            script = PART.format(json.dumps(part)) if part != "body" else ""
            where = f"--screenshot={given.into / picture}"
            shown(paths[0], Path(room, of_page), script, (width, height), where)
    print(f"{len(pages)} pages, {count} faults")
    return FAULT if count else SUCCESS
