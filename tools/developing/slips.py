"""Put slips into the package by chance, one at a time, and see which of them its tests catch.

    tools/slips [--count N] [--seed S] [--jobs N]

A slip is what a tired hand does: another comparison, sum or connective, True for False, a number larger by one, a `not`
more. Each is made in a copy of the repository, and the tests are run there until one fails: those that need no program,
and behind them those with mothra and equivalents where these are found. A line tells each slip, with the test that
catches it; the last line counts both.
"""

import argparse
import ast
import os
import re
import shutil
import subprocess
import sys
import tempfile
from concurrent.futures import ThreadPoolExecutor
from pathlib import Path
from random import Random

from mutants.program.finding import find_equivalents, find_program_if_any
from mutants.program.programs import EQUIVALENTS, MOTHRA
from mutants.program.roots import ROOT
from mutants.statuses import SUCCESS
from mutants.words import number_from_1

OTHER: dict[type[ast.AST], type[ast.AST]] = {
    ast.Lt: ast.LtE, ast.LtE: ast.Lt, ast.Gt: ast.GtE, ast.GtE: ast.Gt, ast.Eq: ast.NotEq, ast.NotEq: ast.Eq,
    ast.In: ast.NotIn, ast.NotIn: ast.In, ast.Is: ast.IsNot, ast.IsNot: ast.Is, ast.Add: ast.Sub, ast.Sub: ast.Add,
    ast.And: ast.Or, ast.Or: ast.And,
}  # fmt: skip
SLOW = 600


def slipped(node: ast.AST) -> bool:
    """Changes a node, if it can be changed. The result says whether it can."""
    part = "ops" if isinstance(node, ast.Compare) else "op"
    old = node.ops[0] if isinstance(node, ast.Compare) else getattr(node, "op", None)
    other = OTHER.get(type(old)) if isinstance(old, ast.AST) else None
    if other:
        new = other()
        setattr(node, part, [new, *node.ops[1:]] if isinstance(node, ast.Compare) else new)
    elif isinstance(node, ast.Constant) and type(node.value) in (bool, int):
        node.value = not node.value if type(node.value) is bool else int(str(node.value)) + 1
    elif isinstance(node, ast.If):
        node.test = ast.UnaryOp(ast.Not(), node.test)
    else:
        return False
    return True


def failed_in(copy: Path) -> str:
    """The first test that fails in a copy of the repository; no text where none does."""
    programs = {MOTHRA.variable: find_program_if_any(None), EQUIVALENTS.variable: find_equivalents(None)}
    there = {name: path for name, path in programs.items() if path}
    for folder in ["tests", "tests/programs"] if len(there) == 2 else ["tests"]:
        call = [sys.executable, "-B", "-m", "unittest", "discover", "-f", "-s", folder]
        try:
            ended = subprocess.run(call, cwd=copy, env=os.environ | there, capture_output=True, text=True, timeout=SLOW)
        except subprocess.TimeoutExpired:
            return "no end"
        if failure := re.search(r"^(?:FAIL|ERROR): (\w+)", ended.stderr, re.M):
            return failure[1]
    return ""


def tried(seed: str) -> tuple[str, str]:
    """The slip of this seed, and the first test that catches it; no text where none does."""
    chance = Random(seed)
    with tempfile.TemporaryDirectory() as folder:
        copy = Path(folder, "copy")
        shutil.copytree(ROOT, copy, ignore=shutil.ignore_patterns("out", ".git"), symlinks=True)
        path = chance.choice([path for path in sorted((copy / "mutants").rglob("*.py")) if path.stat().st_size > 99])
        tree = ast.parse(path.read_text(encoding="utf-8"))
        nodes = [node for node in ast.walk(tree) if isinstance(node, (ast.expr, ast.stmt))]
        chance.shuffle(nodes)
        before = {node: ast.unparse(node).partition("\n")[0] for node in nodes}
        node = next((node for node in nodes if slipped(node)), None)
        if node is None:
            # The module has nothing to change: another one is taken.
            return tried(f"{seed}+")
        path.write_text(ast.unparse(tree), encoding="utf-8")
        after = ast.unparse(node).partition("\n")[0]
        return f"{path.relative_to(copy)}:{node.lineno}: {before[node]} -> {after}", failed_in(copy)


def add_words(parser: argparse.ArgumentParser) -> None:
    parser.add_argument("--count", metavar="N", type=number_from_1, default=30, help="how many (30)")
    parser.add_argument("--seed", metavar="S", type=number_from_1, default=1, help="where chance begins (1)")
    parser.add_argument("--jobs", metavar="N", type=number_from_1, default=1, help="how many at a time (1)")


def run(given: argparse.Namespace, name: str) -> int:
    caught = 0
    with ThreadPoolExecutor(given.jobs) as pool:
        for slip, test in pool.map(tried, [f"{given.seed} {number}" for number in range(given.count)]):
            caught += bool(test)
            print(f"{test or 'NOT CAUGHT'}: {slip}", flush=True)
    print(f"{caught} of {given.count} are caught")
    return SUCCESS
