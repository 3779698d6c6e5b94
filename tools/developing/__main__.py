#!/usr/bin/env python3
"""The tools of developers: a file of tools/ has the name of a tool, and a module beside this one has all else."""

import argparse
import sys
from importlib import import_module
from pathlib import Path
from typing import cast

sys.dont_write_bytecode = True
TOOLS = Path(__file__).resolve().parent.parent
sys.path[:0] = [str(TOOLS.parent), str(TOOLS)]

from mutants import statuses  # noqa: E402
from mutants.ending import run_tool  # noqa: E402
from mutants.subcommands.registry import Module  # noqa: E402
from mutants.words import add_version, text_of_help  # noqa: E402


def main() -> int:
    """Does what the words say with the module of the tool, and gives the exit status."""
    word = Path(sys.argv[0]).name
    module, name = cast(Module, import_module(f"developing.{word.replace('-', '_')}")), f"tools/{word}"
    raw = argparse.RawDescriptionHelpFormatter
    parser = argparse.ArgumentParser(
        prog=name, description=text_of_help(module.__doc__), epilog=statuses.meanings(), formatter_class=raw
    )
    add_version(parser)
    module.add_words(parser)
    return run_tool(name, lambda: module.run(parser.parse_args(), name))


sys.exit(main())
