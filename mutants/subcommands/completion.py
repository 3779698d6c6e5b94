"""Write what completes the words of the command mutants in a shell: its subcommands, their options, files.

    mutants completion bash|zsh|fish

For bash it is read by the shell, as `source <(mutants completion bash)` in ~/.bashrc. For zsh it is a file _mutants in
a folder of $fpath, and for fish ~/.config/fish/completions/mutants.fish.
"""

import argparse
import sys
from collections.abc import Iterable, Iterator
from pathlib import Path
from typing import NamedTuple

from mutants.operators import NAMES, SETS
from mutants.statuses import SUCCESS
from mutants.subcommands.registry import SUBCOMMANDS, Subcommand

# Options whose values are codes of operators.
CODES = ("--ops", "--except")
VALUES = [*NAMES, *(name.lower() for name in SETS)]


class Option(NamedTuple):
    """An option: its word, its help, the name of its value (no text where it has none), and the kind of value."""

    word: str
    help: str
    value: str
    is_file: bool

    @property
    def values(self) -> list[str]:
        return VALUES if self.word in CODES else []


def options_of(command: Subcommand) -> list[Option]:
    """The options of a subcommand, from the parser that reads them."""
    parser = argparse.ArgumentParser()
    command.module().add_words(parser)
    return [
        Option(word, action.help or "", "" if action.nargs == 0 else str(action.metavar), action.type is Path)
        for action in parser._actions
        for word in action.option_strings
        if word.startswith("--")
    ]


def words_of(options: Iterable[Option]) -> str:
    return " ".join(option.word for option in options)


def bash_lines() -> Iterator[str]:
    names = " ".join(command.name for command in SUBCOMMANDS)
    yield from ["_mutants() {", "    local word=${COMP_WORDS[COMP_CWORD]} before=${COMP_WORDS[COMP_CWORD-1]} options="]
    yield f'    if [ "$COMP_CWORD" = 1 ]; then COMPREPLY=($(compgen -W "{names}" -- "$word")); return; fi'
    yield "    case ${COMP_WORDS[1]} in"
    for command in SUBCOMMANDS:
        yield f'        {command.name}) options="{words_of(options_of(command))}" ;;'
    yield from ["    esac", "    case $before$word in"]
    yield f'        {"|".join(f"{word}*" for word in CODES)})'
    yield f'            COMPREPLY=($(compgen -W "{" ".join(VALUES)}" -- "$word")) ;;'
    yield from ['        *) COMPREPLY=($(compgen -f -- "$word")) ;;', "    esac"]
    yield '    case $word in -*) COMPREPLY=($(compgen -W "$options" -- "$word")) ;; esac'
    yield from ["}", "complete -o filenames -F _mutants mutants"]


def quoted(text: str, special: str) -> str:
    """A text in single quotes, with a backslash before each character that is special inside."""
    for character in "\\" + special:
        text = text.replace(character, "\\" + character)
    return text.replace("'", "’")


def zsh_option(option: Option) -> str:
    spec = f"*{option.word}[{quoted(option.help, '[]:')}]"
    if not option.value:
        return f"'{spec}'"
    kind = f"({' '.join(option.values)})" if option.values else "_files" if option.is_file else " "
    return f"'{spec}:{quoted(option.value, ':')}:{kind}'"


def zsh_lines() -> Iterator[str]:
    yield from ["#compdef mutants", "_mutants() {", "    local -a commands=("]
    yield from (f"        '{command.name}:{quoted(command.line, ':')}'" for command in SUBCOMMANDS)
    yield from ["    )", "    if (( CURRENT == 2 )); then _describe command commands; return; fi"]
    yield from ["    local name=$words[2]", "    shift words", "    (( CURRENT-- ))", "    case $name in"]
    for command in SUBCOMMANDS:
        yield f"        {command.name}) _arguments \\"
        yield from (f"            {zsh_option(option)} \\" for option in options_of(command))
        yield "            '*:file:_files' ;;"
    yield from ["    esac", "}", "compdef _mutants mutants"]


def fish_lines() -> Iterator[str]:
    for command in SUBCOMMANDS:
        yield f"complete -c mutants -n __fish_use_subcommand -f -a {command.name} -d '{quoted(command.line, '')}'"
        for option in options_of(command):
            value = f"-x -a '{' '.join(option.values)}'" if option.values else "-r -F" if option.is_file else "-x"
            spec = f"-l {option.word[2:]} {value if option.value else ''}".rstrip()
            seen = f"-n '__fish_seen_subcommand_from {command.name}'"
            yield f"complete -c mutants {seen} {spec} -d '{quoted(option.help, '')}'"


SHELLS = {"bash": bash_lines, "zsh": zsh_lines, "fish": fish_lines}


def add_words(parser: argparse.ArgumentParser) -> None:
    parser.add_argument("shell", choices=sorted(SHELLS))


def run(given: argparse.Namespace, name: str) -> int:
    sys.stdout.write("".join(f"{line}\n" for line in SHELLS[given.shell]()))
    return SUCCESS
