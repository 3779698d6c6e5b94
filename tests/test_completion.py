"""What completes words in a shell: each option of each subcommand, and what bash makes of it."""

import shlex
import shutil
import subprocess
import unittest

from mutants.subcommands.completion import options_of
from mutants.subcommands.registry import SUBCOMMANDS
from running import run

SHELLS = ("bash", "zsh", "fish")


def script_of(shell: str) -> str:
    status, out, errors = run("completion", shell)
    assert (status, errors) == (0, "")
    return out


class Completion(unittest.TestCase):
    def test_each_option_of_each_subcommand_stands_in_each(self) -> None:
        for shell in SHELLS:
            lines = [line.rstrip("\\") for line in script_of(shell).split("\n")]
            told = " ".join(word for line in lines for word in shlex.split(line, "#" in line))
            for command in SUBCOMMANDS:
                self.assertIn(command.name, told)
                for option in options_of(command):
                    self.assertIn(option.word[2:], told, (shell, command.name))

    def test_a_shell_that_is_there_takes_it(self) -> None:
        for shell in SHELLS:
            if shutil.which(shell):
                ended = subprocess.run([shell, "-n"], input=script_of(shell).encode(), capture_output=True)
                self.assertEqual((ended.returncode, ended.stderr), (0, b""), shell)

    def test_what_bash_offers(self) -> None:
        for words, offered in (
            (["sug"], ["suggest"]), (["check", "--fail"], ["--fail-under"]), (["check", "--ops", "RO"], ["ROR"]),
            (["check", "--ops", "suff"], ["sufficient"]), (["page", "--fail"], []), (["check", "/etc/host"], None),
        ):  # fmt: skip
            line = " ".join(map(shlex.quote, ["mutants", *words]))
            asked = f"COMP_WORDS=({line}); COMP_CWORD={len(words)}; _mutants; echo ${{COMPREPLY[@]}}"
            asked = f"{script_of('bash')}\n{asked}"
            out = subprocess.run(["bash", "-c", asked], capture_output=True, text=True, check=True).stdout.split()
            if offered is None:
                self.assertIn("/etc/hosts", out)
            else:
                self.assertEqual(out, offered, words)


if __name__ == "__main__":
    unittest.main()
