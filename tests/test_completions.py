#!/usr/bin/env python3
"""The completions in each shell that is installed, and the manual pages by mandoc."""

from __future__ import annotations

import os
import pty
import select
import shutil
import sys
import tempfile
import time
import unittest
from typing import Final

sys.dont_write_bytecode = True
sys.path.insert(0, os.path.dirname(os.path.realpath(__file__)))

from test_support import EXAMPLES, ROOT, Case, cases, main, run  # noqa: E402

COMPLETIONS = f"{ROOT}/completions"
PAGES = [f"{ROOT}/docs/{it}" for it in sorted(os.listdir(f"{ROOT}/docs")) if it.endswith(".1")]
# what was typed, some words that it is completed to, and some that it isn't
Line = tuple[str, tuple[str, ...], tuple[str, ...]]
LINES: Final[tuple[Line, ...]] = (
    ("candesk ", ("check", "decode", "dump", "explain", "print", "session"), ("--short",)),
    ("candesk de", ("decode",), ("check",)),
    ("candesk decode --", ("--short", "--json", "--csv", "--help"), ("--keep",)),
    ("candesk dump --", ("--json", "--at", "--help"), ("--short", "--csv")),
    ("candesk check --", ("--json", "--help"), ("--short", "--csv", "--at")),
    ("candesk explain --", ("--json", "--help"), ("--short", "--csv")),
    ("candesk print --", ("--help",), ("--json",)),
    ("candesk session --", ("--short", "--keep", "--help"), ("--json", "--csv")),
    ("candesk explain ", ("car.dbc", "lorry.dbc"), ("car.log",)),
    ("candesk check ", ("car.dbc", "lorry.dbc"), ("car.log",)),
    ("candesk decode --short c", ("car.dbc",), ("lorry.dbc",)),
)
# lines of tools, whose options are in their own help
TOOL_LINES: Final[tuple[Line, ...]] = (
    ("candesk-table --", ("--database", "--long", "--only", "--format"), ("--mend",)),
    ("candesk-format --", ("--mend", "--vector"), ("--long",)),
    ("candesk-diff --", ("--log",), ("--long",)),
    ("candesk-lsp --", ("--stdio", "--help"), ("--long",)),
)
# how long zsh may take to answer a key, and how long it is quiet once it has answered, in seconds
PATIENCE = 10
QUIET = 1


def from_bash(line: str) -> str:
    script = """
        source "$1/candesk.bash"; source "$1/candesk_tools.bash"
        COMP_LINE=$2; read -ra COMP_WORDS <<< "$2"
        if [[ $2 == *" " ]]; then COMP_WORDS+=(""); fi
        COMP_CWORD=$((${#COMP_WORDS[@]} - 1)); called=_candesk; [ "${COMP_WORDS[0]}" = candesk ] || called=_candesk_tool
        "$called"; printf '%s\\n' "${COMPREPLY[@]}"
    """
    words = ["bash", "--norc", "-c", script, "bash", COMPLETIONS, line]
    return run(words, cwd=EXAMPLES)[1].decode()


def from_fish(line: str) -> str:
    script = "source $argv[1]/candesk.fish; source $argv[1]/candesk_tools.fish; complete -C $argv[2]"
    words = ["fish", "--no-config", "-c", script, COMPLETIONS, line]
    with tempfile.TemporaryDirectory() as home:
        surroundings = dict(os.environ, HOME=home, XDG_CONFIG_HOME=home)
        listed = run(words, cwd=EXAMPLES, env=surroundings)[1].decode()
    return "\n".join(it.split("\t")[0] for it in listed.splitlines())


def read_until(shell: int, mark: str | None) -> str:
    """What a shell on a terminal writes up to a mark, or to its end, or until it takes too long."""
    seen, end = "", time.monotonic() + PATIENCE
    while (mark is None or mark not in seen) and time.monotonic() < end:
        if select.select([shell], [], [], 0.1)[0]:
            try:
                seen += os.read(shell, 65_536).decode(errors="replace")
            except OSError:
                break
    return seen


def read_while_written(shell: int) -> str:
    """What a shell on a terminal writes until it is quiet, though it may take its time to begin."""
    seen, end = "", time.monotonic() + PATIENCE
    while time.monotonic() < end:
        if select.select([shell], [], [], QUIET)[0]:
            seen += os.read(shell, 65_536).decode(errors="replace")
        elif "\n" in seen:
            break
    return seen


def from_zsh(line: str) -> str:
    """What zsh lists for a tab on a terminal of its own."""
    with tempfile.TemporaryDirectory() as home:
        process, shell = pty.fork()
        if process == 0:
            os.chdir(EXAMPLES)
            os.environ.update(TERM="dumb", HOME=home, COLUMNS="200", LINES="50")
            os.execvp("zsh", ["zsh", "-f", "-i"])
        setup = (
            f"PS1=''; fpath=({COMPLETIONS} $fpath); autoload -U compinit; compinit -u -d {home}/dump; "
            "zstyle ':completion:*' list-prompt ''; LISTMAX=0; setopt noautomenu; setopt autolist; unsetopt listbeep; "
            "bindkey '^X' list-choices; echo be''gin\n"
        )
        os.write(shell, setup.encode())
        read_until(shell, "begin\r\n")
        # (what is typed too early keeps zsh from listing)
        os.write(shell, line.encode() + b"\x18")
        seen = read_while_written(shell)
        os.write(shell, b"\x15exit\n")
        read_until(shell, None)
        os.close(shell)
        os.waitpid(process, 0)
    return seen


def words_of(text: str) -> set[str]:
    return set(text.replace("\r", " ").replace("\n", " ").replace("\x1b", " ").split())


def setUpModule() -> None:
    path = os.environ["PATH"]
    unittest.addModuleCleanup(os.environ.__setitem__, "PATH", path)
    os.environ["PATH"] = f"{ROOT}/tools:{path}"


class ShellCase(Case):
    """Lines that a shell completes."""

    shell = ""

    @classmethod
    def setUpClass(cls) -> None:
        if not shutil.which(cls.shell):
            raise unittest.SkipTest(f"{cls.shell} isn't at hand")

    def complete(self, line: str) -> str:
        """What the shell completes a line to."""
        raise NotImplementedError

    def row(self, line: str, wanted: tuple[str, ...], others: tuple[str, ...]) -> None:
        found = words_of(self.complete(line))
        is_right = all(it in found for it in wanted) and not any(it in found for it in others)
        self.check_true(f"{self.shell}: {line}", is_right, f"is completed to {sorted(found)}")


@cases(LINES + TOOL_LINES)
class Bash(ShellCase):
    shell = "bash"

    def complete(self, line: str) -> str:
        return from_bash(line)


@cases(LINES + TOOL_LINES)
class Zsh(ShellCase):
    shell = "zsh"

    def complete(self, line: str) -> str:
        return from_zsh(line)


@cases(LINES + TOOL_LINES)
class Fish(ShellCase):
    shell = "fish"

    def complete(self, line: str) -> str:
        return from_fish(line)


class Current(Case):
    def test_manual_pages_are_current(self) -> None:
        self.check_equal("manual pages are current", run([f"{ROOT}/scripts/man_pages", "--check"])[0], 0)


@cases(PAGES, os.path.basename)
class ManualPages(Case):
    def row(self, page: str) -> None:
        if not shutil.which("mandoc"):
            self.skipTest("mandoc isn't at hand")
        status, output, _ = run(["mandoc", "-Tlint", page])
        print(output.decode(), end="")
        self.check_equal(f"manual page {os.path.basename(page)}", status, 0)


if __name__ == "__main__":
    main()
