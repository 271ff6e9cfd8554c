#!/usr/bin/env python3
"""mypy and pyflakes find nothing in the Python files of the package, the tools, the scripts and the tests.

A file is one of Python by the end of its name or by how it begins. mypy is strict, and takes all in one run. pyflakes may report an
import that is made for its effect, whose line has F401.
"""

from __future__ import annotations

import os
import re
import shutil
import subprocess
import sys
from typing import Final

sys.dont_write_bytecode = True
sys.path.insert(0, os.path.dirname(os.path.realpath(__file__)))

from test_support import ROOT, Case, content, main, run  # noqa: E402
from tool_runs import PYTHONS  # noqa: E402

FOLDERS: Final = ("python", "tools", "scripts", "tests")
# the folders of modules that others import
MODULES: Final = ("python", "python/tests", "tools", "scripts", "tests")
# how a program begins whose name doesn't end in .py, and a tool, which a shell starts
HEAD: Final = re.compile(rb"#!.*\bpython3?\n|#!/bin/sh\n''':'\n")
# an import that pyflakes reports, and the mark of one that is made for its effect
UNUSED: Final = re.compile(r"(.+?):(\d+):.* imported but unused")
MEANT: Final = b"F401"


def files() -> list[str]:
    """The files of Python that git has; none without git."""
    listed = run(["git", "ls-files", "-z", *FOLDERS], cwd=ROOT)[1].decode() if shutil.which("git") else ""
    return [it for it in listed.split("\0") if it.endswith(".py") or it and HEAD.match(content(f"{ROOT}/{it}"))]


def is_meant(line: str) -> bool:
    """Whether a line reports an import that is made for its effect."""
    found = UNUSED.match(line)
    return bool(found and MEANT in content(f"{ROOT}/{found[1]}").split(b"\n")[int(found[2]) - 1])


class PythonFiles(Case):
    def check_files(self, judge: str, paths: list[str], words: list[str]) -> None:
        """Runs a judge over files, and counts each by the lines that begin with it; all other lines are a fault too."""
        environment = dict(os.environ, MYPYPATH=":".join(MODULES), PYTHONDONTWRITEBYTECODE="1")
        done = subprocess.run([*words, *paths], cwd=ROOT, env=environment, capture_output=True, text=True, check=False)
        found: dict[str, list[str]] = {path: [] for path in paths}
        others = [] if done.returncode in (0, 1) else [f"status {done.returncode}"]
        for line in (done.stdout + done.stderr).splitlines():
            if not is_meant(line):
                found.get(line.split(":")[0], others).append(line)
        for path, lines in found.items():
            self.check(f"{judge}: {path}", "\n".join(lines) or None)
        if others:
            self.check(judge, "\n".join(others))

    def files(self) -> list[str]:
        """All files, of which there has to be a list."""
        paths = files()
        if not paths:
            self.skipTest("git's list of files isn't at hand")
        return paths

    def test_types(self) -> None:
        paths = self.files()
        if not shutil.which("mypy"):
            self.skipTest("mypy isn't at hand")
        config = ["--config-file", "python/pyproject.toml", "--cache-dir", os.devnull]
        self.check_files("mypy", paths, ["mypy", "--strict", "--scripts-are-modules", "--no-error-summary", *config])

    def test_unused_and_unknown_names(self) -> None:
        paths = self.files()
        pythons = [it for it in PYTHONS if os.access(it, os.X_OK) and run([it, "-m", "pyflakes", "--version"])[0] == 0]
        if not pythons:
            self.skipTest("pyflakes isn't at hand")
        self.check_files("pyflakes", paths, [pythons[0], "-m", "pyflakes"])


if __name__ == "__main__":
    main()
