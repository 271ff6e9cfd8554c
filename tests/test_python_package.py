#!/usr/bin/env python3
"""The tests of the Python package pass over the program, and mypy finds nothing in the package and the tools.

Debian's Python runs them if it is installed, as it has Debian's packages. Tests whose package isn't installed are skipped.
"""

from __future__ import annotations

import os
import re
import shutil
import subprocess
import sys

sys.dont_write_bytecode = True
sys.path.insert(0, os.path.dirname(os.path.realpath(__file__)))

from test_support import ROOT, Case, cases, main, program  # noqa: E402
from tool_runs import PYTHONS  # noqa: E402

PACKAGE = os.path.join(ROOT, "python")
TESTS = os.path.join(PACKAGE, "tests")
# the package needs Python 3.11
ENOUGH = "import sys; sys.exit(sys.version_info < (3, 11))"
# the longest that all tests may take, in seconds
PATIENCE = 900


def python() -> str | None:
    """Debian's Python, or else the one that runs this, if it is new enough."""
    for path in reversed(PYTHONS):
        if os.access(path, os.X_OK) and subprocess.run([path, "-c", ENOUGH], check=False).returncode == 0:
            return path
    return None


class Package(Case):
    def test_package(self) -> None:
        path = python()
        if path is None:
            self.skipTest("there is no Python 3.11")
        env = dict(os.environ, CANDESK=program(), PYTHONPATH=f"{PACKAGE}:{TESTS}", PYTHONDONTWRITEBYTECODE="1")
        words = [path, "-W", "error::ResourceWarning", "-m", "unittest", "discover", "-v", "-s", TESTS]
        done = subprocess.run(words, env=env, capture_output=True, text=True, errors="replace", timeout=PATIENCE, check=False)
        # (a package that a test imports may write lines between its name and its end)
        ended = re.findall(r"(?:^| \.\.\. )(ok|skipped ['\"].*)$", done.stderr, re.MULTILINE)
        count = re.search(r"^Ran (\d+) tests?", done.stderr, re.MULTILINE)
        for number, it in enumerate(ended):
            with self.subTest(f"test {number} of the package"):
                if it != "ok":
                    self.skipTest(it.removeprefix("skipped "))
        is_whole = done.returncode == 0 and count is not None and int(count[1]) == len(ended)
        self.check_true("tests of the Python package", is_whole, done.stderr)


def tool_files() -> list[str]:
    folder = os.path.join(ROOT, "tools")
    return [os.path.join(folder, it) for it in sorted(os.listdir(folder)) if it != "__pycache__"]


# what mypy judges at once: a name, and its words
JUDGED = [
    ("the package", [os.path.join(PACKAGE, "candesk"), TESTS]),
    ("what the tools share", [it for it in tool_files() if it.endswith(".py")]),
    *((os.path.basename(it), ["--scripts-are-modules", it]) for it in tool_files() if os.path.basename(it).startswith("candesk-")),
]


@cases(JUDGED)
class Types(Case):
    def row(self, what: str, files: list[str]) -> None:
        if not shutil.which("mypy"):
            self.skipTest("mypy isn't at hand")
        words = ["mypy", "--config-file", os.path.join(PACKAGE, "pyproject.toml"), "--cache-dir", os.devnull]
        env = dict(os.environ, MYPYPATH=f"{PACKAGE}:{TESTS}:{os.path.join(ROOT, 'tools')}")
        done = subprocess.run([*words, *files], env=env, cwd=PACKAGE, capture_output=True, text=True, check=False)
        self.check_true(f"types of {what}", done.returncode == 0, done.stdout + done.stderr)


if __name__ == "__main__":
    main()
