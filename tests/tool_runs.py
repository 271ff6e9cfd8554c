"""What the tests of the tools share: runs of a tool, and files."""

from __future__ import annotations

import csv
import io
import os
import signal
import subprocess
import sys
import tempfile
import unittest.mock
from collections.abc import Sequence
from typing import ClassVar, NamedTuple

from test_support import EXAMPLES, ROOT, Case, program

TOOLS = os.path.join(ROOT, "tools")
PYTHONS = (sys.executable, "/usr/bin/python3")
# the longest that a run may take, in seconds, and the longest line of a log, in bytes
PATIENCE = 180
LONGEST_LINE = 4096


class Ran(NamedTuple):
    """What a run ended with."""

    status: int
    out: bytes
    errors: bytes


class ToolCase(Case):
    """A test of the tools, with a folder of its own; CANDESK names the program to all of them."""

    program: ClassVar[str]
    folder: str

    @classmethod
    def setUpClass(cls) -> None:
        super().setUpClass()
        # (what a shell started in its background ignores interrupts, and so would all that is started here)
        signal.signal(signal.SIGINT, signal.default_int_handler)
        cls.program = program()
        environment = unittest.mock.patch.dict(os.environ, CANDESK=cls.program)
        environment.start()
        cls.addClassCleanup(environment.stop)

    def setUp(self) -> None:
        super().setUp()
        folder = tempfile.TemporaryDirectory()
        self.addCleanup(folder.cleanup)
        self.folder = folder.name

    def new_folder(self) -> str:
        """A folder in the test's own."""
        return tempfile.mkdtemp(dir=self.folder)


def ran(words: Sequence[str], given: bytes = b"", **environment: str) -> Ran:
    env = dict(os.environ, LC_ALL="C.UTF-8", **environment)
    done = subprocess.run(words, input=given, capture_output=True, timeout=PATIENCE, env=env, check=False)
    return Ran(done.returncode, done.stdout, done.stderr)


def path_of(name: str) -> str:
    return os.path.join(TOOLS, name)


def tool(name: str, *words: str, given: bytes = b"", **environment: str) -> Ran:
    return ran([path_of(name), *words], given, **environment)


def by_shell(line: str, *words: str, given: bytes = b"", **environment: str) -> Ran:
    """A line of bash, in which `"$@"` is these words."""
    return ran(["bash", "-c", line, "bash", *words], given, **environment)


def example(name: str) -> str:
    return os.path.join(EXAMPLES, name)


def read(path: str) -> bytes:
    with open(path, "rb") as file:
        return file.read()


def written(folder: str, name: str, text: bytes) -> str:
    path = os.path.join(folder, name)
    with open(path, "wb") as file:
        file.write(text)
    return path


def executable(folder: str, name: str, text: bytes) -> str:
    """Puts a script into a folder, and returns its path."""
    path = written(folder, name, text)
    os.chmod(path, 0o755)
    return path


def shell(database: str, script: bytes, *options: str) -> Ran:
    """What candesk-shell ends with on a database and a script."""
    return tool("candesk-shell", *options, database, given=script)


def outputs_in(folder: str) -> dict[str, bytes]:
    return {it: read(os.path.join(folder, it)) for it in os.listdir(folder)} if os.path.isdir(folder) else {}


def has_package(name: str) -> bool:
    asked = f"import importlib.util, sys; sys.exit(importlib.util.find_spec({name!r}) is None)"
    return any(os.access(it, os.X_OK) and ran([it, "-c", asked]).status == 0 for it in PYTHONS)


def is_fault(got: tuple[int, bytes, bytes], status: int, *parts: bytes) -> bool:
    """One line on standard error, with these parts, and the status."""
    return got[0] == status and got[2].count(b"\n") == 1 and all(it in got[2] for it in parts) and b"Traceback" not in got[2]


def rows_of(table: bytes) -> list[dict[str, str]]:
    return list(csv.DictReader(io.StringIO(table.decode(), newline="")))
