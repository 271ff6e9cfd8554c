"""Runs of the program over the text of a document, and its answers about one version.

The text is in a file in memory, so nothing is left over however the server ends.
"""

from __future__ import annotations

import contextlib
import json
import os
import signal
import subprocess
import threading
from collections.abc import Callable
from dataclasses import dataclass, field
from typing import Any

import candesk_tools as tools

Object = dict[str, Any]

# how long a run may take, in seconds; the largest text that the server accepts needs about one
PATIENCE = 10
# the statuses of an answer: done, or with problems or rejected
ANSWERS = (0, 1)
BAD_WORDS = 2


class Exact(str):
    """A number as the program writes it."""


DECODER = json.JSONDecoder(parse_float=Exact)
LINE_FEED = "\n"


@dataclass(frozen=True)
class Answer:
    """The result of a run."""

    status: int
    out: bytes
    errors: bytes

    def objects(self) -> list[Object]:
        """The objects of the output, one a line, with exact decimals. (All at once, which takes half the time.)"""
        found: list[Object] = DECODER.decode(f"[{self.out.decode().rstrip().replace(LINE_FEED, ',')}]")
        return found


def memory_file(data: bytes) -> int:
    """A descriptor of a file in memory with some data."""
    try:
        number = os.memfd_create("candesk-lsp")
    except OSError as error:
        raise tools.Fault(f"no file in memory can be made: {error.strerror}", tools.BAD_FILES) from error
    try:
        with open(number, "wb", closefd=False) as file:
            file.write(data)
    except OSError as error:
        os.close(number)
        raise tools.Fault(f"a file in memory can't be written: {error.strerror}", tools.BAD_FILES) from error
    return number


def kill(process: subprocess.Popen[bytes]) -> None:
    """Kills a process with its own process session, and its children if it is a script."""
    if process.returncode is None:
        with contextlib.suppress(ProcessLookupError):
            os.killpg(process.pid, signal.SIGKILL)


class Run:
    """A run of the program over a text. Another thread may stop it."""

    def __init__(self, words: tuple[str, ...], data: bytes, script: bytes = b"") -> None:
        self.words, self.data, self.script = words, data, script
        self.lock = threading.Lock()
        self.process: subprocess.Popen[bytes] | None = None
        self.is_stopped = False

    def stop(self) -> None:
        with self.lock:
            self.is_stopped = True
            if self.process:
                kill(self.process)

    def start(self, number: int) -> subprocess.Popen[bytes]:
        command = [tools.program(), *self.words, f"/proc/self/fd/{number}"]
        pipe = subprocess.PIPE
        try:
            return subprocess.Popen(command, stdin=pipe, stdout=pipe, stderr=pipe, pass_fds=(number,), start_new_session=True)
        except OSError as error:
            raise tools.Fault(f"{command[0]} can't be started: {error.strerror}", tools.BAD_FILES) from error

    def answer(self) -> Answer:
        """The result of the run. Raises a fault if the program is missing, is ended by a signal, or has an error of its own."""
        number = memory_file(self.data)
        try:
            with self.lock:
                self.process = self.start(number)
                if self.is_stopped:
                    kill(self.process)
        finally:
            os.close(number)
        with self.process as process:
            try:
                out, errors = process.communicate(self.script, PATIENCE)
            except subprocess.TimeoutExpired as error:
                kill(process)
                raise tools.Fault(f"candesk {self.words[0]} took over {PATIENCE} seconds", tools.BAD_FILES) from error
        if process.returncode < 0:
            raise tools.Fault(f"candesk {self.words[0]} was ended by signal {-process.returncode}", tools.BAD_FILES)
        if process.returncode not in (*ANSWERS, BAD_WORDS):
            raise tools.Fault(f"candesk {self.words[0]}: {tools.error_message(errors)}", tools.BAD_FILES)
        return Answer(process.returncode, out, errors)


def ask(words: tuple[str, ...], data: bytes, script: bytes = b"") -> Answer:
    return Run(words, data, script).answer()


CHECK = ("explain", "--json")
OBJECTS = ("dump", "--json")
DIAGRAMS = ("dump",)
LOCATIONS = ("dump", "--at")
PRINT = ("print",)


@dataclass
class Snapshot:
    """One version of a document, with the program's answers about it."""

    data: bytes
    answers: dict[tuple[str, ...], Answer] = field(default_factory=dict)
    values: dict[str, Any] = field(default_factory=dict)

    def answer(self, words: tuple[str, ...]) -> Answer:
        if words not in self.answers:
            self.answers[words] = ask(words, self.data)
        return self.answers[words]

    def value(self, name: str, make: Callable[[], Any]) -> Any:
        """A value that is computed from answers, once."""
        if name not in self.values:
            self.values[name] = make()
        return self.values[name]
