"""The candesk program: its path, its version, and its answers."""

from __future__ import annotations

import functools
import os
import re
import shutil
import signal
import subprocess
from collections.abc import Sequence
from typing import NoReturn

from ._errors import LineTooLong, ProgramFailed, ProgramMissing, Rejected, WrongVersion
from ._version import VERSION

# exit statuses of the program: a text was rejected, arguments are bad
_REJECTED, _BAD_WORDS = 1, 2
_FAULT = re.compile(r"line (\d+): (\d+) (\w+)")
_LONG_LINE = "40 LongLine"


def program() -> str:
    """The path of the program: what `CANDESK` names, or candesk on the PATH."""
    named = os.environ.get("CANDESK")
    path = shutil.which(named or "candesk")
    if path is None:
        why = f"no program at {named}, which CANDESK names" if named else "no candesk on the PATH, and CANDESK isn't set"
        raise ProgramMissing(why)
    return path


@functools.lru_cache(maxsize=8)
def _checked(path: str, changed: int) -> str:
    try:
        done = subprocess.run([path, "--version"], stdin=subprocess.DEVNULL, capture_output=True, check=False)
    except OSError as error:
        raise ProgramMissing(f"{path}: {error.strerror}") from error
    if done.returncode:
        raise ProgramFailed(f"{path}: {error_message(done.stderr)}", done.returncode)
    found = re.match(rb"candesk (\d+)\.\d+\.\d+", done.stdout)
    if not found:
        raise WrongVersion(f"{path} isn't candesk, by its --version")
    if found[1].decode() != VERSION.partition(".")[0]:
        version = done.stdout.decode().strip()
        raise WrongVersion(f"{path} is {version}; version {VERSION} of the package works with candesk {VERSION.partition('.')[0]}")
    return path


def checked_program() -> str:
    """The path of the program, after a check of its version."""
    path = program()
    return _checked(path, os.stat(path).st_mtime_ns)


def error_message(errors: bytes) -> str:
    """The program's message on standard error, without its own name."""
    lines = errors.decode(errors="replace").splitlines() or ["it reported nothing"]
    return lines[-1].removeprefix("candesk: ")


def raise_failure(path: str, status: int, errors: bytes, lines: int = 0) -> NoReturn:
    """Raises the exception for an exit status and its message. `lines` is how many lines of a log were answered."""
    message = error_message(errors)
    rejected = _FAULT.fullmatch(message)
    if rejected:
        raise Rejected(path, int(rejected[1]), int(rejected[2]), rejected[3])
    if message == _LONG_LINE:
        raise LineTooLong(lines + 1)
    if status == _BAD_WORDS:
        raise WrongVersion(f"{program()} is too old: this package needs decode --json and dump --json: {message}")
    if status < 0:
        raise ProgramFailed(f"{path}: candesk was killed by {signal.Signals(-status).name}", status)
    raise ProgramFailed(f"{path}: {message}", status)


def answer(path: str, words: Sequence[str], *, findings: bool = False) -> bytes:
    """The output of the program for arguments and a database. With `findings`, status 1 without an error message is no failure."""
    with open(path, "rb"):
        pass
    done = subprocess.run([checked_program(), *words, "--", path], stdin=subprocess.DEVNULL, capture_output=True, check=False)
    if done.returncode and not (findings and done.returncode == _REJECTED and not done.stderr):
        raise_failure(path, done.returncode, done.stderr)
    return done.stdout
