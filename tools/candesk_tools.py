"""What the tools share: finding and calling the program, splitting its texts, replacing files, reporting faults, and databases as
objects of the Python package `candesk`.

Nothing here interprets a database. A database text is split into quoted texts and the text between them. In canonical text, as
`candesk print` writes it, the lines of messages and signals are found, for their names.
"""

from __future__ import annotations

import tool_start
from tool_start import BAD_FILES, BAD_WORDS, INTERRUPTED, NO_MEMORY, REJECTED, TOOL, Fault, lacks_memory, report

import argparse
import contextlib
import importlib.util
import os
import re
import shutil
import signal
import stat
import subprocess
import sys
import tempfile
import threading
import time
from collections.abc import Callable, Iterable, Iterator
from dataclasses import dataclass
from typing import IO, BinaryIO, NoReturn

HERE = os.path.dirname(os.path.realpath(__file__))
# (installed, the package is next to this file; in a checkout it has a folder of its own)
sys.path.append(os.path.join(os.path.dirname(HERE), "python"))

import candesk  # noqa: E402

__all__ = ["BAD_FILES", "BAD_WORDS", "INTERRUPTED", "NO_MEMORY", "REJECTED", "TOOL", "Fault", "lacks_memory", "report"]

# the largest exit status of a program that ended by itself (a checkout without a program has 70)
LARGEST_STATUS = 99

# an interrupt, one that is repeated since it arrived when nothing could be raised, and a request to end
INTERRUPTS = (signal.SIGINT, signal.SIGALRM, signal.SIGTERM)

# the program's message for a line of a log that has over 4,096 bytes
LONG_LINE = "40 LongLine"

# A quoted text: its closing quote is the first that doesn't directly follow a backslash.
QUOTED = rb'"[^"]*(?:(?<=\\)"[^"]*)*(?<!\\)"'
# the pieces of any database: a quoted text, a comment up to the end of its line, and the text between
PIECES = re.compile(rb'(?P<quoted>%s)|(?P<comment>//[^\n]*)|(?P<plain>[^"/]+|/)|(?P<open>"[^\0]*)' % QUOTED, re.DOTALL)
# the pieces of canonical text, in which an unquoted line feed ends a statement
CANONICAL = re.compile(rb'%s|\n|[^"\n]+' % QUOTED)
MESSAGE = re.compile(rb"BO_ (\d+) (\w+): (\d+) ")
SIGNAL = re.compile(rb" SG_ (\w+) ")
# the beginnings of messages and signals in canonical text; none follows a quoted line feed
HEADS = re.compile(rb"%s|^BO_ (\d+) (\w+): (\d+) |^ SG_ (\w+) " % QUOTED, re.MULTILINE)


@dataclass
class Message:
    """A message of a database: its index, ID as in `BO_` and name, the names of its signals, and its length in bytes."""

    index: int
    number: int | None
    name: str
    signals: list[str]
    length: int = 0


class Words(argparse.ArgumentParser):
    """An argument parser that reports an error in one line."""

    def error(self, message: str) -> NoReturn:
        raise Fault(f"{message}; see {self.prog} --help", BAD_WORDS)


def words_parser(described: str | None) -> Words:
    """An argument parser with a tool's own text as its help."""
    shape = argparse.RawDescriptionHelpFormatter
    return Words(prog=TOOL, usage=argparse.SUPPRESS, description=described, formatter_class=shape, allow_abbrev=False)


def stop(*_: object) -> NoReturn:
    sys.exit(128 + signal.SIGTERM)


def run_tool(main: Callable[[list[str]], int]) -> None:
    """Runs a tool and exits with its status. Any other end is reported in one line; none if the reader of its output is gone."""
    signal.signal(signal.SIGTERM, stop)
    threading.excepthook = thread_failed
    try:
        try:
            status = main(sys.argv[1:])
        except SystemExit as end:
            status = end.code if isinstance(end.code, int) else 0
        tool_start.end(status)
    except BaseException as error:  # noqa: BLE001
        tool_start.end_by(failures[0] if failures and isinstance(error, KeyboardInterrupt) else error)


# the exceptions that ended threads
failures: list[BaseException] = []


def thread_failed(raised: threading.ExceptHookArgs) -> None:
    """Ends the tool by interrupting its main thread: its output would be incomplete without the thread that failed."""
    failures.append(raised.exc_value or MemoryError())
    main = threading.main_thread().ident
    if main is not None:
        signal.pthread_kill(main, signal.SIGINT)


def counted(count: int, word: str) -> str:
    """A count with its noun, in the plural unless it is 1."""
    return f"{count} {word}" + ("" if count == 1 else "s")


# ---- the program


def program() -> str:
    """The path of the program: $CANDESK; else candesk next to the tools, or in their checkout; else candesk on the PATH."""
    named = os.environ.get("CANDESK")
    neighbors = [os.path.join(HERE, "candesk"), os.path.join(os.path.dirname(os.path.realpath(sys.argv[0])), "candesk")]
    checkout = os.path.join(os.path.dirname(HERE), "candesk")
    for path in (named,) if named else (*neighbors, checkout, shutil.which("candesk")):
        if path and os.path.isfile(path) and os.access(path, os.X_OK):
            return os.path.abspath(path)
    raise Fault(f"there is no candesk at {named}, which CANDESK names" if named else "there is no candesk on the PATH", BAD_FILES)


def error_message(errors: bytes) -> str:
    """The program's message on standard error, without its own name."""
    lines = errors.decode(errors="replace").splitlines() or ["it reported nothing"]
    return lines[-1].removeprefix("candesk: ")


def status_of(returned: int) -> int:
    """A tool's exit status for that of a program; `BAD_FILES` if a signal ended the program, or it never started."""
    return returned if 0 <= returned <= LARGEST_STATUS else BAD_FILES


def printed(path: str) -> bytes:
    """The canonical text of a database. Raises a fault with the program's message if the database is rejected."""
    if not os.path.exists(path):
        raise Fault(f"{path}: no such file", BAD_FILES)
    done = subprocess.run([program(), "print", "--", path], stdin=subprocess.DEVNULL, capture_output=True, check=False)
    if done.returncode:
        raise Fault(f"{path}: {error_message(done.stderr)}", status_of(done.returncode))
    return done.stdout


@contextlib.contextmanager
def as_faults() -> Iterator[None]:
    """Turns the package's exceptions into faults, with the program's messages and statuses."""
    try:
        yield
    except candesk.Rejected as error:
        raise Fault(str(error), REJECTED) from error
    except candesk.ProgramFailed as error:
        raise Fault(str(error), status_of(error.status)) from error
    except candesk.Error as error:
        raise Fault(str(error), BAD_FILES) from error


def database(path: str) -> candesk.Database:
    """A database as objects. Raises a fault with the program's message if it is rejected."""
    if not os.path.exists(path):
        raise Fault(f"{path}: no such file", BAD_FILES)
    os.environ["CANDESK"] = program()
    with as_faults():
        return candesk.load(path)


class Progress:
    """How much of a file was read, shown on a terminal unless the output goes there."""

    # how often, in seconds
    EVERY = 0.5

    def __init__(self, source: IO[bytes]) -> None:
        kind = os.fstat(source.fileno())
        self.size = kind.st_size if stat.S_ISREG(kind.st_mode) else 0
        self.is_shown = sys.stderr.isatty() and not sys.stdout.isatty()
        self.read, self.next, self.width = 0, time.monotonic() + self.EVERY, 0

    def show(self, count: int) -> None:
        self.read += count
        if self.is_shown and time.monotonic() >= self.next:
            self.next = time.monotonic() + self.EVERY
            part = f"{100 * self.read // self.size} %" if self.size else f"{self.read / 1e6:,.0f} MB"
            text = f"{TOOL}: {part}"
            sys.stderr.write(f"\r{text}")
            sys.stderr.flush()
            self.width = len(text)

    def end(self) -> None:
        """Clears what is shown."""
        if self.width:
            sys.stderr.write("\r" + " " * self.width + "\r")
            sys.stderr.flush()


# ---- packages of Python

DEBIAN_PYTHON = "/usr/bin/python3"


def has_package(name: str) -> bool:
    """Whether a package is installed. Debian installs packages for its own Python, so if another one runs, restarts with that."""
    if importlib.util.find_spec(name):
        return True
    tried = os.environ.get("CANDESK_PYTHON") or os.path.realpath(sys.executable) == os.path.realpath(DEBIAN_PYTHON)
    if tried or not os.access(DEBIAN_PYTHON, os.X_OK):
        return False
    code = f"import importlib.util, sys; sys.exit(importlib.util.find_spec({name!r}) is None)"
    if subprocess.run([DEBIAN_PYTHON, "-c", code], stdin=subprocess.DEVNULL, capture_output=True, check=False).returncode:
        return False
    sys.stdout.flush()
    signal.pthread_sigmask(signal.SIG_BLOCK, {signal.SIGINT})
    os.execve(DEBIAN_PYTHON, [DEBIAN_PYTHON, *sys.argv], dict(os.environ, CANDESK_PYTHON=DEBIAN_PYTHON))


def need_package(name: str, source: str) -> None:
    if not has_package(name):
        raise Fault(f"this tool needs the Python package {name} ({source})", BAD_FILES)


# ---- texts of databases


def shown(text: bytes) -> str:
    """A text as in the program's objects: UTF-8, or else each byte a character of Latin-1."""
    try:
        return text.decode()
    except UnicodeDecodeError:
        return text.decode("latin-1")


def pieces(text: bytes) -> Iterator[tuple[str | None, int, bytes]]:
    """The pieces of any database, each with its kind: quoted, comment, plain, or open for a quote that is never closed."""
    return ((found.lastgroup, found.start(), found.group()) for found in PIECES.finditer(text))


def line_of(text: bytes, at: int) -> int:
    """The line number of a byte, from 1."""
    return text.count(b"\n", 0, at) + 1


def comment_line(text: bytes) -> int | None:
    """The line number of the first `//` comment, or None."""
    return next((line_of(text, at) for kind, at, _ in pieces(text) if kind == "comment"), None)


def canonical_lines(canonical: bytes) -> Iterator[list[bytes]]:
    """The lines of canonical text, each as its pieces. A line feed within quotes ends no line."""
    line: list[bytes] = []
    for found in CANONICAL.finditer(canonical):
        if found.group() == b"\n":
            yield line
            line = []
        else:
            line.append(found.group())


def messages_of(canonical: bytes) -> list[Message]:
    """The messages of canonical text in order, each with the names of its signals."""
    found: list[Message] = []
    for head in HEADS.finditer(canonical):
        if head[1]:
            found.append(Message(len(found), int(head[1]), head[2].decode(), [], int(head[3])))
        elif head[4]:
            found[-1].signals.append(head[4].decode())
    return found


# ---- files


@contextlib.contextmanager
def uninterrupted() -> Iterator[None]:
    """Defers interrupts until the block is done, whichever thread they are sent to. (A mask would defer them in this thread alone,
    and another one would take them.) Only the main thread is interrupted: others have nothing to defer."""
    if threading.current_thread() is not threading.main_thread():
        yield
        return
    came: list[int] = []
    try:
        with contextlib.ExitStack() as before:
            for number in INTERRUPTS:
                before.callback(signal.signal, number, signal.signal(number, lambda number, _: came.append(number)))
            yield
    finally:
        if came:
            signal.raise_signal(came[0])


class Folder(tempfile.TemporaryDirectory[str]):
    """A temporary folder that is removed despite interrupts."""

    def __init__(self, prefix: str, dir: str | None = None) -> None:
        # (the first temporary file or folder also looks for a folder to put it in)
        with uninterrupted():
            super().__init__(prefix=prefix, dir=dir)

    def cleanup(self) -> None:
        with uninterrupted():
            super().cleanup()


def temporary_database() -> IO[bytes]:
    """A temporary file for a database. It is removed when it is closed, despite interrupts."""
    with uninterrupted():
        return tempfile.NamedTemporaryFile(prefix="candesk-", suffix=".dbc")


@contextlib.contextmanager
def naming(name: str) -> Iterator[None]:
    """Adds a name to an error of a stream or an open file, which has none of its own."""
    try:
        yield
    except OSError as error:
        if error.filename is None:
            error.filename = name
        raise


def lines_of(stream: Iterable[bytes], name: str) -> Iterator[bytes]:
    """The lines of a stream. An error while reading has the stream's name."""
    lines = iter(stream)
    while True:
        try:
            line = next(lines)
        except StopIteration:
            return
        except OSError as error:
            error.filename = error.filename or name
            raise
        yield line


@contextlib.contextmanager
def replacing(path: str) -> Iterator[BinaryIO]:
    """A new file in place of another: written in the same folder, and renamed once it is complete. Mode and owner stay."""
    path, made = os.path.realpath(path), ""
    try:
        try:
            with uninterrupted():
                number, made = tempfile.mkstemp(prefix=".candesk-", dir=os.path.dirname(path))
        except OSError as error:
            raise Fault(f"{path}: {error.strerror}", BAD_FILES) from error
        with naming(path), os.fdopen(number, "wb") as file:
            yield file
            file.flush()
            keep_rights(path, file.fileno())
            os.fsync(file.fileno())
        os.replace(made, path)
    except BaseException:
        with contextlib.suppress(OSError):
            os.unlink(made)
        raise
    folder = os.open(os.path.dirname(path), os.O_RDONLY)
    with contextlib.suppress(OSError):
        os.fsync(folder)
    os.close(folder)


def keep_rights(path: str, number: int) -> None:
    """Gives an open file the mode and owner of the file at a path, or the mode of a new file if there is none."""
    if os.path.exists(path):
        there = os.stat(path)
        with contextlib.suppress(OSError):
            os.fchown(number, there.st_uid, there.st_gid)
        os.fchmod(number, stat.S_IMODE(there.st_mode))
    else:
        mask = os.umask(0)
        os.umask(mask)
        os.fchmod(number, 0o666 & ~mask)
