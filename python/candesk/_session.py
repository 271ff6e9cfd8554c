"""A session, in which a database is edited while the lines of a log are kept."""

from __future__ import annotations

import collections
import contextlib
import os
import subprocess
import tempfile
import threading
from collections.abc import Iterable, Iterator, Sequence
from typing import NoReturn, Union

from . import _program
from ._database import Finding
from ._errors import EditRefused, UnknownMessage

# a message by its index, from 0, or by its name
MessageRef = Union[int, str]
# the most lines that a session keeps, and the most bytes of a line of a log and of a command
MAX_LINES = 1048576
MAX_LINE_BYTES = 4096
MAX_COMMAND_BYTES = 65536
LONG_LINE = b"refused 31 LongLine"
# how many lines of a log are written before their replies are read (all these replies fit in a pipe)
BATCH = 500
# how many databases are kept for undo
MAX_UNDONE = 100


def _is_end(line: bytes) -> bool:
    return line in (b"ok", b"bad command") or line.startswith(b"refused ")


def _spelled(text: str | bytes) -> bytes:
    return text.encode("utf-8", "surrogateescape") if isinstance(text, str) else text


def _shown(text: bytes) -> str:
    return text.decode("utf-8", "surrogateescape")


class SessionTalk:
    """A running `candesk session`, with its commands and replies as bytes; `Session` is built on it.

    A reply ends with `ok`, `bad command` or `refused ..`, and a text may have such a line. So a printed database is read up to the
    first such line outside its quotes, and of decoded lines as many are read as are kept. Calls may come from several threads.
    """

    def __init__(self, path: str, *, short: bool = False, keep: int | None = None) -> None:
        self.path, self.short, self.keep = path, short, keep
        self.kept: collections.deque[bytes] = collections.deque(maxlen=keep or MAX_LINES)
        self._talk = threading.RLock()
        with open(path, "rb"):
            pass
        words = [_program.checked_program(), "session", *(["--short"] if short else [])]
        words += ["--keep", str(keep)] if keep else []
        # (in its own process session, an interrupt of a terminal doesn't end it)
        self.running = subprocess.Popen(
            [*words, "--", path], start_new_session=True, stdin=subprocess.PIPE, stdout=subprocess.PIPE, stderr=subprocess.PIPE
        )
        assert self.running.stdin and self.running.stdout and self.running.stderr
        self._commands, self._replies, self._errors = self.running.stdin, self.running.stdout, self.running.stderr
        try:
            # (it has read the whole database when it answers)
            self.diagnostics()
        except BaseException:
            self.close()
            raise

    def close(self) -> None:
        self.running.kill()
        self.running.wait()
        for it in (self._replies, self._errors):
            it.close()
        with contextlib.suppress(OSError):
            self._commands.close()

    def raise_end(self) -> NoReturn:
        """Raises the exception for the end of the program."""
        with contextlib.suppress(OSError):
            self._commands.close()
        errors = self._errors.read()
        _program.raise_failure(self.path, self.running.wait(), errors)

    def _send(self, command: bytes) -> None:
        if len(command) >= MAX_COMMAND_BYTES or b"\n" in command:
            raise ValueError(f"a command is one line of less than {MAX_COMMAND_BYTES:,} bytes")
        self._write(command + b"\n")

    def _write(self, commands: bytes) -> None:
        try:
            self._commands.write(commands)
            self._commands.flush()
        except OSError:
            self.raise_end()

    def _line(self) -> bytes:
        line: bytes = self._replies.readline()
        if not line.endswith(b"\n"):
            self.raise_end()
        return line[:-1]

    def ask(self, command: bytes) -> tuple[bytes, list[bytes]]:
        """The last line of a reply, and those before it; none of these may look like a last line."""
        with self._talk:
            self._send(command)
            lines = [self._line()]
            while not _is_end(lines[-1]):
                lines.append(self._line())
            return lines[-1], lines[:-1]

    def diagnostics(self) -> list[bytes]:
        return self.ask(b"show diagnostics")[1]

    def text(self) -> bytes:
        """The canonical text of the database."""
        with self._talk:
            self._send(b"print")
            lines: list[bytes] = []
            quotes = _Quotes()
            while True:
                line = self._line()
                if not quotes.is_open and _is_end(line):
                    return b"".join(it + b"\n" for it in lines)
                quotes.pass_line(line)
                lines.append(line)

    def shown_lines(self) -> list[bytes]:
        """The decoded text of each line that is kept."""
        with self._talk:
            self._send(b"show lines")
            lines = [self._line() for _ in self.kept]
            return lines if _is_end(self._line()) else self.raise_end()

    def log(self, lines: Sequence[bytes]) -> tuple[int, bytes]:
        """Adds lines of a log. Returns how many were kept, and why the first of the others was refused."""
        taken, refusal = 0, b""
        with self._talk:
            for at in range(0, len(lines), BATCH):
                batch = [it for it in lines[at : at + BATCH] if len(it) <= MAX_LINE_BYTES]
                if len(batch) < len(lines[at : at + BATCH]):
                    refusal = refusal or LONG_LINE
                self._write(b"".join(b"log " + it + b"\n" for it in batch))
                for line in batch:
                    reply = self._line()
                    if reply == b"ok":
                        self.kept.append(line)
                        taken += 1
                    refusal = refusal or (reply if reply != b"ok" else b"")
        return taken, refusal


class _Quotes:
    """Whether a quote is open after some lines. The closing quote is the first that doesn't directly follow a backslash."""

    def __init__(self) -> None:
        self.is_open = False

    def pass_line(self, line: bytes) -> None:
        at = line.find(b'"')
        while at >= 0:
            self.is_open = not self.is_open or line[at - 1 : at] == b"\\"
            at = line.find(b'"', at + 1)


class Session:
    """A database that is edited, with the lines of a log. Every answer is what a fresh reading of the edited text would give.

    `close`, or the end of a `with` block, ends the program. An edit that is refused raises `EditRefused` and changes nothing. A
    message is given by its index, from 0, or by its name. Statements are as in a DBC file.
    """

    def __init__(self, path: str | os.PathLike[str], *, short: bool = False, keep: int | None = None) -> None:
        self.path = os.fspath(path)
        self._before: collections.deque[bytes] = collections.deque(maxlen=MAX_UNDONE)
        self._names: list[str] | None = None
        self._talk = SessionTalk(self.path, short=short, keep=keep)

    def __enter__(self) -> Session:
        return self

    def __exit__(self, *_: object) -> None:
        self.close()

    def close(self) -> None:
        self._talk.close()

    # ---- contents

    def text(self) -> bytes:
        """The canonical text of the database."""
        return self._talk.text()

    def save(self, path: str | os.PathLike[str]) -> None:
        """Writes the canonical text to a file, whole or not at all."""
        path, text = os.path.realpath(path), self.text()
        with tempfile.NamedTemporaryFile(dir=os.path.dirname(path), prefix=".candesk-", delete=False) as file:
            try:
                file.write(text)
                file.flush()
                os.fsync(file.fileno())
                with contextlib.suppress(FileNotFoundError):
                    os.fchmod(file.fileno(), os.stat(path).st_mode & 0o7777)
                os.replace(file.name, path)
            except BaseException:
                os.unlink(file.name)
                raise

    def diagnostics(self) -> list[Finding]:
        """The findings of `candesk check` for the database as it is now."""
        lines = map(_shown, self._talk.diagnostics())
        return [Finding(int(code), word, subject) for code, word, subject in ((it.split(" ", 2) + [""])[:3] for it in lines)]

    def layout(self, message: MessageRef) -> str:
        """The layout diagram of a message."""
        return "".join(_shown(it) + "\n" for it in self._ask(b"show layout %d" % self._index(message)))

    def lines(self) -> list[str]:
        """The lines that are kept, decoded by the database as it is now."""
        return [_shown(it) for it in self._talk.shown_lines()]

    def log(self, lines: str | bytes | Iterable[str | bytes]) -> None:
        """Adds a line of a log, or several. Raises `EditRefused` if one is refused; the others are kept."""
        spelled = [_spelled(it).rstrip(b"\n") for it in ([lines] if isinstance(lines, (str, bytes)) else lines)]
        if any(b"\n" in it for it in spelled):
            raise ValueError("a line of a log has no line feed in it")
        _, refusal = self._talk.log(spelled)
        if refusal:
            _check_reply(b"log", refusal)

    # ---- edits

    def _ask(self, command: bytes) -> list[bytes]:
        end, lines = self._talk.ask(command)
        _check_reply(command, end)
        return lines

    def edit(self, command: str | bytes) -> None:
        """Does an edit, in the form of a session command (`candesk session --help`)."""
        before = self.text()
        self._ask(_spelled(command))
        self._before.append(before)
        self._names = None

    def undo(self) -> bool:
        """Takes back the last edit: the previous database is opened again, with the lines that are kept. False if there is none."""
        if not self._before:
            return False
        with tempfile.NamedTemporaryFile(prefix="candesk-", suffix=".dbc") as file:
            file.write(self._before[-1])
            file.flush()
            renewed = SessionTalk(file.name, short=self._talk.short, keep=self._talk.keep)
        renewed.path = self.path
        try:
            renewed.log(list(self._talk.kept))
        except BaseException:
            renewed.close()
            raise
        self._talk.close()
        self._talk = renewed
        self._before.pop()
        self._names = None
        return True

    def _index(self, message: MessageRef) -> int:
        if isinstance(message, int):
            return message
        if self._names is None:
            self._names = list(_names_in(self._talk.text()))
        if message not in self._names:
            raise UnknownMessage(f"the database has no message {message}")
        return self._names.index(message)

    def add_message(self, statement: str, index: int | None = None) -> None:
        """Adds a message, `BO_ ..` without signals, at an index, or last."""
        if index is None:
            index = sum(1 for _ in _names_in(self._talk.text()))
        self.edit(f"add-message {index} {statement}")

    def remove_message(self, message: MessageRef) -> None:
        self.edit(f"remove-message {self._index(message)}")

    def change_message(self, message: MessageRef, name: str, length: int, sender: str) -> None:
        self.edit(f"change-message {self._index(message)} {name} {length} {sender}")

    def renumber(self, message: MessageRef, number: int) -> None:
        """Gives a message another ID, as in `BO_`: with bit 31 for an extended identifier."""
        self.edit(f"renumber {self._index(message)} {number}")

    def add_signal(self, message: MessageRef, index: int, statement: str) -> None:
        """Adds a signal, `SG_ ..`, at an index among those of the message."""
        self.edit(f"add-signal {self._index(message)} {index} {statement}")

    def remove_signal(self, message: MessageRef, name: str) -> None:
        self.edit(f"remove-signal {self._index(message)} {name}")

    def change_signal(self, message: MessageRef, statement: str) -> None:
        """Replaces the signal of the same name with `SG_ ..`."""
        self.edit(f"change-signal {self._index(message)} {statement}")

    def rename_signal(self, message: MessageRef, old: str, new: str) -> None:
        self.edit(f"rename-signal {self._index(message)} {old} {new}")

    def set_values(self, statement: str) -> None:
        """Sets value descriptions, `VAL_ ..`."""
        self.edit(f"set-values {statement}")

    def drop_values(self, number: int, name: str) -> None:
        self.edit(f"drop-values {number} {name}")

    def set_mux(self, statement: str) -> None:
        """Sets the ranges of a multiplexed signal, `SG_MUL_VAL_ ..`."""
        self.edit(f"set-mux {statement}")

    def drop_mux(self, number: int, name: str) -> None:
        self.edit(f"drop-mux {number} {name}")

    def set_table(self, statement: str) -> None:
        """Sets a value table, `VAL_TABLE_ ..`."""
        self.edit(f"set-table {statement}")

    def drop_table(self, name: str) -> None:
        self.edit(f"drop-table {name}")

    def set_attribute(self, statement: str) -> None:
        """Sets an attribute of a message, `BA_ .. BO_ ..`."""
        self.edit(f"set-attribute {statement}")

    def drop_attribute(self, number: int, name: str) -> None:
        self.edit(f'drop-attribute {number} "{name}"')


def _check_reply(command: bytes, end: bytes) -> None:
    """Raises `EditRefused` if the last line of a reply is a refusal."""
    if end == b"bad command":
        raise EditRefused(_shown(command), 0, "bad command")
    if end != b"ok":
        _, code, word = end.split(b" ")
        raise EditRefused(_shown(command), int(code), word.decode())


def _names_in(canonical: bytes) -> Iterator[str]:
    """The names of the messages of canonical text, in order."""
    quotes = _Quotes()
    for line in canonical.split(b"\n"):
        if not quotes.is_open and line.startswith(b"BO_ "):
            yield line.split(b" ")[2].rstrip(b":").decode()
        quotes.pass_line(line)
