"""The exceptions of this package. All are `Error`s."""

from __future__ import annotations


class Error(Exception):
    """The base class of all exceptions of this package."""


class ProgramMissing(Error):
    """There is no candesk program at `CANDESK` or on the PATH."""


class WrongVersion(Error):
    """The candesk program doesn't have what this package needs."""


class ProgramFailed(Error):
    """The program ended early: it ran out of memory, couldn't write, or was killed. `status` is its exit status, or the negative
    number of the signal that killed it."""

    def __init__(self, text: str, status: int) -> None:
        super().__init__(text)
        self.status = status


class Rejected(Error, ValueError):
    """A database isn't valid. `line` is the line of its first error, and `code` and `word` are the kind of error."""

    def __init__(self, path: str, line: int, code: int, word: str) -> None:
        super().__init__(f"{path}: line {line}: {code} {word}")
        self.path, self.line, self.code, self.word = path, line, code, word


class LineTooLong(Error, ValueError):
    """A line of a log has over 4,096 bytes. `line` is its number, from 1; what comes before it was decoded."""

    def __init__(self, line: int) -> None:
        super().__init__(f"line {line} of the log has over 4,096 bytes")
        self.line = line


class UnknownMessage(Error, KeyError):
    """The database has no such message."""

    def __str__(self) -> str:
        return str(self.args[0])


class UnknownSignal(Error, KeyError):
    """The message has no such signal."""

    def __str__(self) -> str:
        return str(self.args[0])


class DecodeError(Error, ValueError):
    """A frame can't be decoded, such as one that is shorter than its message."""


class EditRefused(Error, ValueError):
    """A session refused a command, which changed nothing. `code` and `word` are the reason, as in `22 NoSignal`; `code` is 0
    for a malformed command."""

    def __init__(self, command: str, code: int, word: str) -> None:
        super().__init__(f"{command}: {code} {word}" if code else f"{command}: {word}")
        self.code, self.word = code, word


class PackageMissing(Error, ImportError):
    """A call needs a Python package that isn't installed."""
