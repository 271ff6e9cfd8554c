"""What the two tools for many logs share: the logs, where their outputs go, and blocks of a log that end at line ends.

Each line of a log is decoded independently. So the output of a log that ends in a line feed, followed by that of another
log, is the output of the two as one; and blocks that end at line ends can be decoded separately and their outputs concatenated.
"""

from __future__ import annotations

import contextlib
import os
import shutil
import subprocess
from collections.abc import Iterable, Iterator

import candesk_tools as tools

LOG, DECODED = ".log", ".decoded"


class Failures:
    """The logs that failed while others were still decoded, each with its fault."""

    def __init__(self) -> None:
        self.faults: dict[str, tools.Fault] = {}

    @contextlib.contextmanager
    def of(self, log: str) -> Iterator[None]:
        """Records why a log failed, and continues."""
        try:
            yield
        except (tools.Fault, OSError) as error:
            self.add(log, error)

    def add(self, log: str, error: tools.Fault | OSError) -> None:
        """Records the first fault of a log. If the tool itself is out of memory, raises the error."""
        if tools.lacks_memory(error):
            raise error
        if isinstance(error, OSError):
            error = tools.Fault(f"{error.filename or log}: {error.strerror}", tools.BAD_FILES)
        self.faults.setdefault(log, error)

    def report(self) -> int:
        """Reports each log that failed, in order, and returns the highest status, or 0 if none failed."""
        for _, fault in sorted(self.faults.items()):
            tools.report(str(fault))
        return max((it.status for it in self.faults.values()), default=0)


def logs_of(path: str) -> list[str]:
    """The logs that a path names: the file, or those of the folder, by name."""
    if os.path.isdir(path):
        logs = [os.path.join(path, it) for it in sorted(os.listdir(path)) if it.endswith(LOG)]
        if not logs:
            raise tools.Fault(f"{path}: there is no file of a name that ends in {LOG}", tools.BAD_FILES)
    elif os.path.isfile(path):
        logs = [path]
    else:
        raise tools.Fault(f"{path}: no such file or folder", tools.BAD_FILES)
    return [os.path.abspath(it) for it in logs]


def outputs_of(logs: list[str], folder: str | None) -> list[str]:
    """Where the decoded lines of each log go."""
    if folder is not None:
        os.makedirs(folder, exist_ok=True)
    outputs = []
    for log in logs:
        name = os.path.basename(log).removesuffix(LOG) + DECODED
        outputs.append(os.path.join(os.path.abspath(folder) if folder is not None else os.path.dirname(log), name))
    return outputs


def decode_words(database: str, is_short: bool) -> list[str]:
    """The command that decodes a log. Raises a fault if the database is rejected, before anything is started."""
    tools.printed(database)
    return [tools.program(), "decode", *(["--short"] if is_short else []), os.path.abspath(database)]


def fault_of(log: str, returned: int, errors: bytes) -> tools.Fault:
    """The fault of a log that could not be decoded, with the program's message."""
    return tools.Fault(f"{log}: {tools.error_message(errors)}", tools.status_of(returned))


def fault_with_line(log: str, begin: int, made: str, returned: int, errors: bytes) -> tools.Fault:
    """The same, with the line number of a line that is too long. `made` has the lines before it, from byte `begin` of the log."""
    message = tools.error_message(errors)
    if message == tools.LONG_LINE:
        message = f"line {line_feeds(log, begin) + line_feeds(made) + 1}: {message}"
    return tools.Fault(f"{log}: {message}", tools.status_of(returned))


def line_feeds(path: str, end: int | None = None) -> int:
    """The number of line feeds in a file, or in its first `end` bytes."""
    count, left = 0, os.path.getsize(path) if end is None else end
    with open(path, "rb") as file:
        while left and (chunk := file.read(min(left, 1 << 20))):
            count += chunk.count(b"\n")
            left -= len(chunk)
    return count


def decode_whole(decode: list[str], log: str, output: str) -> None:
    with open(log, "rb") as source, tools.replacing(output) as file:
        done = subprocess.run(decode, stdin=source, stdout=file, stderr=subprocess.PIPE, check=False)
        if done.returncode:
            raise fault_of(log, done.returncode, done.stderr)


def put_in_place(made: str, output: str) -> None:
    """Renames a file on the same file system to an output, once it is on the disk."""
    with open(made, "rb") as file:
        tools.keep_rights(output, file.fileno())
        os.fsync(file.fileno())
    os.replace(made, output)


def put_together(parts: Iterable[str], output: str) -> None:
    """Concatenates files in order, and removes each."""
    with tools.replacing(output) as file:
        for part in parts:
            with open(part, "rb") as source:
                shutil.copyfileobj(source, file, 1 << 20)
            os.unlink(part)


def blocks_of(log: str, size: int) -> list[tuple[int, int]]:
    """The blocks of a log: where each begins and ends. Each except the last ends after a line feed."""
    blocks, begin = [], 0
    end_of_log = os.path.getsize(log)
    with open(log, "rb") as file:
        while begin < end_of_log:
            end = min(begin + size, end_of_log)
            if end < end_of_log:
                file.seek(end - 1)
                end = end - 1 + len(file.readline())
            blocks.append((begin, end))
            begin = end
    return blocks
