"""Logs as lines of `candump -L`: its files, files that python-can reads, lines, and python-can's messages."""

from __future__ import annotations

import contextlib
import gzip
import os
from collections.abc import Iterable, Iterator
from typing import Any, Union

from ._errors import PackageMissing

# python-can's Message has no types that mypy sees without it
Line = Union[bytes, str, Any]
Source = Union[str, "os.PathLike[str]", Iterable[Line]]
# the logs that python-can reads, by the suffixes of their names; its reader of candump logs isn't needed
CAN_SUFFIXES = (".asc", ".blf", ".csv", ".db", ".mf4", ".trc")
ERROR_FLAG = 0x20000000


def line_of_message(message: Any) -> bytes:
    """A python-can `Message` as a line of `candump -L`."""
    identifier = message.arbitration_id | (ERROR_FLAG if message.is_error_frame else 0)
    is_long = message.is_extended_id or message.is_error_frame
    spelled = f"{identifier:08X}" if is_long else f"{identifier:03X}"
    data = bytes(message.data or b"").hex().upper()
    if message.is_remote_frame:
        body = f"#R{message.dlc}" if message.dlc else "#R"
    elif message.is_fd:
        body = f"##{int(message.bitrate_switch) | int(message.error_state_indicator) << 1:X}{data}"
    else:
        body = f"#{data}"
    channel = "can" if message.channel is None else "".join(str(message.channel).split()) or "can"
    return f"({max(message.timestamp, 0):.6f}) {channel} {spelled}{body}\n".encode()


def line_of(item: Line) -> bytes:
    """A line with its line feed."""
    if isinstance(item, str):
        item = item.encode()
    if isinstance(item, bytes):
        return item if item.endswith(b"\n") else item + b"\n"
    return line_of_message(item)


def reads_by_can(path: str) -> bool:
    return path.lower().removesuffix(".gz").endswith(CAN_SUFFIXES)


def lines_of_file(path: str) -> Iterator[bytes]:
    """Pieces of a log file as lines of `candump -L`; a piece may be many lines."""
    if reads_by_can(path):
        try:
            import can
        except ImportError as error:
            raise PackageMissing(f"{path}: this form of log needs python-can (Debian's python3-can)") from error
        with contextlib.closing(iter(can.LogReader(path))) as messages:
            yield from map(line_of_message, messages)
        return
    with gzip.open(path) if path.endswith(".gz") else open(path, "rb") as file:
        yield from iter(lambda: file.read(1 << 16), b"")


def pieces_of(source: Source) -> Iterator[bytes]:
    """A source as pieces of lines."""
    if isinstance(source, (str, os.PathLike)):
        return lines_of_file(os.fspath(source))
    return map(line_of, source)
