"""Rows of `candesk decode --csv` passed on in pieces: split at row ends, chosen by message and signal, with floats filled in.

A quoted field may contain commas, line feeds and doubled quotes. Most pieces have no quote, and are split at commas and line feeds
alone.
"""

from __future__ import annotations

import csv
import io
import re
from collections.abc import Callable, Iterable, Iterator
from typing import Protocol

# the columns of the message, the signal and the value
MESSAGE, SIGNAL, VALUE = 3, 4, 5
FLOAT = b"?float"
TO_QUOTE = re.compile(r'[,"\r\n]')


def whole_rows(pieces: Iterator[bytes]) -> Iterator[bytes]:
    """The same bytes, split after row ends. A line feed within quotes ends no row."""
    kept = b""
    for piece in pieces:
        kept += piece
        end = kept.rfind(b"\n") + 1
        while kept.count(b'"', 0, end) % 2:
            end = kept.rfind(b"\n", 0, end - 1) + 1
        if end:
            yield kept[:end]
            kept = kept[end:]
    if kept:
        yield kept


def quoted(field: str) -> str:
    """A field as the program writes it. (Python's writer doesn't quote a lone CR.)"""
    return '"' + field.replace('"', '""') + '"' if TO_QUOTE.search(field) else field


def row_text(row: Iterable[str]) -> str:
    return ",".join(map(quoted, row)) + "\n"


def changed(piece: bytes, change: Callable[[list[str]], list[str] | None]) -> bytes:
    """A piece of whole rows after a change of each; a row that is changed to None is dropped."""
    rows = csv.reader(io.StringIO(piece.decode(), newline=""))
    return "".join(row_text(it) for it in map(change, rows) if it is not None).encode()


class Float(Protocol):
    """A float that was decoded."""

    @property
    def value(self) -> str: ...

    @property
    def unit(self) -> str: ...


def with_floats(piece: bytes, floats: Iterator[Float]) -> bytes:
    """A piece of whole rows with each `?float` replaced by the value and unit of the next of these floats."""
    if FLOAT not in piece:
        return piece

    def fill(row: list[str]) -> list[str]:
        found = next(floats, None) if row[VALUE] == "?float" else None
        return [*row[:VALUE], found.value, found.unit, ""] if found else row

    if b'"' in piece:
        return changed(piece, fill)
    rows = piece.split(b"\n")
    for at, row in enumerate(rows):
        if FLOAT in row:
            rows[at] = row_text(fill(row.decode().split(",")))[:-1].encode()
    return b"\n".join(rows)


class Only:
    """Filters pieces of whole rows: keeps those of some messages and signals."""

    def __init__(self, wanted: set[tuple[str, str]]) -> None:
        self.wanted = wanted
        names = b"|".join(sorted(b"%s,%s" % (message.encode(), signal.encode()) for message, signal in wanted))
        self.rows = re.compile(rb"^[^,\n]*,[^,\n]*,[^,\n]*,(?:%s),.*\n" % names, re.MULTILINE)

    def __call__(self, piece: bytes) -> bytes:
        if b'"' in piece:
            return changed(piece, lambda row: row if (row[MESSAGE], row[SIGNAL]) in self.wanted else None)
        return b"".join(self.rows.findall(piece))


def rows_of(pieces: Iterator[bytes]) -> Iterator[list[str]]:
    """The rows of such pieces, without the header."""
    for at, piece in enumerate(whole_rows(pieces)):
        rows = csv.reader(io.StringIO(piece.decode(), newline=""))
        if at == 0:
            next(rows)
        yield from rows
