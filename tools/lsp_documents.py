"""The text of a document as bytes, with positions in it as the protocol counts them: lines, and units of UTF-16.

A text is kept as UTF-8, which is what the program reads and what its offsets count. A byte that isn't UTF-8, as in a Latin-1 file
that an editor sends unchanged, stays that byte and counts as one unit. Lines end in LF, CR LF or CR.
"""

from __future__ import annotations

import codecs
import re
from bisect import bisect_left, bisect_right
from dataclasses import dataclass, field
from typing import Any, NamedTuple

Object = dict[str, Any]

LINE_END = re.compile(rb"\r\n|\n|\r")
NOT_ASCII = re.compile("[^\x00-\x7f]")
# the name of the error handler, and the characters that represent stray bytes
STRAY = "candesk-stray"
FIRST_STRAY, LAST_STRAY, STRAY_BASE = 0xDC80, 0xDCFF, 0xDC00


def encoded_stray(character: str) -> bytes:
    code = ord(character)
    is_byte = FIRST_STRAY <= code <= LAST_STRAY
    return bytes([code - STRAY_BASE]) if is_byte else character.encode("utf-8", "surrogatepass")


def handle_stray(error: UnicodeError) -> tuple[str | bytes, int]:
    """Turns bytes that aren't UTF-8 into surrogates and back, and keeps lone surrogates, which JSON can have."""
    if isinstance(error, UnicodeEncodeError):
        return b"".join(encoded_stray(it) for it in error.object[error.start : error.end]), error.end
    if not isinstance(error, UnicodeDecodeError):
        raise error
    lone = error.object[error.start : error.start + 3].decode("utf-8", "surrogatepass") if is_lone(error) else ""
    if lone and not FIRST_STRAY <= ord(lone) <= LAST_STRAY:
        return lone, error.start + 3
    return chr(STRAY_BASE + error.object[error.start]), error.start + 1


def is_lone(error: UnicodeDecodeError) -> bool:
    """Whether the bytes at an error are a surrogate, which UTF-8 doesn't have."""
    return re.match(rb"\xed[\xa0-\xbf][\x80-\xbf]", error.object[error.start : error.start + 3]) is not None


codecs.register_error(STRAY, handle_stray)


def to_bytes(text: str) -> bytes:
    return text.encode("utf-8", STRAY)


def to_text(data: bytes) -> str:
    return data.decode("utf-8", STRAY)


def is_sendable(text: str) -> bool:
    """Whether a text is UTF-8 throughout, so that every editor reads it as it was sent."""
    return not re.search("[\ud800-\udfff]", text)


def units(text: str) -> int:
    """How many units of UTF-16 a text has."""
    return len(text) + sum(it > "\uffff" for it in text)


class Wide(NamedTuple):
    """The characters of a line that aren't ASCII: where each begins and how long it is, in bytes and in units."""

    begins: list[int]
    sizes: list[int]
    unit_begins: list[int]
    unit_sizes: list[int]


def wide_characters(line: bytes) -> Wide:
    made = Wide([], [], [], [])
    more_bytes = more_units = 0
    for found in NOT_ASCII.finditer(to_text(line)) if not line.isascii() else ():
        size, unit_size = len(to_bytes(found[0])), units(found[0])
        for numbers, number in zip(made, (found.start() + more_bytes, size, found.start() + more_units, unit_size)):
            numbers.append(number)
        more_bytes += size - 1
        more_units += unit_size - 1
    return made


def mapped(at: int, begins: list[int], sizes: list[int], others: list[int], other_sizes: list[int], is_end: bool) -> int:
    """Converts an offset in bytes to one in units, or back. An offset within a character becomes its beginning, or its end."""
    index = bisect_right(begins, at) - 1
    if index < 0:
        return at
    past = at - begins[index] - sizes[index]
    if past < 0:
        is_begin = at == begins[index] or not is_end
        return others[index] if is_begin else others[index] + other_sizes[index]
    return others[index] + other_sizes[index] + past


class Line(NamedTuple):
    """A line of a text: its number from 0, where it begins and ends, without its line end, and its characters that aren't ASCII."""

    number: int
    begin: int
    end: int
    wide: Wide


def line_starts(data: bytes) -> list[int]:
    return [0, *(it.end() for it in LINE_END.finditer(data))]


@dataclass
class Text:
    """The bytes of a text, and where its lines begin."""

    data: bytes
    starts: list[int] = field(init=False)
    # the line that was looked at last
    last: Line | None = field(init=False, default=None)

    def __post_init__(self) -> None:
        self.starts = line_starts(self.data)

    def line_of(self, offset: int) -> int:
        """The index of the line of a byte."""
        return bisect_right(self.starts, offset) - 1

    def line(self, index: int) -> Line:
        """A line. (The last one is kept: many positions in one long line are asked for at once.)"""
        if self.last is None or self.last.number != index:
            begin = self.starts[index]
            after = self.starts[index + 1] if index + 1 < len(self.starts) else len(self.data)
            content = self.data[begin:after].rstrip(b"\r\n")
            self.last = Line(index, begin, begin + len(content), wide_characters(content))
        return self.last

    def position(self, offset: int, is_end: bool = False) -> Object:
        """The position of an offset. Within a character it is that of the character, or that after it for the end of a range."""
        line = self.line(self.line_of(max(0, min(offset, len(self.data)))))
        begins, sizes, unit_begins, unit_sizes = line.wide
        wanted = max(0, min(offset, line.end) - line.begin)
        return {"line": line.number, "character": mapped(wanted, begins, sizes, unit_begins, unit_sizes, is_end)}

    def range(self, begin: int, end: int) -> Object:
        return {"start": self.position(begin), "end": self.position(end, is_end=True)}

    def offset(self, position: Object) -> int:
        """The offset of a position; one past the end of its line, or of the text, is that end."""
        index, column = int(position["line"]), max(0, int(position["character"]))
        if index < 0 or index >= len(self.starts):
            return 0 if index < 0 else len(self.data)
        line = self.line(index)
        begins, sizes, unit_begins, unit_sizes = line.wide
        return min(line.begin + mapped(column, unit_begins, unit_sizes, begins, sizes, True), line.end)

    def replace(self, begin: int, end: int, new: bytes) -> None:
        """Replaces the bytes from one offset to another. Only the lines there are scanned; those after it are moved."""
        self.data, self.last = self.data[:begin] + new + self.data[end:], None
        last = begin + len(new)
        window = max(begin - 1, 0)
        found = (window + it.end() for it in LINE_END.finditer(self.data[window : last + 1]))
        first_kept = max(1, bisect_left(self.starts, begin))
        moved = self.starts[max(first_kept, bisect_right(self.starts, end)) :]
        between = [it for it in found if max(begin, 1) <= it <= last and not self.is_split(it)]
        self.starts = [*self.starts[:first_kept], *between, *(it + last - end for it in moved)]

    def is_split(self, offset: int) -> bool:
        """Whether an offset is between CR and LF."""
        return self.data[offset - 1 : offset + 1] == b"\r\n"


def apply_change(text: Text, where: Object | None, new: bytes) -> None:
    """Applies a change as the client reports it: a range and its new text, or a whole text."""
    if where is None:
        text.data, text.starts, text.last = new, line_starts(new), None
        return
    begin, end = (text.offset(where[it]) for it in ("start", "end"))
    text.replace(min(begin, end), max(begin, end), new)
