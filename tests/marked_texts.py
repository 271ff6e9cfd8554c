"""Ranges of bytes that were marked by hand, found in a text."""

from __future__ import annotations

# bytes of a text; those that are in it several times come with their number, from 0
Mark = bytes | tuple[bytes, int]


def range_of(text: bytes, mark: Mark) -> dict[str, int]:
    """The range of these bytes in a text, as an object of `at` has it."""
    marked, index = (mark, 0) if isinstance(mark, bytes) else mark
    begin = -1
    for _ in range(index + 1):
        begin = text.index(marked, begin + 1)
    return {"line": 1 + text.count(b"\n", 0, begin), "from": begin, "to": begin + len(marked)}
