"""Raw values and floats from the bytes of a frame, by the positions of a signal's bits.

The program gives the positions and decodes all signals except floats. It gives no raw values. Both are this package's own work.
"""

from __future__ import annotations

import struct
from collections.abc import Sequence
from decimal import Decimal
from typing import Union

# an exact number
Number = Union[int, Decimal]
# how struct unpacks a float of 32 or 64 bits
_FLOATS = {32: "<f", 64: "<d"}


def bits_of(data: bytes) -> int:
    """The bytes of a frame as one integer, whose bit p is bit p % 8 of byte p // 8."""
    return int.from_bytes(data, "little")


def raw_of(bits: int, length: int, positions: Sequence[int], is_signed: bool) -> int | None:
    """The raw value of a signal whose bits, least significant first, have these positions in `length` bytes. None if a bit is past
    them."""
    if not positions or max(positions) >= 8 * length:
        return None
    raw = 0
    for weight, position in enumerate(positions):
        raw |= (bits >> position & 1) << weight
    return raw - (1 << len(positions)) if is_signed and raw >> (len(positions) - 1) else raw


def float_of(bits: int, length: int, positions: Sequence[int], scale: Number, offset: Number) -> float | None:
    """The value of a float of 32 or 64 bits, scaled in double precision."""
    form = _FLOATS.get(len(positions))
    raw = raw_of(bits, length, positions, False)
    if form is None or raw is None:
        return None
    (value,) = struct.unpack(form, raw.to_bytes(len(positions) // 8, "little"))
    return float(value) if (scale, offset) == (1, 0) else float(value * float(scale) + float(offset))
