"""Databases that rows of several commands have in common, and what makes messages."""

from __future__ import annotations

WHEEL = b'BU_: Ecu\nBO_ 291 Wheel: 2 Ecu\n SG_ Speed : 0|16@1+ (2,5) [0|0] "rpm" Ecu\n'


def message(head: bytes, *signals: bytes) -> bytes:
    """A message with signals of factor 1, offset 0 and no unit. Each signal is `name position`, the position as a layout diagram
    has it: `start|length@order` and sign; a multiplexer indicator may come between them."""
    lines = [b"BO_ " + head + b" N"]
    for signal in signals:
        named, position = signal.rsplit(b" ", 1)
        lines.append(b" SG_ " + named + b" : " + position + b' (1,0) [0|0] ""')
    return b"\n".join(lines) + b"\n"


def line(byte: int, cell: bytes) -> bytes:
    """The line of a byte whose bits all have the same cell in a layout diagram."""
    return b"%4d:" % byte + 8 * (b"%4s" % cell) + b"\n"


WHEEL_LAYOUT = b"Message Wheel 291 2\n" + line(0, b"0") + line(1, b"0") + b"   0 Speed 0|16@1+\n"

# a multiplexor (switch) below a multiplexor
MULTIPLEXORS = (
    message(b"310 E: 2", b"M M 0|4@1+", b"N m1M 4|4@1+", b"V m9 8|8@1+")
    + b"SG_MUL_VAL_ 310 V N 3-3, 5-6;\nSG_MUL_VAL_ 310 V M 0-0;\n"
)

# messages of parameter groups: one that is broadcast, and one that has a destination
GROUPS = (
    b'BO_ 2566844672 CCVS: 8 N\n SG_ Speed : 8|16@1+ (0.00390625,0) [0|0] "km/h"\n'
    + message(b"2565800190 Own: 1", b"S 0|8@1+")
    + b'BA_DEF_ BO_ "VFrameFormat" ENUM "StandardCAN","ExtendedCAN","reserved","J1939PG";\n'
    b'BA_ "VFrameFormat" BO_ 2566844672 3;\nBA_ "VFrameFormat" BO_ 2565800190 3;\n'
)

TWO_BYTES = message(b"291 A: 2", b"S 0|8@1+", b"T 8|8@1+")


def ladder(count: int) -> bytes:
    """That many signals on one bit, each the multiplexor of the one before."""
    signals = [b"S%d m0M 0|1@1+" % index for index in range(count - 1)] + [b"S%d M 0|1@1+" % (count - 1)]
    entries = [b"SG_MUL_VAL_ 700 S%d S%d 0-0;\n" % (index, index + 1) for index in range(count - 1)]
    return message(b"700 Z: 1", *signals) + b"".join(entries)


# as many signals as a message may have, in a circle of multiplexors
CIRCLE = ladder(999) + b"SG_MUL_VAL_ 700 S998 S0 0-0;\n"

# a signal with many values of its multiplexor: out of order, one range within another, and one that is empty
MANY_NUMBERS = message(b"330 F: 5", b"S M 0|32@1+", b"A m0 32|8@1+") + (
    b"SG_MUL_VAL_ 330 A S 90-99, 10-40, 20-22, 9-3, 200-200%s;\n" % b"".join(b", %d-%d" % (n, n) for n in range(1000, 1020))
)

# multiplexors under multiplexors, each after the signals under it, and a circle next to them
UPWARDS = message(b"331 G: 4", b"C m0 16|8@1+", b"B m0M 8|8@1+", b"A M 0|8@1+", b"P 24|4@1+", b"Q 28|4@1+") + b"".join(
    b"SG_MUL_VAL_ 331 %s;\n" % entry for entry in (b"C B 2-3", b"B A 1-1", b"P Q 0-15", b"Q P 0-15")
)

# two chains of four multiplexors under one, signals under the last of each in turn, and one under the first
CHAINS = message(
    b"332 D: 6",
    b"S M 0|4@1+",
    *(b"%c%d m0M %d|4@1+" % (b"AB"[at // 4], at % 4 + 1, 4 * at + 4) for at in range(8)),
    *(b"%c m0 40|8@1+" % name for name in b"XYZWV"),
) + b"".join(
    b"SG_MUL_VAL_ 332 %s;\n" % entry
    for entry in (
        *(b"%c%d %s 1-1" % (chain, at, b"%c%d" % (chain, at - 1) if at > 1 else b"S") for chain in b"AB" for at in range(1, 5)),
        *(b"X A4 1-1", b"Y B4 1-1", b"Z A4 1-1", b"W B4 2-2", b"V S 1-1"),
    )
)
