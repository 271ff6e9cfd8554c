#!/usr/bin/env python3
"""Databases whose layout diagrams `dump` draws, each with what is wanted."""

from __future__ import annotations

import os
import sys

sys.dont_write_bytecode = True
sys.path.insert(0, os.path.dirname(os.path.realpath(__file__)))

from row_texts import MULTIPLEXORS, WHEEL, WHEEL_LAYOUT, line, message  # noqa: E402
from test_support import DONE, EXAMPLE, ProgramCase, cases, main, put  # noqa: E402

# databases, and the layout diagrams of their messages
DUMPED = [
    (b"", b""),
    (b"BU_: A B\nVAL_TABLE_ T ;\n", b""),
    (WHEEL, WHEEL_LAYOUT),
    # in the order of the text
    (
        message(b"7 B: 1") + WHEEL[len(b"BU_: Ecu\n") :] + message(b"4294967295 A: 0"),
        b"Message B 7 1\n" + line(0, b".") + WHEEL_LAYOUT + b"Message A 4294967295 0\n",
    ),
    # Motorola order
    (
        EXAMPLE,
        b"Message ExampleMessage 496 8\n"
        b"   0:   0   1   1   1   1   1   1   2\n"
        b"   1:   2   2   2   2   2   2   2   2\n"
        b"   2:   2   2   2   .   .   .   .   .\n"
        b"   3:   .   .   .   .   .   .   .   .\n"
        b"   4:   .   .   .   .   .   .   .   .\n"
        b"   5:   .   .   .   .   .   .   .   .\n"
        b"   6:   .   .   .   .   .   .   .   .\n"
        b"   7:   .   .   .   .   .   .   .   .\n"
        b"   0 Enable 7|1@0+\n"
        b"   1 AverageRadius 6|6@0+\n"
        b"   2 Temperature 0|12@0-\n",
    ),
    # a multiplexor (switch), and two signals on the same bits
    (
        message(b"300 X: 2", b"M M 0|8@1+", b"A m0 8|8@1+", b"B m1 8|8@1+"),
        b"Message X 300 2\n"
        b"   0:   0   0   0   0   0   0   0   0\n"
        b"   1:   *   *   *   *   *   *   *   *\n"
        b"   0 M 0|8@1+\n"
        b"   1 A 8|8@1+ when M 0-0\n"
        b"   2 B 8|8@1+ when M 1-1\n",
    ),
    # a multiplexor below a multiplexor: an entry counts before the indicator, and a signal's first entry before others
    (
        MULTIPLEXORS,
        b"Message E 310 2\n"
        b"   0:   1   1   1   1   0   0   0   0\n"
        b"   1:   2   2   2   2   2   2   2   2\n"
        b"   0 M 0|4@1+\n"
        b"   1 N 4|4@1+ when M 1-1\n"
        b"   2 V 8|8@1+ when N 3-3,5-6 when M 1-1\n",
    ),
    # ranges that are empty and that are long; a multiplexor that an entry names needs no indicator
    (
        message(b"311 R: 1", b"M 0|4@1+", b"A 4|4@1-") + b"SG_MUL_VAL_ 311 A M 6-1, 1-18446744073709551615;\n",
        b"Message R 311 1\n   0:   1   1   1   1   0   0   0   0\n"
        b"   0 M 0|4@1+\n   1 A 4|4@1- when M 6-1,1-18446744073709551615\n",
    ),
    # messages with one identifier have the same entries, others none of them
    (
        message(b"320 X: 1", b"M 0|4@1+", b"A 4|4@1+")
        + message(b"320 Y: 1", b"A 0|4@1+", b"M 4|4@1+")
        + message(b"321 Z: 1", b"M 0|4@1+", b"A 4|4@1+")
        + b"SG_MUL_VAL_ 320 A M 2-3;\nSIG_VALTYPE_ 320 M : 1;\n",
        b"Message X 320 1\n   0:   1   1   1   1   0   0   0   0\n"
        b"   0 M 0|4@1+ ?float\n   1 A 4|4@1+ when M 2-3\n"
        b"Message Y 320 1\n   0:   1   1   1   1   0   0   0   0\n"
        b"   0 A 0|4@1+ when M 2-3\n   1 M 4|4@1+ ?float\n"
        b"Message Z 321 1\n   0:   1   1   1   1   0   0   0   0\n"
        b"   0 M 0|4@1+\n   1 A 4|4@1+\n",
    ),
    # multiplexors of each other
    (
        message(b"500 L: 2", b"P m0M 0|8@1+", b"Q m0M 0|8@1+") + b"SG_MUL_VAL_ 500 P Q 0-0;\nSG_MUL_VAL_ 500 Q P 0-0;\n",
        b"Message L 500 2\n"
        b"   0:   *   *   *   *   *   *   *   *\n"
        b"   1:   .   .   .   .   .   .   .   .\n"
        b"   0 P 0|8@1+ never\n"
        b"   1 Q 0|8@1+ never\n",
    ),
    # a multiplexor of itself, and a signal below it
    (
        message(b"501 L: 1", b"P 0|4@1+", b"Q 4|4@1+") + b"SG_MUL_VAL_ 501 P P 0-0;\nSG_MUL_VAL_ 501 Q P 0-0;\n",
        b"Message L 501 1\n   0:   1   1   1   1   0   0   0   0\n   0 P 0|4@1+ never\n   1 Q 4|4@1+ never\n",
    ),
    # no multiplexor, two of them, and one that an entry names and that doesn't exist
    (
        message(b"510 T: 1", b"A m0 0|8@1+"),
        b"Message T 510 1\n" + line(0, b"0") + b"   0 A 0|8@1+ never\n",
    ),
    (
        message(b"511 T: 3", b"M M 0|8@1+", b"K M 8|8@1+", b"A m0 16|8@1+"),
        b"Message T 511 3\n" + line(0, b"0") + line(1, b"1") + line(2, b"2")
        + b"   0 M 0|8@1+\n   1 K 8|8@1+\n   2 A 16|8@1+ never\n",
    ),
    (
        message(b"512 T: 2", b"M M 0|8@1+", b"A m0 8|8@1+") + b"SG_MUL_VAL_ 512 A Gone 0-0;\n",
        b"Message T 512 2\n" + line(0, b"0") + line(1, b"1") + b"   0 M 0|8@1+\n   1 A 8|8@1+ never\n",
    ),
    # bits that aren't in the message
    (
        message(b"600 W: 2", b"S 15|16@0+"),
        b"Message W 600 2\n"
        b"   0:   .   .   .   .   .   .   .   .\n"
        b"   1:   0   0   0   0   0   0   0   0\n"
        b"   0 S 15|16@0+ ?outside\n",
    ),
    (message(b"601 W: 0", b"S 0|1@1-"), b"Message W 601 0\n   0 S 0|1@1- ?outside\n"),
    # floats: by the first entry; and one below a multiplexor
    (
        message(b"610 F: 4", b"S 0|8@1+", b"T 8|8@1+", b"M M 16|8@1+", b"A m0 24|8@1+")
        + b"SIG_VALTYPE_ 610 S : 0;\nSIG_VALTYPE_ 610 S : 1;\n"
        + b"SIG_VALTYPE_ 610 T : 1;\nSIG_VALTYPE_ 610 T : 0;\nSIG_VALTYPE_ 610 A : 2;\n",
        b"Message F 610 4\n" + line(0, b"0") + line(1, b"1") + line(2, b"2") + line(3, b"3")
        + b"   0 S 0|8@1+\n   1 T 8|8@1+ ?float\n   2 M 16|8@1+\n   3 A 24|8@1+ ?float when M 0-0\n",
    ),
    # 65 bits
    (
        message(b"620 K: 9", b"S 0|65@1+"),
        b"Message K 620 9\n"
        + b"".join(line(byte, b"0") for byte in range(8))
        + b"   8:   .   .   .   .   .   .   .   0\n   0 S 0|65@1+ ?long\n",
    ),
    # 39 digits, and 38
    (
        b'BO_ 630 D: 8 N SG_ S : 0|64@1+ (1E-31,1E7) [0|0] "" SG_ T : 0|64@1+ (1E-31,9999999) [0|0] ""',
        b"Message D 630 8\n"
        + b"".join(line(byte, b"*") for byte in range(8))
        + b"   0 S 0|64@1+ ?scale\n   1 T 0|64@1+\n",
    ),
    # an index of two digits
    (
        message(b"640 P: 12", *(b"S%d %d|8@1+" % (index, 8 * index) for index in range(12))),
        b"Message P 640 12\n"
        + b"".join(line(byte, b"%d" % byte) for byte in range(12))
        + b"".join(b"%4d S%d %d|8@1+\n" % (index, index, 8 * index) for index in range(12)),
    ),
    # the longest message
    (
        message(b"650 B: 1785", b"S 14272|8@1+"),
        b"Message B 650 1785\n"
        + b"".join(line(byte, b".") for byte in range(1784))
        + b"1784:   0   0   0   0   0   0   0   0\n   0 S 14272|8@1+\n",
    ),
]


@cases(DUMPED, lambda text, wanted: wanted.split(b"\n")[0] or b"nothing of " + text)
class Layouts(ProgramCase):
    def row(self, text: bytes, wanted: bytes) -> None:
        ended = self.ended("dump", put(self.folder, "database.dbc", text), stdin=b"a\n")
        self.check_equal(f"dump on {text[:60]!r}", ended, (DONE, wanted, b""))


if __name__ == "__main__":
    main()
