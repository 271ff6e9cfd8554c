#!/usr/bin/env python3
"""Logs that `decode` writes with what their frames mean, each with what is wanted."""

from __future__ import annotations

import os
import sys
from collections.abc import Sequence
from typing import Final

sys.dont_write_bytecode = True
sys.path.insert(0, os.path.dirname(os.path.realpath(__file__)))

from row_texts import CHAINS, CIRCLE, GROUPS, MANY_NUMBERS, MULTIPLEXORS, TWO_BYTES, UPWARDS, WHEEL, ladder, message  # noqa: E402
from test_support import DONE, EXAMPLE, EXAMPLE_TEXT, EXAMPLES, ProgramCase, cases, content, decoded, main, put  # noqa: E402

# a log, and what is written for it with WHEEL
LOGS = [
    (b"", b""),
    (b"(1.5) can0 123#0A01", b"(1.5) can0 123#0A01 :: Wheel(Speed: 537 rpm)\n"),
    (b"(1.5) can0 123#0A01\r\n", b"(1.5) can0 123#0A01 :: Wheel(Speed: 537 rpm)\n"),
    (b"(1.5) can0 123#0A01\r", b"(1.5) can0 123#0A01 :: Wheel(Speed: 537 rpm)\n"),
    (b"(1.5) can0 123#0a01FF x\n", b"(1.5) can0 123#0a01FF x :: Wheel(Speed: 537 rpm)\n"),
    (b"(1.5)\tcan0  123#0A01\n", b"(1.5)\tcan0  123#0A01 :: Wheel(Speed: 537 rpm)\n"),
    (b"(1.5) can0 123#0A\n", b"(1.5) can0 123#0A :: Wrong data size: 1 instead of 2 bytes\n"),
    (b"(1.5) can0 200#\n", b"(1.5) can0 200# :: Unknown frame id 512 (0x200)\n"),
    (b"(1.5) can0 7fF#0A01\n", b"(1.5) can0 7fF#0A01 :: Unknown frame id 2047 (0x7ff)\n"),
    (b"hello\n\nthere", b"hello\n\nthere\n"),
    (b"\r\n\r\r\n", b"\n\r\n"),
    (b"\0\xff\n", b"\0\xff\n"),
    (b" (1.5) can0 123#0A01\n", b" (1.5) can0 123#0A01\n"),
    (b"(1.) can0 123#0A01\n(1.0123456789) can0 123#0A01\n", b"(1.) can0 123#0A01\n(1.0123456789) can0 123#0A01\n"),
    (
        b"(1.5) can0 800#00\n(1.5) can0 123#0A0\n(1.5)can0 123#0A01\n",
        b"(1.5) can0 800#00\n(1.5) can0 123#0A0\n(1.5)can0 123#0A01\n",
    ),
    (b"x" * 4096 + b"\n" + b"y" * 4096, b"x" * 4096 + b"\n" + b"y" * 4096 + b"\n"),
]

# a line of a log, databases, and what follows the line with each
ONE_LINE = b"(1.5) can0 001#FF00000000000080"
DATABASES = [
    (b"", b"Unknown frame id 1 (0x1)"),
    (b'VERSION ""', b"Unknown frame id 1 (0x1)"),
    (b"BU_: A B BO_ 1 A:0 B", b"A()"),
    (b"BO_ 1 A: 8. N // note\nBU_: A BU_: B", b"A()"),
    (b"BO_ 1 A: 9 N", b"Wrong data size: 8 instead of 9 bytes"),
    (b"BO_ 2049 A: 8 N BO_ 2147483649 B: 8 N", b"Unknown frame id 1 (0x1)"),
    (
        b'BO_ 1 A: 8 N SG_ S:0|64@1+(-1,+7)[-0|1]"" SG_ T:0|8@01+(1000000000,0)[0|0]"a\nb"N,M O',
        b"A(S: -9223372036854776056, T: 255000000000 a b)",
    ),
    (b'BO_ 1 A: 1 N SG_ S : 7|1@1+ (1,0) [0|0] "" BO_ 1 B: 8 N', b"A(S: 1)"),
    (b'BO_ 1 VERSION: 8 N SG_ Only : 63|1@1+ (5,-9) [0|0] "x//y"', b"VERSION(Only: -4 x//y)"),
    # signs, byte orders, and decimals in their shortest form
    (b'BO_ 1 A: 8 N SG_ S : 0|8@1- (1,0) [0|0] "" SG_ T : 0|8@0+ (1,0) [0|0] ""', b"A(S: -1, T: 128)"),
    (b'BO_ 1 A: 8 N SG_ S : 0|8@1- (0.05,0) [0|0] "" SG_ T : 0|8@1+ (0.1,-0.5) [0|0] "V"', b"A(S: -0.05, T: 25 V)"),
    (b'BO_ 1 A: 8 N SG_ S : 0|8@1+ (1000000001,0) [0|0] "\\""', b'A(S: 255000000255 \\")'),
    # value descriptions: those of the signal's first entry, and the first for the value; without the unit, and on one line
    (b'BO_ 1 A: 8 N SG_ S : 0|8@1+ (2,0) [0|0] "u" VAL_ 1 S 1 "no" 255 "a\r\nb" 255 "c" ;', b"A(S: a  b)"),
    (b'BO_ 1 A: 8 N SG_ S : 0|8@1+ (2,0) [0|0] "u" VAL_ 1 S 1 "a" ; VAL_ 1 S 255 "b" ;', b"A(S: 510 u)"),
    (b'BO_ 1 A: 8 N SG_ S : 0|8@1- (1,0) [0|0] "u" VAL_ 1 T -1 "a" ; VAL_ 2 S -1 "b" ;', b"A(S: -1 u)"),
    # signals that can't be decoded
    (b'BO_ 1 A: 8 N SG_ S : 57|8@1+ (1,0) [0|0] "u" SG_ T : 0|8@1+ (1,0) [0|0] ""', b"A(S: ?outside, T: 255)"),
    (b'BO_ 1 A: 8 N SG_ S : 0|32@1- (1,0) [0|0] "" SIG_VALTYPE_ 1 S : 1;', b"A(S: ?float)"),
    (b'BO_ 1 A: 8 N SG_ S : 0|64@1+ (1E-31,1E7) [0|0] ""', b"A(S: ?scale)"),
    # signals that aren't present
    (b'BO_ 1 A: 8 N SG_ S m0 : 0|8@1+ (1,0) [0|0] ""', b"A()"),
    (b'BO_ 1 A: 8 N SG_ M M : 0|8@1+ (1,0) [0|0] "" SG_ S m254 : 8|8@1+ (1,0) [0|0] ""', b"A(M: 255)"),
]

# a name, a database, and lines of a log with what follows each; None if the line stays as it is
Logged = tuple[str, bytes, Sequence[tuple[bytes, bytes | None]]]
DECODED: Final[list[Logged]] = [
    ("ten bits in Motorola order with a sign", message(b"302 P: 2", b"S 4|10@0-"), [(b"(0.0) c 12E#15A8", b"P(S: -331)")]),
    (
        "64 bits and half a unit",
        b'BO_ 1 G: 8 N\n SG_ S : 0|64@1- (-1,0.5) [0|0] ""\n',
        [(b"(0.0) c 001#0000000000000080", b"G(S: 9223372036854775808.5)")],
    ),
    (
        "value descriptions and values with units",
        EXAMPLE,
        [
            (b"(0.000000) vcan0 1F0#804A0F0000000000", EXAMPLE_TEXT),
            (
                b"(0.000000) vcan0 1F0#01FFE00000000000",
                b"ExampleMessage(Enable: Disabled, AverageRadius: 0 m, Temperature: 249.99 degK)",
            ),
            (b"(0.000000) vcan0 1F0#804A0F", b"Wrong data size: 3 instead of 8 bytes"),
        ],
    ),
    # (frames of any priority, source and destination belong to the group, standard frames don't)
    (
        "parameter groups",
        GROUPS,
        [
            (b"(0.0) c 18FEF131#FF0014FFFFFFFFFF", b"CCVS[p6 s49](Speed: 20 km/h)"),
            (b"(0.0) c 00FEF1FF#0001000000000000", b"CCVS[p0 s255](Speed: 0.00390625 km/h)"),
            (b"(0.0) c 18FEF131#FF0014", b"Wrong data size: 3 instead of 8 bytes"),
            (b"(0.0) c 18FEF231#FF0014FFFFFFFFFF", b"Unknown frame id 419361329 (0x18fef231)"),
            (b"(0.0) c 0CEFFF00#07", b"Own[p3 s0 d255](S: 7)"),
            (b"(0.0) c 18EF00FE#07", b"Own[p6 s254 d0](S: 7)"),
            (b"(0.0) c 100#07", b"Unknown frame id 256 (0x100)"),
        ],
    ),
    (
        "an exact identifier before a parameter group",
        GROUPS + message(b"2566844721 Exact: 1", b"S 0|8@1+"),
        [(b"(0.0) c 18FEF131#FF", b"Exact(S: 255)"), (b"(0.0) c 18FEF132#FF", b"Wrong data size: 1 instead of 8 bytes")],
    ),
    (
        "long multiplexing chains",
        CHAINS,
        [
            (
                b"(0.0) c 14C#111111110107",
                b"D(S: 1, A1: 1, A2: 1, A3: 1, A4: 1, B1: 1, B2: 1, B3: 1, B4: 1, X: 7, Y: 7, Z: 7, V: 7)",
            ),
            (
                b"(0.0) c 14C#111111110207",
                b"D(S: 1, A1: 1, A2: 1, A3: 1, A4: 1, B1: 1, B2: 1, B3: 1, B4: 2, X: 7, Z: 7, W: 7, V: 7)",
            ),
            (b"(0.0) c 14C#111011110107", b"D(S: 1, A1: 1, A2: 0, B1: 1, B2: 1, B3: 1, B4: 1, Y: 7, V: 7)"),
            (b"(0.0) c 14C#101111110107", b"D(S: 0)"),
        ],
    ),
    (
        "multiplexors",
        MULTIPLEXORS,
        [
            (b"(0.0) c 136#5107", b"E(M: 1, N: 5, V: 7)"),
            (b"(0.0) c 136#4107", b"E(M: 1, N: 4)"),
            (b"(0.0) c 136#5207", b"E(M: 2)"),
        ],
    ),
    (
        "65 bits in a frame of nine bytes",
        message(b"620 K: 9", b"S 0|65@1+"),
        [(b"(0.0) c 26C##0000000000000000000", b"K(S: ?long)")],
    ),
    (
        "frames of each kind, standard and extended",
        TWO_BYTES,
        [
            (b"(1.0) c 123#R8", b"Remote frame"),
            (b"(1.0) c 123#R", b"Remote frame"),
            (b"(1.0) c 123#R8_F", b"Remote frame"),
            (b"(1.0) c 20000080#0000000000000000", b"Error frame"),
            (b"(1.0) c 20000080##0", b"Error frame"),
            (b"(1.0) c 123##1aabb", b"A(S: 170, T: 187)"),
            (b"(1.0) c 123#0102030405060708_9", b"A(S: 1, T: 2)"),
            (b"(1.0) c 7FF#1122334455667788_F", b"Unknown frame id 2047 (0x7ff)"),
            (b"(1.0) c 00000123#0102", b"Unknown frame id 291 (0x123)"),
            (b"(1.0) c 80000123#0102", b"Unknown frame id 291 (0x123)"),
            (b"(1.0) c 1FFFFFFF#", b"Unknown frame id 536870911 (0x1fffffff)"),
            (b"hello", None),
            (b"", None),
            (b"(1.0) c 0123#0102", None),
            (b"(1.0) c 123#R9", None),
            (b"(1.0) c 123#010203040506070809", None),
            (b"(1.0) c 123#01_9", None),
            (b"(1.0) c 123##", None),
            (b"(1.0) c 123##0010", None),
            (b"(1.0)  c  123#0102 R", b"A(S: 1, T: 2)"),
        ],
    ),
    (
        "many multiplexor values",
        MANY_NUMBERS,
        [(b"(0.0) c 14A#%02X%02X000007" % (n % 256, n // 256), b"F(S: %d, A: 7)" % n) for n in (10, 35, 40, 99, 200, 1019)]
        + [(b"(0.0) c 14A#%02X%02X000007" % (n % 256, n // 256), b"F(S: %d)" % n) for n in (0, 5, 9, 41, 100, 1020)],
    ),
    (
        "multiplexors after their signals",
        UPWARDS,
        [(b"(0.0) c 14B#01030700", b"G(C: 7, B: 3, A: 1)"), (b"(0.0) c 14B#01040700", b"G(B: 4, A: 1)")],
    ),
    ("multiplexors after their signals, none present", UPWARDS, [(b"(0.0) c 14B#00020700", b"G(A: 0)")]),
    (
        "each signal the multiplexor of the one before",
        ladder(99),
        [
            (b"(0.0) c 2BC#00", b"Z(" + b", ".join(b"S%d: 0" % index for index in range(99)) + b")"),
            (b"(0.0) c 2BC#01", b"Z(S98: 1)"),
        ],
    ),
    ("a circle of multiplexors", CIRCLE, [(b"(0.0) c 2BC#00", b"Z()"), (b"(0.0) c 2BC#01", b"Z()")]),
]


# examples, and what follows each line of their logs
LOGGED = [
    ("wheel", [b"Wheel(Speed: 537 rpm)"]),
    (
        "truck",
        [
            b"CCVS[p6 s49](Speed: 20.5 km/h)",
            b"Door(Side: 1, Window: 25 %)",
            b"Door(Side: 2, Lock: locked)",
            b"Unknown frame id 512 (0x200)",
        ],
    ),
]


def logs(lines: list[bytes]) -> list[bytes]:
    """Two logs of these lines: one whose lines end in LF, and one whose lines end in CR LF, except the last, which has no end."""
    return [b"".join(line + b"\n" for line in lines), b"\r\n".join(lines)]


# databases, and lines with truncated frames, which --short decodes
SHORT: Final[list[Logged]] = [
    # (the signals are in the first byte, in the first two, and in three)
    (
        "bits in Motorola order",
        EXAMPLE,
        [
            (b"(0.0) c 1F0#804A0F0000000000", EXAMPLE_TEXT),
            (b"(0.0) c 1F0#804A0F", EXAMPLE_TEXT),
            (b"(0.0) c 1F0#804A", b"ExampleMessage(Enable: Enabled, AverageRadius: 0 m)"),
            (b"(0.0) c 1F0#80", b"ExampleMessage(Enable: Enabled, AverageRadius: 0 m)"),
            (b"(0.0) c 1F0#", b"ExampleMessage()"),
            (b"(0.0) c 1F0##1804A", b"ExampleMessage(Enable: Enabled, AverageRadius: 0 m)"),
            (b"(0.0) c 1F0#R", b"Remote frame"),
            (b"(0.0) c 1F1#80", b"Unknown frame id 497 (0x1f1)"),
            (b"hello", None),
        ],
    ),
    (
        "a multiplexor in the data and signals after it",
        message(b"300 X: 2", b"M M 0|8@1+", b"A m0 8|8@1+", b"B m1 8|8@1+"),
        [
            (b"(0.0) c 12C#0005", b"X(M: 0, A: 5)"),
            (b"(0.0) c 12C#00", b"X(M: 0)"),
            (b"(0.0) c 12C#01", b"X(M: 1)"),
            (b"(0.0) c 12C#", b"X()"),
        ],
    ),
    # (it has no value, though its missing bits would be 0)
    (
        "a multiplexor after the data",
        message(b"301 Y: 2", b"M M 8|8@1+", b"A m0 0|8@1+"),
        [(b"(0.0) c 12D#00", b"Y()"), (b"(0.0) c 12D#0000", b"Y(M: 0, A: 0)"), (b"(0.0) c 12D#0500FF", b"Y(M: 0, A: 5)")],
    ),
    (
        "a multiplexor with one bit after the data",
        message(b"304 Z: 2", b"M M 7|2@1+", b"A m1 0|4@1+"),
        [(b"(0.0) c 130#85", b"Z()"), (b"(0.0) c 130#8500", b"Z(M: 1, A: 5)")],
    ),
    # (why a signal can't be decoded is written if all its bits are in the data)
    (
        "a signal outside of its message",
        message(b"600 W: 2", b"S 15|16@0+"),
        [(b"(0.0) c 258#01", b"W()"), (b"(0.0) c 258#0102", b"W(S: ?outside)"), (b"(0.0) c 258#010203", b"W(S: ?outside)")],
    ),
    (
        "a float",
        message(b"603 G: 8", b"F 0|32@1-", b"H 32|32@1+") + b"SIG_VALTYPE_ 603 F : 1;\n",
        [
            (b"(0.0) c 25B#010203", b"G()"),
            (b"(0.0) c 25B#01020304", b"G(F: ?float)"),
            (b"(0.0) c 25B#01020304050607", b"G(F: ?float)"),
            (b"(0.0) c 25B#0102030405060708", b"G(F: ?float, H: 134678021)"),
        ],
    ),
    (
        "more than 64 bits",
        message(b"604 L: 20", b"A 0|72@1+", b"B 152|8@1+"),
        [(b"(0.0) c 25C##0112233445566778899", b"L(A: ?long)"), (b"(0.0) c 25C#1122334455667788", b"L()")],
    ),
    (
        "messages of parameter groups",
        GROUPS,
        [(b"(0.0) c 18FEF131#FF0014", b"CCVS[p6 s49](Speed: 20 km/h)"), (b"(0.0) c 18FEF131#FF00", b"CCVS[p6 s49]()")],
    ),
    (
        "a message longer than any frame",
        message(b"650 B: 1785", b"S 0|8@1+", b"T 14272|8@1+"),
        [(b"(0.0) c 28A#07", b"B(S: 7)"), (b"(0.0) c 28A#", b"B()")],
    ),
]


def text_of(lines: Sequence[tuple[bytes, bytes | None]]) -> bytes:
    return b"".join(decoded(line, text) for line, text in lines)


class DecodeCase(ProgramCase):
    def check_decoded(self, text: bytes, log: bytes, wanted: bytes, *words: str) -> None:
        """Checks what `decode` with these words writes for a log; DB is a database of this text."""
        database = put(self.folder, "database.dbc", text)
        ended = self.ended("decode", *(database if word == "DB" else word for word in words or ("DB",)), stdin=log)
        self.check_equal(f"decode {' '.join(words)} on {text[:60]!r} and {log[:60]!r}", ended, (DONE, wanted, b""))


@cases(LOGS)
class Logs(DecodeCase):
    """Logs of all forms, with one database."""

    def row(self, log: bytes, wanted: bytes) -> None:
        self.check_decoded(WHEEL, log, wanted)


@cases(DATABASES)
class Databases(DecodeCase):
    """One line of a log, with databases of all forms."""

    def row(self, text: bytes, wanted: bytes) -> None:
        self.check_decoded(text, ONE_LINE + b"\n", decoded(ONE_LINE, wanted))


@cases(DECODED)
class Decoded(DecodeCase):
    def row(self, name: str, text: bytes, lines: Sequence[tuple[bytes, bytes | None]]) -> None:
        for log in logs([line for line, _ in lines]):
            self.check_decoded(text, log, text_of(lines))


@cases(SHORT)
class Truncated(DecodeCase):
    def row(self, name: str, text: bytes, lines: Sequence[tuple[bytes, bytes | None]]) -> None:
        for log in logs([line for line, _ in lines]):
            self.check_decoded(text, log, text_of(lines), "--short", "DB")
            self.check_decoded(text, log, text_of(lines), "DB", "--short")


@cases(DECODED)
class LongEnough(DecodeCase):
    """Frames that are long enough are decoded with --short as they are without."""

    def row(self, name: str, text: bytes, lines: Sequence[tuple[bytes, bytes | None]]) -> None:
        long_enough = [(line, it) for line, it in lines if not (it or b"").startswith(b"Wrong data size")]
        self.check_decoded(text, logs([line for line, _ in long_enough])[0], text_of(long_enough), "--short", "DB")


@cases(LOGGED)
class Examples(DecodeCase):
    def row(self, name: str, texts: list[bytes]) -> None:
        log = content(f"{EXAMPLES}/{name}.log")
        self.check_decoded(content(f"{EXAMPLES}/{name}.dbc"), log, text_of(list(zip(log.splitlines(), texts))))


if __name__ == "__main__":
    main()
