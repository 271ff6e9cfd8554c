#!/usr/bin/env python3
"""The worked examples of the format: a database each, worked out by hand, with what every command writes about it."""

from __future__ import annotations

import os
import sys

sys.dont_write_bytecode = True
sys.path.insert(0, os.path.dirname(os.path.realpath(__file__)))

from test_support import DONE, EMPTY, EXAMPLE, GROUP, HAS_DIAGNOSTICS, REFUSED, SHARED, SHARED_FAULTS, TWO_BYTES  # noqa: E402
from test_support import ProgramCase, cases, main, put  # noqa: E402



def message(head: bytes, *signals: bytes) -> bytes:
    """A message without a sender, and its unsigned signals, which have no unit, limits or receivers."""
    lines = [b"BO_ %s Vector__XXX\n" % head]
    for signal in signals:
        name, position = signal.rsplit(b" ", 1)
        lines.append(b' SG_ %s : %s (1,0) [0|0] ""\n' % (name, position))
    return b"".join(lines)


WHEEL = b'BU_: Ecu\nBO_ 291 Wheel: 2 Ecu\n SG_ Speed : 0|16@1+ (2,5) [0|0] "rpm" Ecu\n'
WIDE = b'BO_ 1 G: 8 Vector__XXX\n SG_ S : 0|64@1- (-1,0.5) [0|0] ""\n'
OUTSIDE = message(b"600 W: 2", b"S 15|16@0+")
SWITCHED = message(b"300 X: 2", b"M M 0|8@1+", b"A m0 8|8@1+", b"B m1 8|8@1+")
# a signal whose offset is 10^38 at the decimal places of its factor, and one just below
OVER_SCALE = b'BO_ 2 K: 8 Vector__XXX\n SG_ S : 0|64@1+ (1E-31,1E7) [0|0] ""\n'
IN_SCALE = b'BO_ 2 K: 8 Vector__XXX\n SG_ S : 0|64@1+ (1E-31,9999999) [0|0] ""\n'
FLOAT = message(b"400 F: 8", b"S M 0|32@1+", b"T m0 32|8@1+") + b"SIG_VALTYPE_ 400 S : 1;\n"
PSEUDO = message(b"3221225472 VECTOR__INDEPENDENT_SIG_MSG: 0", b"A 0|8@1+", b"B 0|8@1+")
LOOP = message(b"500 L: 2", b"P m0M 0|8@1+", b"Q m0M 0|8@1+") + b"SG_MUL_VAL_ 500 P Q 0-0;\nSG_MUL_VAL_ 500 Q P 0-0;\n"
# a message of a parameter group with a destination
DESTINED = b"".join(
    (
        message(b"2348810243 TSC1: 8", b"Mode 0|2@1+"),
        b'BA_DEF_ BO_ "VFrameFormat" ENUM "StandardCAN","ExtendedCAN","reserved","J1939PG";\n',
        b'BA_ "VFrameFormat" BO_ 2348810243 3;\n',
    )
)
# a comment with a line feed, an escaped quote and a byte past ASCII, a `//` comment, and numbers in several forms
UNUSUAL = b'CM_ "a\nb\\"c\xfc";\nBO_ 1 A: 8 N // note\n SG_ S : 0|8@1+ (1E-005,1.0) [.5|5.] ""\n'
CANONICAL = EMPTY + b'BO_ 1 A: 8 N\n SG_ S : 0|8@1+ (0.00001,1) [0.5|5] ""\nCM_ "a\nb\\"c\xfc";\n'

# a database, a line of a log, and what follows it
DECODED = [
    ("wheel", WHEEL, b"(1.5) can0 123#0A01", b"Wheel(Speed: 537 rpm)"),
    (
        "motorola signals",
        EXAMPLE,
        b"(0.000000) vcan0 1F0#804A0F0000000000",
        b"ExampleMessage(Enable: Enabled, AverageRadius: 0 m, Temperature: 255.92 degK)",
    ),
    (
        "negative raw value",
        EXAMPLE,
        b"(0.0) c 1F0#01FFE00000000000",
        b"ExampleMessage(Enable: Disabled, AverageRadius: 0 m, Temperature: 249.99 degK)",
    ),
    ("truncated frame", EXAMPLE, b"(0.0) c 1F0#804A0F", b"Wrong data size: 3 instead of 8 bytes"),
    (
        "longer FD frame",
        EXAMPLE,
        b"(0.0) c 1F0##0804A0F000000000000000000",
        b"ExampleMessage(Enable: Enabled, AverageRadius: 0 m, Temperature: 255.92 degK)",
    ),
    ("value past 64 bits", WIDE, b"(0.0) c 001#0000000000000080", b"G(S: 9223372036854775808.5)"),
    ("signal outside", OUTSIDE, b"(0.0) c 258#0102", b"W(S: ?outside)"),
    ("multiplexed signals", SWITCHED, b"(0.0) c 12C#0005", b"X(M: 0, A: 5)"),
    ("J1939 message", GROUP, b"(0.0) c 18FEF131#FF0014FFFFFFFFFF", b"CCVS[p6 s49](Speed: 20 km/h)"),
    ("J1939 message with a destination", DESTINED, b"(0.0) c 0C00FF0B#0100000000000000", b"TSC1[p3 s11 d255](Mode: 1)"),
    ("scale too wide", OVER_SCALE, b"(0.0) c 002#0000000000000000", b"K(S: ?scale)"),
    ("widest scale", IN_SCALE, b"(0.0) c 002#0000000000000000", b"K(S: 9999999)"),
    ("float multiplexor", FLOAT, b"(0.0) c 190#0000000000000000", b"F(S: ?float)"),
    ("message without a frame", PSEUDO, b"(0.0) c C0000000#00", b"Unknown frame id 0 (0x0)"),
    ("loop of multiplexors", LOOP, b"(0.0) c 1F4#0000", b"L()"),
]

# a database, and what `check` writes
CHECKED = [
    ("empty text", b"", b""),
    ("motorola signals", EXAMPLE, b""),
    ("signal outside", OUTSIDE, b"5 Outside 600 W.S\n"),
    ("multiplexed signals", SWITCHED, b""),
    ("shared identifier", SHARED, SHARED_FAULTS),
    ("entry without a message", SHARED + b'VAL_ 500 X 0 "z" ;\n', SHARED_FAULTS + b"16 DanglingRow VAL_ 500 X\n"),
    ("scale too wide", OVER_SCALE, b"12 Scale 2 K.S\n"),
    ("widest scale", IN_SCALE, b""),
    ("unknown sender", UNUSUAL, b"13 UnknownNode 1 A N\n"),
    ("float multiplexor", FLOAT, b"10 Float 400 F.S\n"),
    ("message without a frame", PSEUDO, b""),
    ("loop of multiplexors", LOOP, b"9 SwitchLoop 500 L.P\n9 SwitchLoop 500 L.Q\n"),
]

# a text that is rejected, and its first fault
REJECTED = [
    ("end inside a statement", b"BO_ 1 A: 8", b"line 1: 2 Statement"),
    ("length over 1785", b"BO_ 1 A: 1786 N", b"line 1: 6 Limit"),
    ("open string", b'VERSION "x', b"line 1: 1 Token"),
    ("signal without bits", b'BO_ 1 A: 8 N SG_ S : 0|0@1+ (1,0) [0|0] ""', b"line 1: 6 Limit"),
    (
        "factor of 37 digits",
        b'BO_ 1 A: 8 N SG_ S : 0|1@1+ (1234567890123456789012345678901234567,0) [0|0] ""',
        b"line 1: 2 Statement",
    ),
    (
        "repeated signal",
        b'BO_ 1 A: 8 N\n SG_ S : 0|1@1+ (1,0) [0|0] ""\n SG_ S : 1|1@1+ (1,0) [0|0] ""\n',
        b"line 3: 3 RepeatedSignal",
    ),
]

# a database, the lines of a script, and the replies
SESSIONS = [
    (
        "removing one of two messages with one identifier",
        SHARED,
        (b"log (1.0) c 123#2A", b"show lines", b"show diagnostics", b"remove-message 0", b"show lines", b"show diagnostics",
         b"log (2.0) c 123#01", b"show lines"),
        b"ok\n(1.0) c 123#2A :: A(S: 42)\nok\n" + SHARED_FAULTS + b"ok\nok\n(1.0) c 123#2A :: B(S: 84)\nok\nok\n"
        b"ok\n(1.0) c 123#2A :: B(S: 84)\n(2.0) c 123#01 :: B(S: one)\nok\n",
    ),
    (
        "ranges of a multiplexor",
        SWITCHED,
        (b"log (0.0) c 12C#0005", b"set-mux SG_MUL_VAL_ 300 B M 0-1;", b"show lines", b"show diagnostics", b"drop-mux 300 B",
         b"show lines", b"show diagnostics"),
        b"ok\nok\n(0.0) c 12C#0005 :: X(M: 0, A: 5, B: 5)\nok\n6 Overlap 300 X.A X.B\nok\n"
        b"ok\n(0.0) c 12C#0005 :: X(M: 0, A: 5)\nok\nok\n",
    ),
    (
        "identifiers that are taken or shared",
        SHARED + b'VAL_ 500 X 0 "z" ;\n',
        (b"renumber 0 500", b"renumber 0 501", b"renumber 5 501", b"show diagnostics"),
        b"refused 26 IdTaken\nrefused 27 IdShared\nrefused 20 NoMessage\n" + SHARED_FAULTS + b"16 DanglingRow VAL_ 500 X\nok\n",
    ),
    (
        "message with an identifier of its own in a parameter group",
        GROUP,
        (b"log (0.0) c 18FEF131#FF0014FFFFFFFFFF", b"add-message 0 BO_ 2566844721 Own: 8 Vector__XXX", b"show lines",
         b"remove-message 0", b"show lines"),
        b"ok\nok\n(0.0) c 18FEF131#FF0014FFFFFFFFFF :: Own()\nok\nok\n"
        b"(0.0) c 18FEF131#FF0014FFFFFFFFFF :: CCVS[p6 s49](Speed: 20 km/h)\nok\n",
    ),
    (
        "value table",
        EXAMPLE,
        (b'set-table VAL_TABLE_ T 0 "z" ;', b"print"),
        b'ok\nVERSION ""\nNS_ :\nBS_:\nBU_:\nVAL_TABLE_ T 0 "z" ;\n' + EXAMPLE + b"ok\n",
    ),
    (
        "refused edits",
        SHARED,
        (b'set-values VAL_ 999 S 0 "z" ;', b'add-signal 0 2 SG_ T : 0|8@1+ (1,0) [0|0] ""', b'set-values VAL_ 291 Q 0 "z" ;',
         b'add-signal 0 0 SG_ S : 0|8@1+ (1,0) [0|0] ""', b"drop-table T", b'set-attribute BA_ "X" BO_ 291 1;', b"frob"),
        b"refused 20 NoMessage\nrefused 21 BadPlace\nrefused 22 NoSignal\nrefused 23 SignalExists\nrefused 28 NoRow\n"
        b"refused 29 NoDefinition\nbad command\n",
    ),
]

MOTOROLA_DIAGRAM = b"""\
Message ExampleMessage 496 8
   0:   0   1   1   1   1   1   1   2
   1:   2   2   2   2   2   2   2   2
   2:   2   2   2   .   .   .   .   .
   3:   .   .   .   .   .   .   .   .
   4:   .   .   .   .   .   .   .   .
   5:   .   .   .   .   .   .   .   .
   6:   .   .   .   .   .   .   .   .
   7:   .   .   .   .   .   .   .   .
   0 Enable 7|1@0+
   1 AverageRadius 6|6@0+
   2 Temperature 0|12@0-
"""

# the lines of a log, each but the last ended by CR and LF, and what is written for them
LOG = [
    (b"(1.0) c 123#R8", b" :: Remote frame"),
    (b"(1.0) c 20000080#0000000000000000", b" :: Error frame"),
    (b"(1.0) c 123##1aabb", b" :: A(S: 170, T: 187)"),
    (b"(1.0) c 7FF#1122334455667788_F", b" :: Unknown frame id 2047 (0x7ff)"),
    (b"hello", b""),
    (b"", b""),
    (b"(1.0)  c  123#0102 R", b" :: A(S: 1, T: 2)"),
]


class WorkedCase(ProgramCase):
    """A command over a database that is worked out by hand."""

    def written(self, command: str, database: bytes, stdin: bytes = b"") -> tuple[object, bytes, bytes]:
        return self.ended(command, put(self.folder, "worked.dbc", database), stdin=stdin)


@cases(DECODED)
class Decode(WorkedCase):
    """One line of a log."""

    def row(self, name: str, database: bytes, line: bytes, text: bytes) -> None:
        wanted = line + b" :: " + text + b"\n"
        self.check_equal(name, self.written("decode", database, line + b"\n"), (DONE, wanted, b""))


@cases(CHECKED)
class Check(WorkedCase):
    """The problems of a database."""

    def row(self, name: str, database: bytes, found: bytes) -> None:
        self.check_equal(name, self.written("check", database), (HAS_DIAGNOSTICS if found else DONE, found, b""))


@cases(REJECTED)
class Rejected(WorkedCase):
    """A text that is no database."""

    def row(self, name: str, text: bytes, fault: bytes) -> None:
        for command in ("check", "print", "dump", "decode", "session"):
            self.check_equal(f"{command}, {name}", self.written(command, text), (REFUSED, b"", b"candesk: " + fault + b"\n"))


@cases(SESSIONS)
class Session(WorkedCase):
    """The replies to a script."""

    def row(self, name: str, database: bytes, lines: tuple[bytes, ...], replies: bytes) -> None:
        script = b"".join(line + b"\n" for line in lines)
        self.check_equal(name, self.written("session", database, script), (DONE, replies, b""))


class Whole(WorkedCase):
    """Logs, diagrams and canonical texts as a whole."""

    def test_log_with_each_kind_of_frame(self) -> None:
        log = b"\r\n".join(line for line, _ in LOG)
        wanted = b"".join(line + text + b"\n" for line, text in LOG)
        self.check_equal("log", self.written("decode", TWO_BYTES, log), (DONE, wanted, b""))

    def test_diagram_of_motorola_signals(self) -> None:
        self.check_equal("diagram", self.written("dump", EXAMPLE), (DONE, MOTOROLA_DIAGRAM, b""))

    def test_diagram_of_a_signal_outside(self) -> None:
        self.check_equal("legend", self.written("dump", OUTSIDE)[1].splitlines()[-1], b"   0 S 15|16@0+ ?outside")

    def test_empty_text_has_four_lines(self) -> None:
        self.check_equal("print", self.written("print", b""), (DONE, b'VERSION ""\nNS_ :\nBS_:\nBU_:\n', b""))

    def test_canonical_text_is_printed_the_same(self) -> None:
        self.check_equal("print", self.written("print", UNUSUAL), (DONE, CANONICAL, b""))
        self.check_equal("print of the print", self.written("print", CANONICAL), (DONE, CANONICAL, b""))


if __name__ == "__main__":
    main()
