#!/usr/bin/env python3
"""Databases that `check` reports problems in, each with the lines that are wanted."""

from __future__ import annotations

import os
import random
import sys
from collections.abc import Callable

sys.dont_write_bytecode = True
sys.path.insert(0, os.path.dirname(os.path.realpath(__file__)))

from row_texts import CIRCLE, ladder, message  # noqa: E402
from test_support import DONE, EXAMPLE, HAS_DIAGNOSTICS, Ended, ProgramCase, cases, main, put  # noqa: E402


def grouped(*numbers: int) -> bytes:
    """A frame format of J1939 for messages with these identifiers."""
    entries = [b'BA_DEF_ BO_ "VFrameFormat" ENUM "StandardCAN","ExtendedCAN","reserved","J1939PG";\n']
    return b"".join(entries + [b'BA_ "VFrameFormat" BO_ %d 3;\n' % number for number in numbers])


# databases that are checked, after a list of nodes with the node N, and what is found in them
CHECKED = [
    (b"", b""),
    (EXAMPLE, b""),
    (message(b"300 X: 2", b"M M 0|8@1+", b"A m0 8|8@1+", b"B m1 8|8@1+"), b""),
    # bits after the message, also if signals share them
    (message(b"600 W: 2", b"S 15|16@0+"), b"5 Outside 600 W.S\n"),
    (
        message(b"601 V: 1", b"A 8|8@1+", b"B 12|8@1+"),
        b"5 Outside 601 V.A\n5 Outside 601 V.B\n6 Overlap 601 V.A V.B\n",
    ),
    # values of one multiplexor with which both signals are present, and none
    (
        message(b"300 X: 2", b"M M 0|8@1+", b"A m0 8|8@1+", b"B m1 8|8@1+") + b"SG_MUL_VAL_ 300 B M 0-1;\n",
        b"6 Overlap 300 X.A X.B\n",
    ),
    (
        message(b"300 X: 2", b"M M 0|8@1+", b"A m0 8|8@1+", b"B m1 8|8@1+") + b"SG_MUL_VAL_ 300 B M 5-3;\n",
        b"8 BadMuxRow 300 X.B\n",
    ),
    # a pair is reported once, by the first signal and then by the second
    (
        message(b"302 X: 1", b"A 0|2@1+", b"B 1|2@1+", b"C 0|8@1-"),
        b"6 Overlap 302 X.A X.B\n6 Overlap 302 X.A X.C\n6 Overlap 302 X.B X.C\n",
    ),
    # a multiplexor that has no `M`, or that doesn't exist: that is no entry of a missing signal
    (
        message(b"303 X: 1", b"M 0|4@1+", b"A 4|4@1+") + b"SG_MUL_VAL_ 303 A M 0-0;\n",
        b"8 BadMuxRow 303 X.A\n",
    ),
    (message(b"304 X: 1", b"A 4|4@1+") + b"SG_MUL_VAL_ 304 A M 0-0;\n", b"7 NoSwitch 304 X.A\n"),
    # identifiers and names of several messages
    (
        message(b"291 A: 1", b"S 0|8@1+") + message(b"291 B: 1", b"S 0|8@1+") + b'VAL_ 291 S 1 "one" ;\nVAL_ 500 X 0 "z" ;\n',
        b"2 SharedIdentifier 291 A\n2 SharedIdentifier 291 B\n16 DanglingRow VAL_ 500 X\n",
    ),
    (
        message(b"1 A: 1") + message(b"2048 A: 1") + message(b"2684354560 C: 1")
        + message(b"3221225472 P: 0", b"S 0|8@1+", b"T 0|8@1+"),
        b"3 SharedName 1 A\n1 BadIdentifier 2048 A\n3 SharedName 2048 A\n1 BadIdentifier 2684354560 C\n",
    ),
    # two messages of one parameter group, which differ in their sources
    (
        message(b"2566844672 CCVS: 8") + message(b"2566844721 C2: 8") + grouped(2566844672, 2566844721),
        b"4 SharedGroup 2566844672 CCVS\n4 SharedGroup 2566844721 C2\n",
    ),
    (message(b"2566844672 CCVS: 8") + message(b"2566844721 C2: 8") + grouped(2566844672), b""),
    # loops, and a signal without one; floats; long signals; values with too many digits
    (
        message(b"500 L: 2", b"P m0M 0|8@1+", b"Q m0M 0|8@1+", b"R 8|8@1+")
        + b"SG_MUL_VAL_ 500 P Q 0-0;\nSG_MUL_VAL_ 500 Q P 0-0;\n",
        b"9 SwitchLoop 500 L.P\n9 SwitchLoop 500 L.Q\n",
    ),
    (
        message(b"400 F: 8", b"S M 0|32@1+", b"T m0 32|8@1+") + b"SIG_VALTYPE_ 400 S : 1;\nSIG_VALTYPE_ 400 T : 0;\n",
        b"10 Float 400 F.S\n",
    ),
    (message(b"401 F: 9", b"S 0|65@1+"), b"11 Long 401 F.S\n"),
    (b'BO_ 2 K: 8 N\n SG_ S : 0|64@1+ (1E-31,1E7) [0|0] ""\n', b"12 Scale 2 K.S\n"),
    (b'BO_ 2 K: 8 N\n SG_ S : 0|64@1+ (1E-31,9999999) [0|0] ""\n', b""),
    # value descriptions, up to the ends of the signal's range
    (
        message(b"3 V: 8", b"S 0|4@1-", b"T 4|4@1+")
        + b'VAL_ 3 S -9 "a" -8 "b" 7 "c" 8 "d" ;\nVAL_ 3 T -1 "a" 0 "b" 15 "c" 16 "d" 0 "e" ;\n',
        b"14 ValueOutOfRange 3 V.S -9\n14 ValueOutOfRange 3 V.S 8\n14 ValueOutOfRange 3 V.T -1\n"
        b"14 ValueOutOfRange 3 V.T 16\n15 RepeatedValue 3 V.T 0\n",
    ),
    # nodes: a sender, receivers, and those of entries
    (
        b'BO_ 1 A: 8 M\n SG_ S : 0|8@1+ (1,0) [0|0] "" N,P,Vector__XXX,P\nCM_ BU_ N "a";\nCM_ BU_ P "b";\n'
        b'BA_ "X" BU_ Q 1;\nBA_DEF_ "X" STRING;\n',
        b"13 UnknownNode 1 A M\n13 UnknownNode 1 A.S P\n13 UnknownNode 1 A.S P\n16 DanglingRow CM_ BU_ P\n"
        b'16 DanglingRow BA_ "X" BU_ Q\n',
    ),
    # entries for what doesn't exist, repeated entries, and attributes without a definition, kind by kind
    (
        message(b"5 A: 1", b"S 0|8@1+")
        + b'VAL_TABLE_ T 0 "a" ;\nVAL_TABLE_ T ;\nCM_ "a";\nCM_ "b";\nCM_ BO_ 6 "a";\nCM_ SG_ 5 T "a";\nCM_ SG_ 5 S "a";\n'
        b'BA_DEF_ "n" STRING;\nBA_DEF_ BO_ "n" STRING;\nBA_DEF_DEF_ "m" "";\nBA_DEF_DEF_ "n" "";\nBA_DEF_DEF_ "n" "";\n'
        b'BA_ "a\r\nb" 1;\nBA_ "n" 1;\nBA_ "n" 2;\nBA_ "n" BO_ 5 1;\nBA_ "n" BO_ 7 1;\n'
        b"SIG_VALTYPE_ 5 T : 0;\nSG_MUL_VAL_ 7 S T 0-0;\nSG_MUL_VAL_ 7 S T 0-0;\nEV_ x : 0 [0|1] \"\" 0 1 DUMMY_NODE_VECTOR0 Q ;\n",
        b"17 RepeatedRow VAL_TABLE_ T\n17 RepeatedRow CM_\n16 DanglingRow CM_ BO_ 6\n16 DanglingRow CM_ SG_ 5 T\n"
        b'17 RepeatedRow BA_DEF_ BO_ "n"\n18 UnknownAttribute BA_DEF_DEF_ "m"\n17 RepeatedRow BA_DEF_DEF_ "n"\n'
        b'18 UnknownAttribute BA_ "a  b"\n17 RepeatedRow BA_ "n"\n16 DanglingRow BA_ "n" BO_ 7\n16 DanglingRow SIG_VALTYPE_ 5 T\n'
        b"16 DanglingRow SG_MUL_VAL_ 7 S\n16 DanglingRow SG_MUL_VAL_ 7 S\n17 RepeatedRow SG_MUL_VAL_ 7 S\n",
    ),
    # several codes of several signals, by codes
    (
        b'BO_ 10 A: 8 N\n SG_ S m0 : 0|8@1+ (1,0) [0|0] "" Q\n SG_ T : 8|4@1- (1,0) [0|0] "" N\nBO_ 2048 A: 8 N\n'
        b'VAL_ 10 T 8 "hi" -8 "lo" -8 "again" ;\nVAL_ 10 T 0 "z" ;\nBA_ "X" BO_ 10 1;\n',
        b"3 SharedName 10 A\n7 NoSwitch 10 A.S\n13 UnknownNode 10 A.S Q\n14 ValueOutOfRange 10 A.T 8\n"
        b"15 RepeatedValue 10 A.T -8\n1 BadIdentifier 2048 A\n3 SharedName 2048 A\n"
        b'18 UnknownAttribute BA_ "X" BO_ 10\n17 RepeatedRow VAL_ 10 T\n',
    ),
    # many pairs, and many loops
    (
        ladder(99),
        b"".join(b"6 Overlap 700 Z.S%d Z.S%d\n" % (a, b) for a in range(99) for b in range(a + 1, 99)),
    ),
    (CIRCLE, b"".join(b"9 SwitchLoop 700 Z.S%d\n" % index for index in range(999))),
]


class CheckCase(ProgramCase):
    def check_run(self, command: str, text: bytes, wanted: Ended, stdin: bytes = b"a\n") -> None:
        ended = self.ended(command, put(self.folder, "database.dbc", text), stdin=stdin)
        self.check_equal(f"{command} on {text[:60]!r}", ended, wanted)


@cases(CHECKED, lambda text, wanted: wanted.split(b"\n")[0] or b"nothing in " + text)
class Checked(CheckCase):
    def row(self, text: bytes, wanted: bytes) -> None:
        self.check_run("check", b"BU_: N\n" + text, (HAS_DIAGNOSTICS if wanted else DONE, wanted, b""))


def has_raw_value(value: int, length: int, signed: bool) -> bool:
    """Whether a signal of that many bits has a raw value."""
    least = -(1 << length - 1) if signed else 0
    return least <= value < least + (1 << length)


# the lengths of signals, and whether they are signed, of the first four messages, which share an identifier, and of two others
SHAPES = ((3, False), (7, True), (8, False), (16, True), (33, False), (64, True))


def shared_values(values: list[int]) -> tuple[bytes, bytes]:
    """A database whose signals, of several messages with one identifier and with others, have these value descriptions; and its
    diagnostics."""
    text, wanted = b"BU_: N\n", b""
    for index, (length, signed) in enumerate(SHAPES):
        number = 7 if index < 4 else 10 + index
        sign = b"-" if signed else b"+"
        text += message(b"%d M%d: 8" % (number, index), b"S 0|%d@1%s" % (length, sign))
        wanted += b"2 SharedIdentifier 7 M%d\n" % index if number == 7 else b""
        for value in values:
            if not has_raw_value(value, length, signed):
                wanted += b"14 ValueOutOfRange %d M%d.S %d\n" % (number, index, value)
        for at, value in enumerate(values):
            if value in values[:at]:
                wanted += b"15 RepeatedValue %d M%d.S %d\n" % (number, index, value)
    for number in (7, 14, 15):
        text += b"VAL_ %d S %s ;\n" % (number, b" ".join(b'%d "v"' % value for value in values))
    return text, wanted


class SharedValues(CheckCase):
    def test_random_values(self) -> None:
        """Few and many value descriptions in each order, some of them twice."""
        dice = random.Random(20261128)
        orders: list[Callable[[list[int]], list[int]]]
        orders = [sorted, lambda it: sorted(it, reverse=True), lambda it: dice.sample(it, len(it))]
        for count in (1, 2, 16, 64, 65, 66, 130, 500):
            for order in orders:
                values = order([dice.choice((-1, 1)) * dice.randrange(1 << dice.choice((2, 7, 9, 40))) for _ in range(count)])
                text, wanted = shared_values(values)
                self.check_run("check", text, (HAS_DIAGNOSTICS, wanted, b""), b"")
                # an edit that changes nothing, of one of the messages with one identifier: their diagnostics are found again
                script = b"change-message 1 M1 8 N\nshow diagnostics\n"
                self.check_run("session", text, (DONE, b"ok\n" + wanted + b"ok\n", b""), script)


if __name__ == "__main__":
    main()
