#!/usr/bin/env python3
"""Sessions of the program on databases and scripts, each with the replies that are wanted."""

from __future__ import annotations

import contextlib
import os
import subprocess
import sys
from collections.abc import Sequence
from typing import Final

sys.dont_write_bytecode = True
sys.path.insert(0, os.path.dirname(os.path.realpath(__file__)))

import test_support  # noqa: E402
from test_support import DEVICE, DONE, EXAMPLES, REFUSED, Ended, ProgramCase, cases, content, main, put  # noqa: E402

# databases, and what follows lines for them
SHARED, SHARED_FAULTS = test_support.SHARED.decode(), test_support.SHARED_FAULTS.decode()
EXAMPLE, EXAMPLE_TEXT = test_support.EXAMPLE.decode(), " :: " + test_support.EXAMPLE_TEXT.decode()
GROUP, GROUP_LINE = test_support.GROUP.decode(), test_support.GROUP_LINE.decode()
GROUP_TEXT = test_support.decoded(test_support.GROUP_LINE, test_support.GROUP_TEXT).decode()
BEGINNING = test_support.EMPTY.decode()

# a message with an extended identifier, whose parameter group is sent by other sources too
GROUPED = """\
BO_ 2566844926 G: 1 Vector__XXX
 SG_ S : 0|8@1+ (1,0) [0|0] ""
BA_DEF_ BO_ "VFrameFormat" ENUM "StandardCAN","ExtendedCAN","reserved","J1939PG";
BA_ "VFrameFormat" BO_ 2566844926 3;
"""

# a multiplexor (switch) with multiplexer indicators
SWITCHED = """\
BO_ 300 X: 2 Vector__XXX
 SG_ M M : 0|8@1+ (1,0) [0|0] ""
 SG_ A m0 : 8|8@1+ (1,0) [0|0] ""
 SG_ B m1 : 8|8@1+ (1,0) [0|0] ""
"""

# an entry of each kind for a signal that doesn't exist, and a comment of another message
NAMED = """\
BO_ 291 A: 1 Vector__XXX
 SG_ S : 0|8@1+ (1,0) [0|0] ""
CM_ SG_ 291 C "x";
CM_ SG_ 292 O "x";
BA_DEF_ SG_ "D" INT 0 9;
BA_ "D" SG_ 291 B 1;
VAL_ 291 V 0 "z" ;
SIG_VALTYPE_ 291 F : 1;
SG_MUL_VAL_ 291 M W 0-0;
"""


# a multiplexor of this name below another, with entries for it; a signal N of another message, and a statement kept verbatim
def levels(name: str) -> str:
    return f"""\
BO_ 310 E: 2 N
 SG_ M M : 0|4@1+ (1,0) [0|0] ""
 SG_ {name} m1M : 4|4@1+ (1,0) [0|0] ""
 SG_ V m9 : 8|8@1+ (1,0) [0|0] ""
BO_ 311 F: 1 N
 SG_ N : 0|8@1+ (1,0) [0|0] ""
CM_ SG_ 310 {name} "x";
CM_ SG_ 311 N "y";
BA_DEF_ SG_ "D" INT 0 9;
BA_ "D" SG_ 310 {name} 5;
VAL_ 311 N 1 "one" ;
SIG_VALTYPE_ 310 {name} : 0;
SG_MUL_VAL_ 310 V {name} 3-3, 5-6;
SIG_GROUP_ 310 G 1 : N ;
"""


LEVELS_FAULTS = "13 UnknownNode 310 E N\n13 UnknownNode 311 F N\n"
# messages with diagnostics after one without
WITH_DIAGNOSTICS = """\
BU_: N
BO_ 290 A: 1 N
 SG_ S : 0|8@1+ (1,0) [0|0] "" N
BO_ 291 B: 1 N
 SG_ S : 8|8@1+ (1,0) [0|0] "" N
 SG_ T : 0|8@1+ (1,0) [0|0] "" N
 SG_ U : 7|1@1+ (1,0) [0|0] "" N
BO_ 292 C: 1 N
 SG_ S : 0|8@1+ (1,0) [0|0] "" K
"""
OF_B, OF_C = "5 Outside 291 B.S\n6 Overlap 291 B.T B.U\n", "13 UnknownNode 292 C.S K\n"
OF_D, OF_TWO_C = "13 UnknownNode 293 D M\n", "3 SharedName 294 C\n3 SharedName 292 C\n"
LEVELS_PICTURE = """\
Message E 310 2
   0:   1   1   1   1   0   0   0   0
   1:   2   2   2   2   2   2   2   2
   0 M 0|4@1+
   1 K 4|4@1+ when M 1-1
   2 V 8|8@1+ when K 3-3,5-6 when M 1-1
"""

# the command that shows the lines
LINES = "show lines"

# a name, a database, and commands with their replies
Session = tuple[str, str, list[tuple[str, str]]]
SESSIONS: Final[list[Session]] = [
    ("a message is removed", SHARED, [
        ("log (1.0) c 123#2A", "ok"),
        (LINES, "(1.0) c 123#2A :: A(S: 42)\nok"),
        ("show diagnostics", SHARED_FAULTS + "ok"),
        ("remove-message 0", "ok"),
        (LINES, "(1.0) c 123#2A :: B(S: 84)\nok"),
        ("show diagnostics", "ok"),
        ("log (2.0) c 123#01", "ok"),
        (LINES, "(1.0) c 123#2A :: B(S: 84)\n(2.0) c 123#01 :: B(S: one)\nok"),
        ("remove-message 0", "ok"),
        (LINES, "(1.0) c 123#2A :: Unknown frame id 291 (0x123)\n(2.0) c 123#01 :: Unknown frame id 291 (0x123)\nok"),
        ("print", BEGINNING + "ok"),
    ]),
    ("an identifier that is taken or shared", SHARED + 'VAL_ 500 X 0 "z" ;\n', [
        ("renumber 0 500", "refused 26 IdTaken"),
        ("renumber 0 501", "refused 27 IdShared"),
        ("renumber 5 501", "refused 20 NoMessage"),
        ("renumber 0 291", "refused 26 IdTaken"),
        ("show diagnostics", SHARED_FAULTS + "16 DanglingRow VAL_ 500 X\nok"),
        ("print", BEGINNING + SHARED + 'VAL_ 500 X 0 "z" ;\nok'),
    ]),
    ("edits that are refused", SHARED, [
        ('set-values VAL_ 999 S 0 "z" ;', "refused 20 NoMessage"),
        ('add-signal 0 2 SG_ T : 0|8@1+ (1,0) [0|0] ""', "refused 21 BadPlace"),
        ('set-values VAL_ 291 Q 0 "z" ;', "refused 22 NoSignal"),
        ('add-signal 0 0 SG_ S : 0|8@1+ (1,0) [0|0] ""', "refused 23 SignalExists"),
        ("drop-table T", "refused 28 NoRow"),
        ('set-attribute BA_ "X" BO_ 291 1;', "refused 29 NoDefinition"),
        ("frob", "bad command"),
        ("add-message 3 BO_ 7 C: 8 N", "refused 21 BadPlace"),
        ("remove-message 2", "refused 20 NoMessage"),
        ("change-message 2 C 1 N", "refused 20 NoMessage"),
        ("remove-signal 0 Q", "refused 22 NoSignal"),
        ("remove-signal 2 S", "refused 20 NoMessage"),
        ('change-signal 0 SG_ Q : 0|8@1+ (1,0) [0|0] ""', "refused 22 NoSignal"),
        ('change-signal 2 SG_ S : 0|8@1+ (1,0) [0|0] ""', "refused 20 NoMessage"),
        ("set-mux SG_MUL_VAL_ 999 S S 0-0;", "refused 20 NoMessage"),
        ("set-mux SG_MUL_VAL_ 291 Q S 0-0;", "refused 22 NoSignal"),
        ("drop-mux 291 S", "refused 28 NoRow"),
        ("drop-values 291 Q", "refused 28 NoRow"),
        ('drop-attribute 291 "X"', "refused 28 NoRow"),
        ('set-attribute BA_ "X" BO_ 999 1;', "refused 20 NoMessage"),
        ("show layout 2", "refused 20 NoMessage"),
        ("print", BEGINNING + SHARED + "ok"),
    ]),
    ("edits of a message and its signals", SHARED, [
        ('set-values VAL_ 291 S 2 "two" ;', "ok"),
        ("print", BEGINNING + SHARED.replace('1 "one"', '2 "two"') + "ok"),
        ("drop-values 291 S", "ok"),
        ("remove-signal 0 S", "ok"),
        ("change-message 0 C 3 N", "ok"),
        ("change-message 0 C 1786 N", "bad command"),
        ("change-message 0 BO_ 3 N", "bad command"),
        ("show layout 0", "Message C 291 3\n" + "".join(f"   {byte}:{'   .' * 8}\n" for byte in range(3)) + "ok"),
        ('add-signal 0 0  SG_ T : 0|8@1+ (1,0) [0|0] "" // behind', "ok"),
        ('add-signal 0 1 SG_ U : 8|8@1+ (1,0) [0|0] ""', "ok"),
        ('change-signal 0 SG_ T : 16|8@1+ (1,0) [0|0] "x"', "ok"),
        ("remove-message 1", "ok"),
        ("print", BEGINNING + 'BO_ 291 C: 3 N\n SG_ T : 16|8@1+ (1,0) [0|0] "x"\n SG_ U : 8|8@1+ (1,0) [0|0] ""\nok'),
        ("show diagnostics", "13 UnknownNode 291 C N\nok"),
    ]),
    ("an identifier and a value table", EXAMPLE, [
        ("log (0.0) c 1F0#804A0F0000000000", "ok"),
        ("log (0.0) c 1F1#804A0F0000000000", "ok"),
        ("renumber 0 497", "ok"),
        (
            LINES,
            "(0.0) c 1F0#804A0F0000000000 :: Unknown frame id 496 (0x1f0)\n"
            "(0.0) c 1F1#804A0F0000000000" + EXAMPLE_TEXT + "\nok",
        ),
        ("print", BEGINNING + EXAMPLE.replace("496", "497") + "ok"),
        ('set-table VAL_TABLE_ T 0 "z" ;', "ok"),
        ("print", BEGINNING + 'VAL_TABLE_ T 0 "z" ;\n' + EXAMPLE.replace("496", "497") + "ok"),
        ("drop-table T", "ok"),
        ("print", BEGINNING + EXAMPLE.replace("496", "497") + "ok"),
    ]),
    ("a multiplexing entry", SWITCHED, [
        ("log (0.0) c 12C#0005", "ok"),
        ("show diagnostics", "ok"),
        (LINES, "(0.0) c 12C#0005 :: X(M: 0, A: 5)\nok"),
        ("set-mux SG_MUL_VAL_ 300 B M 0-1;", "ok"),
        (LINES, "(0.0) c 12C#0005 :: X(M: 0, A: 5, B: 5)\nok"),
        ("show diagnostics", "6 Overlap 300 X.A X.B\nok"),
        ("drop-mux 300 B", "ok"),
        (LINES, "(0.0) c 12C#0005 :: X(M: 0, A: 5)\nok"),
        ("show diagnostics", "ok"),
    ]),
    ("a signal is renamed", EXAMPLE, [
        ("log (0.0) c 1F0#804A0F0000000000", "ok"),
        ("rename-signal 0 Enable On", "ok"),
        (LINES, "(0.0) c 1F0#804A0F0000000000 :: ExampleMessage(On: Enabled, AverageRadius: 0 m, Temperature: 255.92 degK)\nok"),
        ("print", BEGINNING + EXAMPLE.replace("SG_ Enable :", "SG_ On :").replace("VAL_ 496 Enable 0", "VAL_ 496 On 0") + "ok"),
        ("rename-signal 0 On Temperature", "refused 23 SignalExists"),
        ("rename-signal 0 On On", "refused 23 SignalExists"),
        ("rename-signal 0 Enable X", "refused 22 NoSignal"),
        ("rename-signal 0 Enable On", "refused 22 NoSignal"),
        ("rename-signal 5 On X", "refused 20 NoMessage"),
        ("rename-signal 0 On 1x", "bad command"),
        ("rename-signal 0 1x On", "bad command"),
        ("rename-signal 0 On VAL_", "bad command"),
        ("rename-signal 0 On", "bad command"),
        ("rename-signal 0 On ", "bad command"),
        ("rename-signal 0 On A B", "bad command"),
        ("rename-signal 0  On A", "bad command"),
        ("rename-signal 0", "bad command"),
        ("rename-signal", "bad command"),
        ("rename-signal On A", "bad command"),
        ("rename-signal 0 On Enable", "ok"),
        (LINES, "(0.0) c 1F0#804A0F0000000000" + EXAMPLE_TEXT + "\nok"),
        ("print", BEGINNING + EXAMPLE + "ok"),
    ]),
    ("a name that two messages share", SHARED, [
        ("rename-signal 0 S U", "refused 33 NameShared"),
        ("rename-signal 0 S S", "refused 23 SignalExists"),
        ("rename-signal 0 U S", "refused 22 NoSignal"),
        # the other message has the new name, and then neither
        ('add-signal 1 1 SG_ U : 0|8@1+ (1,0) [0|0] ""', "ok"),
        ("remove-signal 1 S", "ok"),
        ("rename-signal 0 S U", "refused 33 NameShared"),
        ("remove-signal 1 U", "ok"),
        ("print", BEGINNING + SHARED.replace(' SG_ S : 0|8@1+ (2,0) [0|0] ""\n', "") + "ok"),
        ("rename-signal 0 S U", "ok"),
        (
            "print",
            BEGINNING + 'BO_ 291 A: 1 Vector__XXX\n SG_ U : 0|8@1+ (1,0) [0|0] ""\nBO_ 291 B: 1 Vector__XXX\n'
            'VAL_ 291 U 1 "one" ;\nok',
        ),
    ]),
    ("a name that an entry has", SHARED + 'VAL_ 291 U 0 "z" ;\n', [
        ("rename-signal 0 S U", "refused 32 NameTaken"),
        ("print", BEGINNING + SHARED + 'VAL_ 291 U 0 "z" ;\nok'),
        ("drop-values 291 U", "ok"),
        ("rename-signal 0 S U", "refused 33 NameShared"),
    ]),
    # each kind of entry that has the new name, in its key or as its multiplexor
    ("names in entries of each kind", NAMED, [
        ("rename-signal 0 S C", "refused 32 NameTaken"),
        ("rename-signal 0 S B", "refused 32 NameTaken"),
        ("rename-signal 0 S V", "refused 32 NameTaken"),
        ("rename-signal 0 S F", "refused 32 NameTaken"),
        ("rename-signal 0 S M", "refused 32 NameTaken"),
        ("rename-signal 0 S W", "refused 32 NameTaken"),
        ("rename-signal 0 S O", "ok"),
    ]),
    ("a multiplexor is renamed", levels("N"), [
        ("log (0.0) c 136#5107", "ok"),
        ("log (0.0) c 136#4107", "ok"),
        ("log (0.0) c 137#01", "ok"),
        (LINES, "(0.0) c 136#5107 :: E(M: 1, N: 5, V: 7)\n(0.0) c 136#4107 :: E(M: 1, N: 4)\n(0.0) c 137#01 :: F(N: one)\nok"),
        ("rename-signal 0 N K", "ok"),
        (LINES, "(0.0) c 136#5107 :: E(M: 1, K: 5, V: 7)\n(0.0) c 136#4107 :: E(M: 1, K: 4)\n(0.0) c 137#01 :: F(N: one)\nok"),
        ("show layout 0", LEVELS_PICTURE + "ok"),
        ("show diagnostics", LEVELS_FAULTS + "ok"),
        ("print", BEGINNING + levels("K") + "ok"),
        # an entry has the new name as its multiplexor
        ("set-mux SG_MUL_VAL_ 310 V Q 3-3;", "ok"),
        ("rename-signal 0 M Q", "refused 32 NameTaken"),
        ("rename-signal 0 M V", "refused 23 SignalExists"),
        ("drop-mux 310 V", "ok"),
        ("rename-signal 0 M Q", "ok"),
        (LINES, "(0.0) c 136#5107 :: E(Q: 1, K: 5)\n(0.0) c 136#4107 :: E(Q: 1, K: 4)\n(0.0) c 137#01 :: F(N: one)\nok"),
    ]),
    # the diagnostics of messages that an edit doesn't touch stay, wherever the messages go
    ("diagnostics of other messages", WITH_DIAGNOSTICS, [
        ("show diagnostics", OF_B + OF_C + "ok"),
        ("remove-message 0", "ok"),
        ("show diagnostics", OF_B + OF_C + "ok"),
        ("add-message 0 BO_ 293 D: 1 M", "ok"),
        ("show diagnostics", OF_D + OF_B + OF_C + "ok"),
        ("add-message 2 BO_ 294 C: 1 N", "ok"),
        ("show diagnostics", OF_D + OF_B + OF_TWO_C + OF_C + "ok"),
        ("remove-message 1", "ok"),
        ("show diagnostics", OF_D + OF_TWO_C + OF_C + "ok"),
        ('change-signal 2 SG_ S : 0|8@1+ (1,0) [0|0] "" N', "ok"),
        ("show diagnostics", OF_D + OF_TWO_C + "ok"),
    ]),
    ("a parameter group", GROUP, [
        ("log " + GROUP_LINE, "ok"),
        (LINES, GROUP_TEXT + "ok"),
        ("add-message 0 BO_ 2566844721 Own: 8 Vector__XXX", "ok"),
        (LINES, GROUP_LINE + " :: Own()\nok"),
        ("remove-message 0", "ok"),
        (LINES, GROUP_TEXT + "ok"),
        ('drop-attribute 2566844672 "VFrameFormat"', "ok"),
        (LINES, GROUP_LINE + " :: Unknown frame id 419361073 (0x18fef131)\nok"),
        ('set-attribute BA_ "VFrameFormat" BO_ 2566844672 "J1939PG";', "ok"),
        (LINES, GROUP_TEXT + "ok"),
    ]),
    ("bad commands", "", [
        ("log", "bad command"),
        ("log ", "ok"),
        ("log hello\r", "ok"),
        (LINES, "\nhello\nok"),
        ("", "bad command"),
        ("print ", "bad command"),
        ("show  lines", "bad command"),
        ("PRINT", "bad command"),
        ("show", "bad command"),
        ("show layout", "bad command"),
        ("remove-message 4294967296", "bad command"),
        ("remove-message +0", "bad command"),
        ("remove-message 4294967295", "refused 20 NoMessage"),
        ("add-message 007 BO_ 1 A: 8 N", "refused 21 BadPlace"),
        ("add-message 0 BO_ 1 A: 8", "bad command"),
        ("add-message 0 SG_ A : 0|8@1+ (1,0) [0|0] \"\"", "bad command"),
        ("set-attribute BA_ \"X\" 1;", "bad command"),
        ("drop-table VAL_", "bad command"),
        ("drop-table VERSION", "refused 28 NoRow"),
        ("drop-attribute 1 \"X\" ", "bad command"),
        ("drop-attribute 1 X", "bad command"),
        ("add-message 0 BO_ 1 A: 8 N", "ok"),
        ("print", BEGINNING + "BO_ 1 A: 8 N\nok"),
        ("log " + "x" * 4096, "ok"),
        ("log " + "x" * 4097, "refused 31 LongLine"),
    ]),
]

# sessions with --short, which shows truncated frames
SHORT_SESSIONS: Final[list[Session]] = [
    ("truncated frames", SWITCHED, [
        ("log (1.0) c 12C#00", "ok"),
        ("log (2.0) c 12C#", "ok"),
        ("log (3.0) c 12C#0105", "ok"),
        (LINES, "(1.0) c 12C#00 :: X(M: 0)\n(2.0) c 12C# :: X()\n(3.0) c 12C#0105 :: X(M: 1, B: 5)\nok"),
        # a signal that comes into the data, one that leaves it, and a message that gets longer
        ('change-signal 0 SG_ A m0 : 4|4@1+ (1,0) [0|0] ""', "ok"),
        (LINES, "(1.0) c 12C#00 :: X(M: 0, A: 0)\n(2.0) c 12C# :: X()\n(3.0) c 12C#0105 :: X(M: 1, B: 5)\nok"),
        ('change-signal 0 SG_ M M : 1|8@1+ (1,0) [0|0] ""', "ok"),
        (LINES, "(1.0) c 12C#00 :: X()\n(2.0) c 12C# :: X()\n(3.0) c 12C#0105 :: X(M: 128)\nok"),
        ("change-message 0 X 3 N", "ok"),
        (LINES, "(1.0) c 12C#00 :: X()\n(2.0) c 12C# :: X()\n(3.0) c 12C#0105 :: X(M: 128)\nok"),
        ("change-message 0 X 1 N", "ok"),
        (LINES, "(1.0) c 12C#00 :: X(M: ?outside)\n(2.0) c 12C# :: X()\n(3.0) c 12C#0105 :: X(M: ?outside)\nok"),
        ("remove-signal 0 M", "ok"),
        ("change-message 0 X 2 N", "ok"),
        (LINES, "(1.0) c 12C#00 :: X()\n(2.0) c 12C# :: X()\n(3.0) c 12C#0105 :: X()\nok"),
        ("renumber 0 301", "ok"),
        (
            LINES,
            "(1.0) c 12C#00 :: Unknown frame id 300 (0x12c)\n(2.0) c 12C# :: Unknown frame id 300 (0x12c)\n"
            "(3.0) c 12C#0105 :: Unknown frame id 300 (0x12c)\nok",
        ),
    ]),
]


# sessions that keep only the last lines: a name, how many, a database, and commands with their replies
KEPT_SESSIONS: Final[list[tuple[str, int, str, list[tuple[str, str]]]]] = [
    ("two lines are kept", 2, SHARED, [
        ("log (1.0) c 123#01", "ok"),
        ("log (2.0) c 123#02", "ok"),
        ("log hello", "ok"),
        (LINES, "(2.0) c 123#02 :: A(S: 2)\nhello\nok"),
        ("remove-message 0", "ok"),
        (LINES, "(2.0) c 123#02 :: B(S: 4)\nhello\nok"),
        # a line that is dropped no longer counts for its identifier, which comes again
        ("log (3.0) c 07F#", "ok"),
        (LINES, "hello\n(3.0) c 07F# :: Unknown frame id 127 (0x7f)\nok"),
        ("log (4.0) c 123#03", "ok"),
        ("change-message 0 C 1 N", "ok"),
        (LINES, "(3.0) c 07F# :: Unknown frame id 127 (0x7f)\n(4.0) c 123#03 :: C(S: 6)\nok"),
        ("add-message 0 BO_ 127 F: 0 N", "ok"),
        (LINES, "(3.0) c 07F# :: F()\n(4.0) c 123#03 :: C(S: 6)\nok"),
    ]),
    # a line that is refused drops no other
    ("one line is kept", 1, SHARED, [
        ("log (1.0) c 123#01", "ok"),
        ("log " + 4097 * "x", "refused 31 LongLine"),
        (LINES, "(1.0) c 123#01 :: A(S: one)\nok"),
        ("log (2.0) c 123#02", "ok"),
        (LINES, "(2.0) c 123#02 :: A(S: 2)\nok"),
        ("log " + 4096 * "x", "ok"),
        (LINES, 4096 * "x" + "\nok"),
    ]),
    # frames of one parameter group from several sources
    ("lines of a parameter group are kept", 3, GROUPED, [
        ("log (1.0) c 18FEF101#01", "ok"),
        ("log (2.0) c 18FEF102#02", "ok"),
        ("log (3.0) c 18FEF101#03", "ok"),
        ("log (4.0) c 18FEF103#04", "ok"),
        (
            LINES,
            "(2.0) c 18FEF102#02 :: G[p6 s2](S: 2)\n(3.0) c 18FEF101#03 :: G[p6 s1](S: 3)\n"
            "(4.0) c 18FEF103#04 :: G[p6 s3](S: 4)\nok",
        ),
        ("change-signal 0 SG_ S : 0|8@1+ (10,0) [0|0] \"\"", "ok"),
        (
            LINES,
            "(2.0) c 18FEF102#02 :: G[p6 s2](S: 20)\n(3.0) c 18FEF101#03 :: G[p6 s1](S: 30)\n"
            "(4.0) c 18FEF103#04 :: G[p6 s3](S: 40)\nok",
        ),
    ]),
    ("as many lines as may be are kept", 1048576, SHARED, [
        ("log (1.0) c 123#01", "ok"),
        (LINES, "(1.0) c 123#01 :: A(S: one)\nok"),
    ]),
]


class SessionCase(ProgramCase):
    def check_session(self, text: bytes, script: bytes, wanted: Ended, options: Sequence[str] = ()) -> None:
        got = self.ended("session", *options, put(self.folder, "database.dbc", text), stdin=script)
        self.check_equal(f"{script[:60]!r} on {text[:40]!r}", got, wanted)

    def check_beginnings(self, text: str, commands: list[tuple[str, str]], options: Sequence[str] = ()) -> None:
        """Checks each beginning of a script, and all of it without an LF at its end."""
        for count in range(len(commands) + 1):
            script = "".join(command + "\n" for command, _ in commands[:count])
            wanted = "".join(reply + "\n" for _, reply in commands[:count])
            self.check_session(text.encode(), script.encode(), (DONE, wanted.encode(), b""), options)
        script = "\n".join(command for command, _ in commands)
        replies = "".join(reply + "\n" for _, reply in commands)
        self.check_session(text.encode(), script.encode(), (DONE, replies.encode(), b""), options)


@cases(SESSIONS)
class Sessions(SessionCase):
    def row(self, name: str, text: str, commands: list[tuple[str, str]]) -> None:
        self.check_beginnings(text, commands)


@cases(SHORT_SESSIONS)
class ShortSessions(SessionCase):
    def row(self, name: str, text: str, commands: list[tuple[str, str]]) -> None:
        self.check_beginnings(text, commands, ["--short"])


@cases(KEPT_SESSIONS)
class KeptSessions(SessionCase):
    def row(self, name: str, count: int, text: str, commands: list[tuple[str, str]]) -> None:
        self.check_beginnings(text, commands, ["--keep", str(count)])


class Scripts(SessionCase):
    """Scripts with long lines, none, and the example's."""

    def test_line_of_a_script_that_is_too_long(self) -> None:
        long_line = (DEVICE, b"ok\n", b"candesk: 40 LongLine\n")
        self.check_session(b"", b"log a\n" + b"x" * 65537 + b"\nlog b\n", long_line)

    def test_longest_line_of_a_script(self) -> None:
        self.check_session(b"", b"x" * 65536, (DONE, b"bad command\n", b""))

    def test_rejected_database(self) -> None:
        self.check_session(b"BO_ 1 A: 8", b"print\n", (REFUSED, b"", b"candesk: line 1: 2 Statement\n"))

    def test_empty_script(self) -> None:
        self.check_session(b"", b"", (DONE, b"", b""))

    def test_many_bad_commands(self) -> None:
        self.check_session(b"", b"frob\n" * 100000, (DONE, b"bad command\n" * 100000, b""))

    def test_example(self) -> None:
        line = b"(1.5) can0 123#0A01 :: "
        texts = [line + b"Wheel(Speed: 537 rpm)\n", line + b"Wheel(Speed: 266 rpm)\n", line + b"Unknown frame id 291 (0x123)\n"]
        wanted = b"ok\n" + texts[0] + b"ok\nok\n" + texts[1] + b"ok\nrefused 20 NoMessage\nok\n" + texts[2] + b"ok\n"
        self.check_session(content(f"{EXAMPLES}/wheel.dbc"), content(f"{EXAMPLES}/wheel.script"), (DONE, wanted, b""))


class LongLogs(SessionCase):
    """Logs of many lines, of which all are kept or only the last."""

    def test_full_log(self) -> None:
        full = b"log \n" * 1048576 + b"log " + b"x" * 4097 + b"\n"
        self.check_session(b"", full, (DONE, b"ok\n" * 1048576 + b"refused 30 LogFull\n", b""))

    def test_last_lines_of_many(self) -> None:
        lines = b"".join(b"log (%d.0) c %03X#01\n" % (number, number % 2000) for number in range(200000))
        kept = b"".join(
            b"(%d.0) c %03X#01 :: Unknown frame id %d (0x%x)\n" % (number, number % 2000, number % 2000, number % 2000)
            for number in range(199000, 200000)
        )
        wanted = b"ok\n" * 200000 + kept + b"ok\n"
        self.check_session(b"", lines + b"show lines\n", (DONE, wanted, b""), ["--keep", "1000"])

    def test_no_log_is_full_that_keeps_its_last_lines(self) -> None:
        full = b"log \n" * 1048577 + b"log " + b"x" * 4097 + b"\n"
        self.check_session(b"", full, (DONE, b"ok\n" * 1048577 + b"refused 31 LongLine\n", b""), ["--keep", "1048576"])

    def test_many_identifiers(self) -> None:
        """As many identifiers as make the index grow, each with several lines, of which all or the last are kept: an edit changes
        only the texts of those with its message's identifier."""
        text = b'BO_ 2415919111 M: 1 E\n SG_ S : 0|8@1+ (1,0) [0|0] "" E\n'
        edit = b'change-signal 0 SG_ S : 0|8@1+ (2,0) [0|0] "" E\n'
        numbers = [0x10000000 + at * 7919 % 3000 for at in range(9000)]
        for keep in (9000, 5000, 1500, 40, 1):
            script = b"".join(b"log (%d.0) c %08X#15\n" % (at, number) for at, number in enumerate(numbers))
            lines = b"".join(
                b"(%d.0) c %08X#15 :: %s\n"
                % (at, number, b"M(S: 42)" if number == 0x10000007 else b"Unknown frame id %d (0x%x)" % (number, number))
                for at, number in list(enumerate(numbers))[-keep:]
            )
            options = ["--keep", str(keep)] if keep < len(numbers) else []
            self.check_session(text, script + edit + b"show lines\n", (DONE, b"ok\n" * 9001 + lines + b"ok\n", b""), options)

    def test_long_texts(self) -> None:
        """Texts shorter and longer than what a session reserves for one, one after another, each as if it were alone."""
        for length in (60, 120, 500):
            names = [f"S{at}_" + "x" * (length - 4) for at in range(64)]
            signals = "".join(f' SG_ {name} : {at}|1@1+ (1,0) [0|0] "" E\n' for at, name in enumerate(names))
            text = f'BO_ 1 M: 8 E\n{signals}BO_ 2 N: 1 E\n SG_ S : 0|8@1+ (1,0) [0|0] "" E\n'
            values = ", ".join(f"{name}: {at // 32}" for at, name in enumerate(names))
            long, short = f"(1.0) c 001#00000000FFFFFFFF :: M({values})\n", "(1.0) c 002#07 :: N(S: 7)\n"
            script = "".join(f"log {line.split(' :: ')[0]}\n" for line in (short, long, short, long, long, short))
            wanted = "ok\n" * 6 + short + long + short + long + long + short + "ok\n"
            self.check_session(text.encode(), f"{script}show lines\n".encode(), (DONE, wanted.encode(), b""))


# how many lines are kept, how many identifiers come one after another, and how much memory that may take, in kB
BURST, NUMBERS, MOST_MEMORY = 20000, 100, 14000


def peak_memory(session: subprocess.Popen[bytes]) -> int:
    """The most memory that a running process has had so far, in kB."""
    with open(f"/proc/{session.pid}/status", encoding="utf-8") as lines:
        return next(int(line.split()[1]) for line in lines if line.startswith("VmHWM:"))


class Bursts(SessionCase):
    def test_bursts_of_identifiers(self) -> None:
        """Identifier after identifier fills the log and leaves one line of it, which comes again with each next one, so that all
        identifiers stay in the index: the memory that one had for many lines is freed as they go."""
        words = [self.program, "session", "--keep", str(BURST), put(self.folder, "database.dbc", b"")]
        peak = 0
        session = subprocess.Popen(words, stdin=subprocess.PIPE, stdout=subprocess.DEVNULL)
        assert session.stdin
        # (a program that ends early is reported by its status)
        with contextlib.suppress(BrokenPipeError, StopIteration), session:
            for number in range(NUMBERS):
                others = [b"log (1.0) c %08X#01\n" % other for other in range(number)]
                session.stdin.write(b"".join(others + [b"log (1.0) c %08X#01\n" % number] * (BURST - number)))
                peak = max(peak, peak_memory(session))
        name = f"bursts of identifiers under {MOST_MEMORY} kB, {peak} taken"
        self.check_equal(name, (session.returncode, peak <= MOST_MEMORY), (DONE, True))


if __name__ == "__main__":
    main()
