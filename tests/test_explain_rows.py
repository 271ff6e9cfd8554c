#!/usr/bin/env python3
"""Texts that the program explains, each with the words that are wanted.

Of a rejected text `explain` has to write its words on the first fault and then, as guesses, those on later faults to standard
output, and the fault line that the other commands write to standard error, with status 1. Of a text that is read it has to write
the lines that `check` writes, each with the lines in the text before it and its remedy after it, with the status of `check`.
"""

from __future__ import annotations

import os
import sys

sys.dont_write_bytecode = True
sys.path.insert(0, os.path.dirname(os.path.realpath(__file__)))

from test_support import DONE, HAS_DIAGNOSTICS, REFUSED, ProgramCase, cases, main, put  # noqa: E402


def fault(line: int, cause: str, shown: str, found: str, expected: str, reason: str | None = None) -> str:
    """The words on a fault in this line of the text, which is shown with a mark."""
    words = f"line {line}: {cause}\n{shown}found: {found}\nexpected: {expected}\n"
    return words + (f"reason: {reason}\n" if reason else "")


NO_NUMBER = "inf and nan are not numbers; as limits of a signal, [0|0] means that there are none"
STRAY = "names have only letters, digits and underscores; text belongs in quotes"

# name, text, the words on each fault
REJECTED_TEXTS = [
    (
        "inf as a limit",
        b'BO_ 1 A: 1 N\n SG_ S : 0|8@1+ (1,0) [0|inf] ""\n',
        [
            fault(
                2,
                "2 Statement",
                ' SG_ S : 0|8@1+ (1,0) [0|inf] ""\n                         ^~~\n',
                "the word inf",
                "'-', '+' or a number",
                NO_NUMBER,
            )
        ],
    ),
    (
        "an exponent that is too large",
        b'BO_ 1 A: 1 N\n SG_ S : 0|8@1+ (1,0) [0|1E401] ""\n',
        [
            fault(
                2,
                "2 Statement",
                ' SG_ S : 0|8@1+ (1,0) [0|1E401] ""\n                         ^~~~~\n',
                "the number 1E401",
                "'-', '+' or a number",
                "the number has an exponent above 400 or more than 36 digits; write the intended one",
            )
        ],
    ),
    (
        "a byte order mark",
        b'\xef\xbb\xbfVERSION ""\n',
        [
            fault(
                1,
                "1 Token",
                '\ufeffVERSION ""\n^\n',
                "the byte 0xEF, which begins no token",
                "'VERSION' or a statement",
                "the file begins with a byte order mark; candesk-format --mend removes it",
            )
        ],
    ),
    (
        "Ctrl-Z at the end",
        b'VERSION ""\n\x1a',
        [
            fault(
                2,
                "1 Token",
                "?\n^\n",
                "the byte 0x1A, which begins no token",
                "a statement",
                "Ctrl-Z, once a mark for the end of a file; candesk-format --mend removes it there",
            )
        ],
    ),
    (
        "a comma behind the last receiver, behind a tab",
        b'BO_ 1 A: 1 N\n\tSG_ S : 0|8@1+ (1,0) [0|0] "" N,\n\tSG_ T : 0|8@1+ (1,0) [0|0] "" N\n',
        [
            fault(
                3,
                "2 Statement",
                '\tSG_ T : 0|8@1+ (1,0) [0|0] "" N\n\t^~~\n',
                "the keyword SG_",
                "a name",
                "a comma follows the last receiver; candesk-format --mend removes it",
            )
        ],
    ),
    (
        "a semicolon that is missing, and then a size that is too large",
        b'CM_ "a"\nBO_ 1 A: 8 N\nBO_ 2 B: 9999 N\n',
        [
            fault(
                2,
                "2 Statement",
                "BO_ 1 A: 8 N\n^~~\n",
                "the keyword BO_",
                "';'",
                "the semicolon of the previous statement is missing",
            ),
            fault(
                3,
                "6 Limit",
                "BO_ 2 B: 9999 N\n         ^~~~\n",
                "the number 9999",
                "an integer from 0 to 1785",
                "the number is out of range here; write the intended one",
            ),
        ],
    ),
    (
        "names that begin with a digit, or have a mark",
        b"BU_: 2N\nBO_ 1 A-B: 8 N\n",
        [
            fault(
                1,
                "2 Statement",
                "BU_: 2N\n     ^\n",
                "the number 2",
                "a name or a statement",
                "a name begins with a letter or an underscore; rename it",
            ),
            fault(
                2,
                "2 Statement",
                "BO_ 1 A-B: 8 N\n       ^\n",
                "the mark -",
                "':'",
                "names have only letters, digits and underscores; rename it",
            ),
        ],
    ),
    (
        "a quote that is never closed",
        b'CM_ "a;\n',
        [
            fault(
                1,
                "1 Token",
                'CM_ "a;\n    ^\n',
                "a quote that is never closed",
                "'EV_', 'BU_', 'BO_', 'SG_' or a quoted string",
                "no closing quote follows, or a backslash escapes each; a string can't end in a backslash",
            )
        ],
    ),
    (
        "two signals of one name",
        b'BO_ 1 A: 1 N\n SG_ S : 0|8@1+ (1,0) [0|0] ""\n SG_ S : 0|8@1+ (1,0) [0|0] ""\n',
        [
            fault(
                3,
                "3 RepeatedSignal",
                ' SG_ S : 0|8@1+ (1,0) [0|0] ""\n     ^\n',
                "the word S",
                "the name of another signal",
                "a message has two signals of the same name; rename one",
            )
        ],
    ),
    (
        "a text that ends within a statement",
        b"BO_ 1 A: 8",
        [
            fault(
                1,
                "2 Statement",
                "BO_ 1 A: 8\n          ^\n",
                "the end of the file",
                "a name",
                "the file ends inside a statement; it may be truncated",
            )
        ],
    ),
    (
        "a second bit timing",
        b"BS_:\nBS_:\n",
        [
            fault(
                2,
                "2 Statement",
                "BS_:\n^~~\n",
                "the keyword BS_",
                "a number or a statement",
                "a file has at most one BS_; remove the second",
            )
        ],
    ),
    (
        "a name with a byte of Latin-1",
        b"BU_: T\xfcr\n",
        [
            fault(
                1,
                "1 Token",
                "BU_: T\udcfcr\n      ^\n",
                "the byte 0xFC, which begins no token",
                "a name or a statement",
                "non-ASCII byte outside a quoted string (an umlaut in a name?); rename it",
            )
        ],
    ),
    (
        "a long line",
        b"BU_:" + b" N" * 100 + b" ?" + b" N" * 100 + b"\n",
        [
            fault(
                1,
                "1 Token",
                "...N" + " N" * 29 + " ?" + " N" * 29 + " ...\n" + " " * 63 + "^\n",
                "'?', which begins no token",
                "a name or a statement",
                STRAY,
            )
        ],
    ),
]


def placed(*found: tuple[str, str]) -> bytes:
    """The lines of diagnostics: where, what, and the remedy of its code."""
    return "".join(f"{where}: {what}\n  remedy: {REMEDIES[what.split(' ', 1)[0]]}\n" for where, what in found).encode()


# by the numbers of the codes
REMEDIES = {
    "2": "remove one message, or correct its identifier",
    "3": "rename one message",
    "5": "check start bit, length and byte order, or the message's length",
    "6": "correct the position of one signal, or the multiplexor values that select it",
    "7": "mark one signal as multiplexor with M, or correct the SG_MUL_VAL_ entry",
    "8": "correct the SG_MUL_VAL_ entry, or mark the multiplexor that it names with M",
    "9": "break the loop of multiplexors",
    "10": "nothing is wrong, but candesk doesn't decode floats",
    "13": "add the node to BU_, or correct its name",
    "14": "correct the value, or the signal's length or sign",
    "15": "remove one of the value's descriptions",
    "16": "correct the entry's identifier or name, or remove it",
    "17": "remove one of the entries; the first one counts",
    "18": "add a BA_DEF_ for the attribute, or remove the entry",
}

# words of statements in a text, in a list of symbols and in a comment, and two messages of one number and one name
TWINS = b"""VERSION "a
BO_"
NS_ :
 CM_ BA_ VAL_ SG_
BS_:
BU_: N
// BO_ 9 X: 1 N
BO_ 1 A: 1 N SG_ S : 0|8@1+ (1,0) [0|0] "SG_"
 SG_ T : 4|8@1+ (1,0) [0|0] "" N,
M
BO_ 1 A: 1 N
 SG_
S : 0|9@1+ (1,0) [0|0] ""
"""

# rows of each kind, over several lines or two in one, and such as are kept
ROWS = b"""CM_ EV_ X "x";
CM_ BO_ 7 "BO_ 8 Y: 1 N";
CM_ BO_ 7
"again";
BA_DEF_ EV_ "V" INT 0 1;
BA_DEF_DEF_ "W" 0;
BA_ "V" EV_ X 1;
BA_ "W" BO_ 7
1; BA_ "W" BO_ 7 1;
VAL_ X 0 "off" ;
VAL_ 7 S 0 "late" ;
SIG_GROUP_ 7 G 1 : S VAL_ 7 S ;
VAL_ 7 S 0 "late" ; SIG_VALTYPE_ 7 Q : 1;
VAL_TABLE_ A 0 "a" ;
SG_MUL_VAL_
7 T S 1-1;

VAL_TABLE_ A 0 "a" ;
BA_DEF_ BO_ "V" INT 0 1;
BA_DEF_ BO_
"V" INT 0 1;
"""

# rows of a signal that is there
VALUES = b"""BU_: N
BO_ 1 A: 1 N
 SG_ S : 0|4@1+ (1,0) [0|0] ""
 SG_ T : 4|4@1+ (1,0) [0|0] ""
VAL_ 2 S 16 "no row of it" ;
VAL_ 1 T 0 "nor is this" ;
VAL_ 1
S 16 "far"
17 "BO_" 17 "twice" ;
VAL_ 1 S 18 "the first counts" ;
SG_MUL_VAL_ 1 S T 1-1;
SG_MUL_VAL_ 1 T S 5-3;
"""

SIGNAL_ROWS = b"""BU_: N
BO_ 1 A: 6 N
 SG_ S m1 : 0|4@1+ (1,0) [0|0] ""
 SG_ T : 4|4@1+ (1,0) [0|0] ""
 SG_ U : 16|32@1+ (1,0) [0|0] ""
SIG_VALTYPE_ 1
U : 1;
SIG_VALTYPE_ 1 U : 2;
SG_MUL_VAL_ 1 T Q 1-1;
"""

# name, text, what is written, the status
READ_TEXTS = [
    ("an empty text", b"", b"", DONE),
    (
        "diagnostics",
        b"BU_: Ecu\nBO_ 1 A: 0 N\nBO_ 1 B: 0 Ecu\n",
        placed(
            ("line 2", "2 SharedIdentifier 1 A"),
            ("line 2", "13 UnknownNode 1 A N"),
            ("line 3", "2 SharedIdentifier 1 B"),
        ),
        HAS_DIAGNOSTICS,
    ),
    (
        "two messages of one number and one name",
        TWINS,
        placed(
            ("line 8", "2 SharedIdentifier 1 A"),
            ("line 8", "3 SharedName 1 A"),
            ("line 9", "5 Outside 1 A.T"),
            ("lines 8 and 9", "6 Overlap 1 A.S A.T"),
            ("line 9", "13 UnknownNode 1 A.T M"),
            ("line 11", "2 SharedIdentifier 1 A"),
            ("line 11", "3 SharedName 1 A"),
            ("line 12", "5 Outside 1 A.S"),
        ),
        HAS_DIAGNOSTICS,
    ),
    (
        "rows of what is not there",
        ROWS,
        placed(
            ("line 18", "17 RepeatedRow VAL_TABLE_ A"),
            ("line 2", "16 DanglingRow CM_ BO_ 7"),
            ("line 3", "16 DanglingRow CM_ BO_ 7"),
            ("line 3", "17 RepeatedRow CM_ BO_ 7"),
            ("line 19", '17 RepeatedRow BA_DEF_ BO_ "V"'),
            ("line 20", '17 RepeatedRow BA_DEF_ BO_ "V"'),
            ("line 6", '18 UnknownAttribute BA_DEF_DEF_ "W"'),
            ("line 8", '16 DanglingRow BA_ "W" BO_ 7'),
            ("line 8", '18 UnknownAttribute BA_ "W" BO_ 7'),
            ("line 9", '16 DanglingRow BA_ "W" BO_ 7'),
            ("line 9", '17 RepeatedRow BA_ "W" BO_ 7'),
            ("line 9", '18 UnknownAttribute BA_ "W" BO_ 7'),
            ("line 11", "16 DanglingRow VAL_ 7 S"),
            ("line 13", "16 DanglingRow VAL_ 7 S"),
            ("line 13", "17 RepeatedRow VAL_ 7 S"),
            ("line 13", "16 DanglingRow SIG_VALTYPE_ 7 Q"),
            ("line 15", "16 DanglingRow SG_MUL_VAL_ 7 T"),
        ),
        HAS_DIAGNOSTICS,
    ),
    (
        "rows of named values and of multiplexing",
        VALUES,
        placed(
            ("line 11", "8 BadMuxRow 1 A.S"),
            ("line 12", "8 BadMuxRow 1 A.T"),
            ("line 11", "9 SwitchLoop 1 A.S"),
            ("line 12", "9 SwitchLoop 1 A.T"),
            ("line 7", "14 ValueOutOfRange 1 A.S 16"),
            ("line 7", "14 ValueOutOfRange 1 A.S 17"),
            ("line 7", "14 ValueOutOfRange 1 A.S 17"),
            ("line 7", "15 RepeatedValue 1 A.S 17"),
            ("line 5", "16 DanglingRow VAL_ 2 S"),
            ("line 10", "17 RepeatedRow VAL_ 1 S"),
        ),
        HAS_DIAGNOSTICS,
    ),
    (
        "a switch that a signal or its row names, and a float type",
        SIGNAL_ROWS,
        placed(
            ("line 3", "7 NoSwitch 1 A.S"),
            ("line 9", "7 NoSwitch 1 A.T"),
            ("line 6", "10 Float 1 A.U"),
            ("line 8", "17 RepeatedRow SIG_VALTYPE_ 1 U"),
        ),
        HAS_DIAGNOSTICS,
    ),
]


def words_of(faults: list[str]) -> bytes:
    """What is written on faults, of which all but the first are guesses."""
    words = "\nguess: ".join(faults)
    return words.encode(errors="surrogateescape")


@cases(REJECTED_TEXTS)
class Rejected(ProgramCase):
    def row(self, name: str, text: bytes, faults: list[str]) -> None:
        path = put(self.folder, "f.dbc", text)
        line = ("candesk: " + faults[0].split("\n", 1)[0] + "\n").encode()
        self.check_equal(name, self.ended("explain", path), (REFUSED, words_of(faults), line))
        self.check_equal(name + ", as check rejects it", self.ended("check", path), (REFUSED, b"", line))


@cases(READ_TEXTS)
class Read(ProgramCase):
    def row(self, name: str, text: bytes, words: bytes, status: int) -> None:
        self.check_equal(name, self.ended("explain", put(self.folder, "f.dbc", text)), (status, words, b""))


if __name__ == "__main__":
    main()
