#!/usr/bin/env python3
"""Texts that the program prints or rejects, each with what is wanted of it.

Of a text that is read, `print` has to write the canonical text, and that text again when it prints it. Of a rejected one it has to
write the fault line on standard error and nothing on standard output, with status 1.
"""

from __future__ import annotations

import os
import sys
from typing import Final

sys.dont_write_bytecode = True
sys.path.insert(0, os.path.dirname(os.path.realpath(__file__)))

from test_support import DONE, EMPTY, EXAMPLE, REFUSED, Ended, ProgramCase, cases, main, put  # noqa: E402


# a message with that many signals
def signals(count: int) -> bytes:
    return b"BO_ 1 A: 8 N\n" + b"".join(b' SG_ S%d : 0|8@1+ (1,0) [0|0] ""\n' % i for i in range(count))


# a message with one signal, whose line ends in these bytes
def signal(rest: bytes, blank: bytes = b" ") -> bytes:
    return b"BO_ 1 A: 8 N" + blank + b"SG_ S " + rest


# name, text, and its canonical text; None if it is canonical itself
SPELLED: Final[list[tuple[str, bytes, bytes | None]]] = [
    ("nothing", b"", EMPTY),
    ("a line feed", b"\n", EMPTY),
    (
        "a comment, a note and decimals in several forms",
        b'CM_ "a\nb\\"c\xfc";\nBO_ 1 A: 8 N // note\n SG_ S : 0|8@1+ (1E-005,1.0) [.5|5.] ""\n',
        EMPTY + b'BO_ 1 A: 8 N\n SG_ S : 0|8@1+ (0.00001,1) [0.5|5] ""\nCM_ "a\nb\\"c\xfc";\n',
    ),
    ("whole numbers with a point and an exponent", b"BO_ 1.0 A: 80E-1 N", EMPTY + b"BO_ 1 A: 8 N\n"),
    (
        "lists of symbols and of nodes in several parts",
        b'VERSION "v" NS_ : CM_ NS_ VERSION BU_ : A B BS_ : 1 : 2 , 3.50 BU_ : VERSION NS_ : X BO_ 2 M: 0 S',
        b'VERSION "v"\nNS_ :\n\tCM_\n\tNS_\n\tVERSION\n\tX\nBS_: 1 : 2 , 3.5\nBU_: A B VERSION\nBO_ 2 M: 0 S\n',
    ),
    (
        "signals with tags, receivers and signs",
        b'BO_ 1 INT: 8 ENUM SG_ M : 1|2@0E99- (+1,-0) [-1|1E400] "u" A B, C SG_ N M : 0|1@1.0+ (1,0) [0|0] "" VERSION '
        b'SG_ m0 m01M : 0|1@10E-1+ (1,0) [0|0] ""',
        EMPTY
        + b'BO_ 1 INT: 8 ENUM\n SG_ M : 1|2@0- (1,0) [-1|1E400] "u" A,B,C\n SG_ N M : 0|1@1+ (1,0) [0|0] "" VERSION\n'
        + b' SG_ m0 m1M : 0|1@1+ (1,0) [0|0] ""\n',
    ),
    (
        "named values of any size",
        b'VAL_TABLE_ T - 1 "a" +2.0 "b"; VAL_TABLE_ U; VAL_ 7 S 18446744073709551615 "x"-9223372036854775808"y";',
        EMPTY
        + b'VAL_TABLE_ T -1 "a" 2 "b" ;\nVAL_TABLE_ U ;\n'
        + b'VAL_ 7 S 18446744073709551615 "x" -9223372036854775808 "y" ;\n',
    ),
    (
        "float types and extended multiplexing",
        b"SIG_VALTYPE_ 1 S : 1.0; SIG_VALTYPE_ 1 S 2; SG_MUL_VAL_ 1 S T 0.0-10E-1,3-2;",
        EMPTY + b"SIG_VALTYPE_ 1 S : 1;\nSIG_VALTYPE_ 1 S : 2;\nSG_MUL_VAL_ 1 S T 0-1, 3-2;\n",
    ),
    (
        "comments and attributes of every object",
        b'CM_ BU_ N "a"; CM_ BO_ 1 "b"; CM_ SG_ 1 S "c"; BA_DEF_ EV_ "x" INT 0 1; BA_DEF_ "y" ENUM "p","q"; '
        b'BA_DEF_ BU_ "z" STRING; BA_DEF_ BO_ "h" HEX; BA_DEF_ SG_ "f" FLOAT -.5 +2; BA_DEF_DEF_ "x" 3; BA_ "x" 1; '
        b'BA_ "x" BU_ N "t"; BA_ "x" BO_ 5 -1; BA_ "x" SG_ 5 S 1;',
        EMPTY
        + b'CM_ BU_ N "a";\nCM_ BO_ 1 "b";\nCM_ SG_ 1 S "c";\nBA_DEF_ EV_ "x" INT 0 1;\nBA_DEF_ "y" ENUM "p","q";\n'
        + b'BA_DEF_ BU_ "z" STRING;\nBA_DEF_ BO_ "h" HEX;\nBA_DEF_ SG_ "f" FLOAT -0.5 2;\nBA_DEF_DEF_ "x" 3;\n'
        + b'BA_ "x" 1;\nBA_ "x" BU_ N "t";\nBA_ "x" BO_ 5 -1;\nBA_ "x" SG_ 5 S 1;\n',
    ),
    (
        "two messages of one number, and a row of a number that no message has",
        b'BO_ 1 A: 8 N BO_ 1 A: 8 N BA_ "a" BO_ 7 0;',
        EMPTY + b'BO_ 1 A: 8 N\nBO_ 1 A: 8 N\nBA_ "a" BO_ 7 0;\n',
    ),
    (
        "statements that are kept",
        b'EV_ a 1E999 BO_ "s";BO_TX_BU_ 1:A,B;VAL_ E 0 "a";CM_ EV_ e "c";BA_ "x" EV_ e 1;CAT_;',
        EMPTY
        + b'EV_ a 1E999 BO_ "s" ;\nBO_TX_BU_ 1 : A , B ;\nVAL_ E 0 "a" ;\nCM_ EV_ e "c" ;\nBA_ "x" EV_ e 1 ;\nCAT_ ;\n',
    ),
    (
        "one statement of each kind",
        b'VERSION "v"\nNS_ :\n\tCM_\nBS_: 500 : 1 , 2.5\nBU_: A B\nVAL_TABLE_ T -1 "a" 2 "b" ;\nBO_ 1 M: 8 A\n'
        b' SG_ S m0 : 7|2@0- (0.5,-5) [-1|1E400] "u" A,B\nCM_ SG_ 1 S "c\nd\\"\xfc";\nBA_DEF_ SG_ "f" FLOAT -0.5 2;\n'
        b'BA_DEF_DEF_ "f" 1;\nBA_ "f" SG_ 1 S 1.25;\nVAL_ 1 S 0 "x" 1 "y" ;\nSIG_VALTYPE_ 1 S : 1;\n'
        b'SG_MUL_VAL_ 1 S T 0-1, 3-2;\nEV_ e 1E999 "s" ;\n',
        None,
    ),
    (
        "a whole number and an exponent of very many digits",
        b"BO_ " + b"0" * 100_000 + b'1 A: 8 N\n SG_ S : 0|8@1+ (0E99999999999999999999,0) [0|0] ""',
        EMPTY + b'BO_ 1 A: 8 N\n SG_ S : 0|8@1+ (0,0) [0|0] ""\n',
    ),
    ("as many messages as may be", EMPTY + b"BO_ 1 A: 8 N\n" * 65_535, None),
    ("as many signals as may be", EMPTY + signals(999), None),
]


# The tokens of a text, as a statement that is kept verbatim is printed: a blank separates each two.
TOKENS = [
    (b"BO_ 500 Motor: 8|Gateway\n SG_ Speed : 7|16@0+", b"BO_ 500 Motor : 8 | Gateway SG_ Speed : 7 | 16 @ 0 +"),
    (b"1. .5 1.e5 .5E1 00 1E+3 2e-7", b"1. .5 1.e5 .5E1 00 1E+3 2e-7"),
    (b"1E", b"1 E"),
    (b"1E+", b"1 E +"),
    (b"1.2.3", b"1.2 .3"),
    (b"1..5", b"1. .5"),
    (b"1E5E5.5", b"1E5 E5 .5"),
    (b"0x10 8N S-1 17-17", b"0 x10 8 N S - 1 17 - 17"),
    (b"[],()", b"[ ] , ( )"),
    (b'"""a""b"', b'"" "a" "b"'),
    (b'"a \\" b" c', b'"a \\" b" c'),
    (b'a"\n//\n"b', b'a "\n//\n" b'),
    (b'a//b"c\nd', b"a d"),
    (b"// one\r two\n//\n\r\nx // to the line's end\n", b"x"),
    (b"_ __1 a_B2", b"_ __1 a_B2"),
]
for text, tokens in TOKENS:
    SPELLED.append((f"the tokens of {text!r}", b"EV_ " + text + b";", EMPTY + b"EV_ " + tokens + b" ;\n"))

# A decimal as it is read, and as it is printed: plainly up to 20 digits on each side of the point.
DECIMALS = [
    (b"-0.00390625", b"-0.00390625"),
    (b"1E19", b"10000000000000000000"),
    (b"1E20", b"1E20"),
    (b"1E-20", b"0.00000000000000000001"),
    (b"1E-21", b"1E-21"),
    (b"1000E397", b"1E400"),
    (b"10E-401", b"1E-400"),
    (b"-0E999", b"0"),
    (b"340E36", b"34E37"),
    (b"-12.50", b"-12.5"),
    (b"99999999999999999999.5", b"99999999999999999999.5"),
    (b"100000000000000000000.5", b"1000000000000000000005E-1"),
    (b"+5.", b"5"),
    (b"007.500e+02", b"750"),
    (b"999999999999999999999999999999999999", b"999999999999999999999999999999999999E0"),
]
for read, printed in DECIMALS:
    SPELLED.append((f"the decimal {read!r}", b'BA_DEF_DEF_ "" ' + read + b";", EMPTY + b'BA_DEF_DEF_ "" ' + printed + b";\n"))

# text, line, cause
REJECTED = [
    (b"BO_ 1 A: 8", 1, "2 Statement"),
    (b"BO_ 1 A: 1786 N", 1, "6 Limit"),
    (b'VERSION "x', 1, "1 Token"),
    (signal(b': 0|0@1+ (1,0) [0|0] ""', b"\n "), 2, "6 Limit"),
    (signal(b': 0|8@1+ (1234567890123456789012345678901234567,0) [0|0] ""', b"\n "), 2, "2 Statement"),
    (signal(b': 0|8@1+ (1,0) [0|0] ""\n SG_ S : 8|8@1+ (1,0) [0|0] ""', b"\n "), 3, "3 RepeatedSignal"),
    (b"BO_ 4294967296 A: 8 N", 1, "6 Limit"),
    (b"BO_ 1234567890123456789012345678901234567 A: 8 N", 1, "6 Limit"),
    (b"BO_ 1.5 A: 8 N", 1, "2 Statement"),
    (b"BO_ 4294967296.5 A: 8 N", 1, "2 Statement"),
    (b"BO_ 1 BO_: 8 N", 1, "2 Statement"),
    (b"BS_:\nBS_:", 2, "2 Statement"),
    (b'CM_ "x\\";', 1, "1 Token"),
    (b'VAL_ 1 S 0 "a"\n', 2, "2 Statement"),
    (signal(b"m18446744073709551616 :", b"\n "), 2, "6 Limit"),
    (b'BO_ "abc', 1, "1 Token"),
    (b"BO_ /", 1, "1 Token"),
    (b"VERSION VERSION", 1, "2 Statement"),
    (b'VERSION "a"\nVERSION "b"', 2, "2 Statement"),
    (b'BU_: A\nVERSION "b"', 2, "2 Statement"),
    (b'NS_ :\nCM_ "x";', 2, "2 Statement"),
    (b"NS_ : CM_\nBS_: BU_\n", 3, "2 Statement"),
    (b"BS_: 1 : 2", 1, "2 Statement"),
    (b"BS_: -1 : 2 , 3", 1, "2 Statement"),
    (b'BU_: A\nSG_ S : 0|8@1+ (1,0) [0|0] ""', 2, "2 Statement"),
    (signal(b': 0|8@2+ (1,0) [0|0] ""'), 1, "2 Statement"),
    (signal(b': 0|8@1E30+ (1,0) [0|0] ""'), 1, "2 Statement"),
    (signal(b': 0|8@1+ (- -1,0) [0|0] ""'), 1, "2 Statement"),
    (signal(b'M5 : 0|8@1+ (1,0) [0|0] ""'), 1, "2 Statement"),
    (signal(b'mM : 0|8@1+ (1,0) [0|0] ""'), 1, "2 Statement"),
    (signal(b'm5MM : 0|8@1+ (1,0) [0|0] ""'), 1, "2 Statement"),
    (signal(b': 0|8@1+ (1,0) [0|0] "" ,A'), 1, "2 Statement"),
    (signal(b': 0|8@1+ (1,0) [0|0] "" A,,B'), 1, "2 Statement"),
    (signal(b': 65536|8@1+ (1,0) [0|0] ""'), 1, "6 Limit"),
    (signal(b': 0|14281@1+ (1,0) [0|0] ""'), 1, "6 Limit"),
    (signal(b': 0|8@1+ (1E-99999999999999999999,0) [0|0] ""'), 1, "2 Statement"),
    (b'VAL_TABLE_ T\n-\n9223372036854775809 "a" ;', 3, "6 Limit"),
    (b'VAL_TABLE_ T 18446744073709551616 "a" ;', 1, "6 Limit"),
    (b'VAL_TABLE_ T 1.5 "a" ;', 1, "2 Statement"),
    (b"VAL_ EV_ ;", 1, "2 Statement"),
    (b"BA_ EV_ ;", 1, "2 Statement"),
    (b'BA_DEF_ "x" INT 1;', 1, "2 Statement"),
    (b'BA_DEF_ "x" int;', 1, "2 Statement"),
    (b'BA_DEF_ "x" ENUM;', 1, "2 Statement"),
    (b'BA_DEF_DEF_ EV_ "x" 1;', 1, "2 Statement"),
    (b"SIG_VALTYPE_ 1 S : 3;", 1, "6 Limit"),
    (b"SG_MUL_VAL_ 1 S T ;", 1, "2 Statement"),
    (b"SG_MUL_VAL_ 1 S T 1-2, ;", 1, "2 Statement"),
    (b"SG_MUL_VAL_ 1 S T 1-18446744073709551616;", 1, "6 Limit"),
    (b"EV_ {0};", 1, "1 Token"),
    (b"EV_ 1 2\n", 2, "2 Statement"),
    (b"BU_SG_REL_ 1;", 1, "2 Statement"),
    (b'EV_ x "a\\\\"', 1, "1 Token"),
    (b'EV_ x\n"a\n', 2, "1 Token"),
    (b"// one\r two\n//\n\r\nEV_ x / y", 4, "1 Token"),
    (b"\n\n.E5", 3, "1 Token"),
    (b"EV_ 1 .", 1, "1 Token"),
    (b"EV_ a\0b", 1, "1 Token"),
    (b"EV_ N\x80", 1, "1 Token"),
    (b"EV_ a\x0bb", 1, "1 Token"),
    (b"EV_ a\\", 1, "1 Token"),
    (b"EV_ a;[", 1, "2 Statement"),
    # many parts or digits
    (b"BO_ 1 A: 8 N\n" * 65_536, 65_536, "4 MessagesFull"),
    (signals(1000), 1001, "5 SignalsFull"),
    (b"BO_ " + b"9" * 100_000 + b" A: 8 N", 1, "6 Limit"),
    (b"BO_ 1." + b"0" * 100_000 + b"1 A: 8 N", 1, "2 Statement"),
    (signal(b": 0|8@1+ (" + b"9" * 100_000 + b',0) [0|0] ""', b"\n "), 2, "2 Statement"),
    (b"BO_ 1E" + b"9" * 1_000_000 + b" A: 8 N", 1, "6 Limit"),
    (b"BO_ 1E-" + b"9" * 1_000_000 + b" A: 8 N", 1, "2 Statement"),
    (signal(b": 0|8@1+ (1E" + b"9" * 1_000_000 + b',0) [0|0] ""', b"\n "), 2, "2 Statement"),
    (signal(b": 0|8@1+ (1,0) [-1E-" + b"9" * 1_000_000 + b'|0] ""', b"\n "), 2, "2 Statement"),
    (b'CM_ "' + b'\\"' * 500_000, 1, "1 Token"),
    (b"BU_:" + b"\n// A\n" * 500_000 + b"8", 1_000_001, "2 Statement"),
]


class ReadCase(ProgramCase):
    def printed(self, text: bytes) -> Ended:
        return self.ended("print", put(self.folder, "text.dbc", text))


@cases(SPELLED)
class Spelled(ReadCase):
    """Texts that are read, and printed in their canonical form, which is printed as it is."""

    def row(self, name: str, text: bytes, canonical: bytes | None) -> None:
        wanted = (DONE, text if canonical is None else canonical, b"")
        self.check_equal(name, self.printed(text), wanted)
        if wanted[1] != text:
            self.check_equal(name + ", again", self.printed(wanted[1]), wanted)


@cases(REJECTED)
class Rejected(ReadCase):
    """Texts that are rejected, each with the line and the cause of its first fault."""

    def row(self, text: bytes, line: int, cause: str) -> None:
        fault = b"candesk: line %d: %s\n" % (line, cause.encode())
        self.check_equal(f"{text[:60]!r}", self.printed(text), (REFUSED, b"", fault))


class Beginnings(ReadCase):
    """The example, and all its beginnings."""

    def test_up_to_the_message(self) -> None:
        self.check_equal("the example up to its message", self.printed(EXAMPLE[:38]), (DONE, EMPTY + EXAMPLE[:38], b""))

    def test_whole(self) -> None:
        self.check_equal("the example", self.printed(EXAMPLE), (DONE, EMPTY + EXAMPLE, b""))

    def test_each_beginning(self) -> None:
        """Each is accepted, or rejected since it ends too early."""
        wrong = [end for end in range(len(EXAMPLE) + 1) if not is_beginning(self.printed(EXAMPLE[:end]))]
        self.check_equal("beginnings of the example that are neither", wrong, [])


def is_beginning(got: Ended) -> bool:
    status, _, error = got
    return status == DONE or (status == REFUSED and error.endswith((b": 1 Token\n", b": 2 Statement\n")))


if __name__ == "__main__":
    main()
