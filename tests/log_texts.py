"""A database whose messages show each form of an object and a row, random lines of its log, and the examples that have a log."""

from __future__ import annotations

import os
import random

from test_support import EXAMPLES

# J1939 messages of both kinds of PDU, all causes, value descriptions, units that are UTF-8 and Latin-1 and have control bytes,
# and 64 bits
TEXT = (
    b"BU_: E\n"
    b'BO_ 2566844672 CCVS: 8 E\n SG_ Speed : 8|16@1+ (0.00390625,0) [0|0] "km/h" E\n SG_ Brake : 28|2@1+ (1,0) [0|0] "" E\n'
    b'BO_ 2565603582 Request: 3 E\n SG_ Group : 0|24@1+ (1,0) [0|0] "" E\n'
    b'BO_ 291 Units: 2 E\n SG_ Latin : 0|8@1- (0.1,0) [0|0] "\xb0C" E\n SG_ Utf : 8|8@1+ (0.5,-40) [0|0] "\xc2\xb0C" E\n'
    b'BO_ 292 Odd: 1 E\n SG_ Odd : 0|8@1+ (1,0) [0|0] "a\\"b\r\n\x01\\\x7f" E\n'
    b'BO_ 293 Wide: 8 E\n SG_ Wide : 0|64@1+ (0.1,0) [0|0] "" E\n'
    b'BO_ 294 Signed: 8 E\n SG_ Signed : 0|64@1- (0.1,0) [0|0] "" E\n'
    b'BO_ 295 Causes: 9 E\n SG_ Real : 0|32@1+ (1,0) [0|0] "V" E\n SG_ Long : 0|65@1+ (1,0) [0|0] "V" E\n'
    b' SG_ Fine : 0|8@1+ (1E-40,0) [0|0] "V" E\n SG_ Far : 70|8@1+ (1,0) [0|0] "V" E\n'
    b'BO_ 296 Mux: 3 E\n SG_ Sel M : 0|8@1+ (1,0) [0|0] "" E\n SG_ One m1 : 8|8@1+ (1,0) [0|0] "" E\n'
    b' SG_ Two m2 : 8|16@1+ (1,0) [0|0] "" E\n'
    b"BO_ 297 None: 0 E\n"
    b'CM_ "none";\n'
    b'BA_DEF_ BO_ "VFrameFormat" ENUM "StandardCAN","ExtendedCAN","reserved","J1939PG";\n'
    b'BA_DEF_DEF_ "VFrameFormat" "StandardCAN";\n'
    b'BA_ "VFrameFormat" BO_ 2566844672 3;\nBA_ "VFrameFormat" BO_ 2565603582 3;\n'
    b'VAL_ 2566844672 Brake 0 "released" 1 "pressed" 2 "" ;\nVAL_ 296 Sel 1 "one" 2 "zw\xf6lf" 2 "twelve" ;\n'
    b"SIG_VALTYPE_ 295 Real : 1;\n"
)


def at_random(dice: random.Random, count: int) -> bytes:
    """Random lines of a log, most with CAN identifiers of the database."""
    identifiers = [b"18FEF131", b"0CEC21FE", b"123", b"124", b"125", b"126", b"127", b"128", b"129", b"7FF", b"00000123"]
    lines = []
    for _ in range(count):
        data = bytes(dice.randrange(256) for _ in range(dice.choice((0, 1, 2, 3, 8, 8, 8)))).hex().encode()
        frame = dice.choice((b"#" + data, b"#" + data, b"##1" + data, b"#R", b"#" + data + b"_9"))
        rest = dice.choice((b"", b"", b"", b" R", b" T", b" \xe9", b"  a b"))
        interface, identifier = dice.choice((b"can0", b"c", b"\xfc")), dice.choice(identifiers)
        stamp = b"(%d.%06d)" % (dice.randrange(2_000_000_000), dice.randrange(1_000_000))
        line = b"%s %s %s%s%s" % (stamp, interface, identifier, frame, rest)
        if dice.random() < 0.05:
            at = dice.randrange(len(line))
            line = line[:at] + bytes([dice.choice([it for it in range(256) if it != 10])]) + line[at + 1 :]
        lines.append(line)
    return b"\n".join(lines) + b"\n"


def logged_examples() -> list[tuple[str, str, str]]:
    """The examples that have a log: the name of each, its database and its log."""
    found = []
    for name in sorted(os.listdir(EXAMPLES)):
        log = os.path.join(EXAMPLES, name.replace(".dbc", ".log"))
        if name.endswith(".dbc") and os.path.exists(log):
            found.append((name, os.path.join(EXAMPLES, name), log))
    return found
