#!/usr/bin/env python3
"""Databases of which the program reports what names their parts, each with the bytes that are wanted.

A row has a text and the objects that `dump --at` has to write, in order. Instead of `at` each has the bytes that it is about, which
were marked by hand; their offsets are found in the text.
"""

from __future__ import annotations

import json
import os
import sys
from typing import Final

sys.dont_write_bytecode = True
sys.path.insert(0, os.path.dirname(os.path.realpath(__file__)))

from marked_texts import Mark, range_of  # noqa: E402
from test_support import DEVICE, DONE, REFUSED, Ended, ProgramCase, cases, main  # noqa: E402

# an object without `at`, and the bytes of each range
Marked = tuple[dict[str, object], tuple[Mark, ...]]

MOTOR: Final = {"number": 500, "message": "Motor"}
SPEED: Final = MOTOR | {"signal": "Speed"}
ROWS: Final[tuple[tuple[bytes, tuple[Marked, ...]], ...]] = (
    (b"", ()),
    (b'VERSION "BO_ 1 A: 8 N"\nNS_ : CM_ BA_\nBS_:\nBU_: A B\n', ()),
    (
        b'BU_: Ecu\nBO_ 500 Motor: 2 Ecu\n SG_ Speed : 0|16@1+ (2,5) [0|0] "rpm" Dash,Brakes\n',
        (
            (MOTOR, (b"BO_ 500 Motor",)),
            (MOTOR | {"node": "Ecu"}, ((b"Ecu", 1),)),
            (SPEED, (b"SG_ Speed",)),
            (SPEED | {"node": "Dash"}, (b"Dash",)),
            (SPEED | {"node": "Brakes"}, (b"Brakes",)),
        ),
    ),
    # bytes are counted, not characters; line ends, blanks and comments may be inside of a key
    (
        b'VERSION "\xc3\xa4\xc3\xb6"\r\nBO_ // "\xc3\xbc"\r\n 0500\r\n\tMotor:2Ecu '
        b'SG_ Speed m1M:0|16@1+(2,5)[0|0]"SG_ \xb0"Ecu Ecu',
        (
            (MOTOR, (b'BO_ // "\xc3\xbc"\r\n 0500\r\n\tMotor',)),
            (MOTOR | {"node": "Ecu"}, ((b"Ecu", 0),)),
            (SPEED, (b"SG_ Speed",)),
            (SPEED | {"node": "Ecu"}, ((b"Ecu", 1),)),
            (SPEED | {"node": "Ecu"}, ((b"Ecu", 1),)),
        ),
    ),
    # entries of each kind, and statements that are kept verbatim
    (
        b'VAL_TABLE_ Gears 0 "N" ; CM_ "of all"; CM_ BU_ Ecu "c"; CM_ BO_ 7 "c"; CM_ SG_ 7 Gear "c"; CM_ EV_ E "c";\n'
        b'BA_DEF_ "A" INT 0 1; BA_DEF_ SG_ "B" INT 0 1; BA_DEF_DEF_ "A" 1;\n'
        b'BA_ "A" 1; BA_ "A" BU_ Ecu 1; BA_ "B" BO_ 7 1; BA_ "C" SG_ 7 Gear 1;\n'
        b'VAL_ 7 Gear 0 "N" ; VAL_ Env 0 "off" ; SIG_VALTYPE_ 7 Gear : 1; SG_MUL_VAL_ 7 Gear Mode 1-1, 3-4;\n'
        b"SIG_GROUP_ 7 Group 1 : Gear;\n",
        (
            ({"entry": "VAL_TABLE_", "name": "Gears"}, (b"VAL_TABLE_ Gears",)),
            ({"entry": "CM_"}, ((b"CM_", 0),)),
            ({"entry": "CM_", "node": "Ecu"}, (b"CM_ BU_ Ecu",)),
            ({"entry": "CM_", "number": 7}, (b"CM_ BO_ 7",)),
            ({"entry": "CM_", "number": 7, "signal": "Gear"}, (b"CM_ SG_ 7 Gear",)),
            ({"entry": "BA_DEF_", "name": "A"}, (b'BA_DEF_ "A"',)),
            ({"entry": "BA_DEF_", "object": "signal", "name": "B"}, (b'BA_DEF_ SG_ "B"',)),
            ({"entry": "BA_DEF_DEF_", "name": "A"}, (b'BA_DEF_DEF_ "A"',)),
            ({"entry": "BA_", "name": "A"}, ((b'BA_ "A"', 0),)),
            ({"entry": "BA_", "name": "A", "node": "Ecu"}, (b'BA_ "A" BU_ Ecu',)),
            ({"entry": "BA_", "name": "B", "number": 7}, (b'BA_ "B" BO_ 7',)),
            ({"entry": "BA_", "name": "C", "number": 7, "signal": "Gear"}, (b'BA_ "C" SG_ 7 Gear',)),
            ({"entry": "VAL_", "number": 7, "signal": "Gear"}, (b"VAL_ 7 Gear",)),
            ({"entry": "SIG_VALTYPE_", "number": 7, "signal": "Gear"}, (b"SIG_VALTYPE_ 7 Gear",)),
            ({"entry": "SG_MUL_VAL_", "number": 7, "signal": "Gear"}, (b"SG_MUL_VAL_ 7 Gear", b"Mode")),
        ),
    ),
    # messages of one number, each with signals of its own; entries before the messages that they are for
    (
        b'VAL_ 1 S 0 "a" ;\nBO_ 1 A: 1 N\n SG_ S : 0|8@1+ (1,0) [0|0] "" R\nCM_ BO_ 1 "c";\nBO_ 1 B: 1 M\n'
        b' SG_ T : 0|8@1+ (1,0) [0|0] "" Q\n SG_ S : 0|8@1+ (1,0) [0|0] "" P\n',
        (
            ({"number": 1, "message": "A"}, (b"BO_ 1 A",)),
            ({"number": 1, "message": "A", "node": "N"}, (b"N",)),
            ({"number": 1, "message": "A", "signal": "S"}, ((b"SG_ S", 0),)),
            ({"number": 1, "message": "A", "signal": "S", "node": "R"}, (b"R",)),
            ({"number": 1, "message": "B"}, (b"BO_ 1 B",)),
            ({"number": 1, "message": "B", "node": "M"}, ((b"M", 1),)),
            ({"number": 1, "message": "B", "signal": "T"}, (b"SG_ T",)),
            ({"number": 1, "message": "B", "signal": "T", "node": "Q"}, (b"Q",)),
            ({"number": 1, "message": "B", "signal": "S"}, ((b"SG_ S", 1),)),
            ({"number": 1, "message": "B", "signal": "S", "node": "P"}, (b"P",)),
            ({"entry": "CM_", "number": 1}, (b"CM_ BO_ 1",)),
            ({"entry": "VAL_", "number": 1, "signal": "S"}, (b"VAL_ 1 S",)),
        ),
    ),
)


def wanted(text: bytes, marked: tuple[Marked, ...]) -> bytes:
    """The lines of the objects."""
    objects = [members | {"at": [range_of(text, it) for it in ranges]} for members, ranges in marked]
    return b"".join(json.dumps(it, separators=(",", ":")).encode() + b"\n" for it in objects)


class LocationCase(ProgramCase):
    def located(self, text: bytes) -> Ended:
        return self.ended("dump", "--at", "/dev/stdin", stdin=text)


@cases(ROWS)
class Locations(LocationCase):
    def row(self, text: bytes, marked: tuple[Marked, ...]) -> None:
        self.check_equal(f"{text!r}", self.located(text), (DONE, wanted(text, marked), b""))


class Lines(LocationCase):
    def test_lines_written_out(self) -> None:
        """Lines as they are written, byte for byte."""
        text = b'BO_ 1 A: 1 N\n SG_ S : 0|8@1+ (1,0) [0|0] "" R\n'
        lines = (
            b'{"number":1,"message":"A","at":[{"line":1,"from":0,"to":7}]}\n'
            b'{"number":1,"message":"A","node":"N","at":[{"line":1,"from":11,"to":12}]}\n'
            b'{"number":1,"message":"A","signal":"S","at":[{"line":2,"from":14,"to":19}]}\n'
            b'{"number":1,"message":"A","signal":"S","node":"R","at":[{"line":2,"from":44,"to":45}]}\n'
        )
        self.check_equal("lines written out", self.located(text), (DONE, lines, b""))

    def test_rejected_text(self) -> None:
        self.check_equal("a rejected text", self.located(b"BO_ 1 A: 1"), (REFUSED, b"", b"candesk: line 1: 2 Statement\n"))

    def test_missing_file(self) -> None:
        status, output, _ = self.ended("dump", "--at", "/nowhere")
        self.check_equal("a missing file", (status, output), (DEVICE, b""))


if __name__ == "__main__":
    main()
