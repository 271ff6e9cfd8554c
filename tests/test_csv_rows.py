#!/usr/bin/env python3
"""Lines of logs that the program decodes to rows of CSV, each with what is wanted of it.

The rows were worked out by hand. Each is compared byte for byte. Then all rows of 100,000 random lines, and of the examples, are
read by Python's `csv`, and have to mean what the objects of `decode --json` do.
"""

from __future__ import annotations

import os
import random
import sys
from collections.abc import Sequence
from typing import Final

sys.dont_write_bytecode = True
sys.path.insert(0, os.path.dirname(os.path.realpath(__file__)))

from json_objects import HEADER, read, rows_in, rows_of  # noqa: E402
from log_texts import TEXT, at_random, logged_examples  # noqa: E402
from test_support import DONE, ProgramCase, cases, content, main, put  # noqa: E402

FIRST = b"time,interface,id,message,signal,value,unit,name\n"

# a line, and its rows
Row = tuple[bytes, bytes]
ROWS: Final[list[Row]] = [
    # what is not decoded
    (b"", b""),
    (b"no frame", b""),
    (b"(1.5) c 7FF#00", b""),
    (b"(1.5) c 123#R", b""),
    (b"(1.5) c 20000080#0000000000000000", b""),
    (b"(1.5) c 00000124#00", b""),
    (b"(1.5) c 123#01", b""),
    # timestamps, interfaces, and what follows
    (
        b"(0002.25) can0 18FEF131#FF80141FFFFFFFFF",
        b"2.25,can0,419361073,CCVS,Speed,20.5,km/h,\n2.25,can0,419361073,CCVS,Brake,1,,pressed\n",
    ),
    (
        b"(00.50) can0 18FEF131#ffffff2fffffffff",
        b"0.50,can0,419361073,CCVS,Speed,255.99609375,km/h,\n0.50,can0,419361073,CCVS,Brake,2,,\n",
    ),
    (b"(0.000000)  v\xfc 124#00 T", b'0.000000,v\xc3\xbc,292,Odd,Odd,0,"a\\""b\r\n\x01\\\x7f",\n'),
    (b'(1.5) "a,b" 124##101', b'1.5,"""a,b""",292,Odd,Odd,1,"a\\""b\r\n\x01\\\x7f",\n'),
    # units, signs, and value descriptions
    (b"(1.5) c 123#F600", b"1.5,c,291,Units,Latin,-1,\xc2\xb0C,\n1.5,c,291,Units,Utf,-40,\xc2\xb0C,\n"),
    (b"(1.5) c 125#FFFFFFFFFFFFFFFF", b"1.5,c,293,Wide,Wide,1844674407370955161.5,,\n"),
    (b"(1.5) c 126#0000000000000080", b"1.5,c,294,Signed,Signed,-922337203685477580.8,,\n"),
    (b"(1.5) c 126#FFFFFFFFFFFFFFFF", b"1.5,c,294,Signed,Signed,-0.1,,\n"),
    (
        b"(1.5) c 127##1010203040506070809",
        b"1.5,c,295,Causes,Real,?float,,\n1.5,c,295,Causes,Long,?long,,\n1.5,c,295,Causes,Fine,?scale,,\n"
        b"1.5,c,295,Causes,Far,?outside,,\n",
    ),
    (b"(1.5) c 128#010203", b"1.5,c,296,Mux,Sel,1,,one\n1.5,c,296,Mux,One,2,,\n"),
    (b"(1.5) c 128#020203", b"1.5,c,296,Mux,Sel,2,,zw\xc3\xb6lf\n1.5,c,296,Mux,Two,770,,\n"),
    (b"(1.5) c 128#030203", b"1.5,c,296,Mux,Sel,3,,\n"),
    (b"(1.5) c 129#", b""),
]

# lines, and their rows with --short
SHORT: Final[list[Row]] = [
    (b"(1.5) c 128#", b""),
    (b"(1.5) c 128#02", b"1.5,c,296,Mux,Sel,2,,zw\xc3\xb6lf\n"),
    (b"(1.5) c 123#01", b"1.5,c,291,Units,Latin,0.1,\xc2\xb0C,\n"),
    (b"(1.5) c 123#R", b""),
]
# the options of the first rows, and of those of truncated frames
OPTIONS: Final[tuple[list[str], ...]] = ([], ["--short"])


class RowCase(ProgramCase):
    """Runs on one database, with a text for each kind of value."""

    def database(self) -> str:
        return put(self.folder, "a.dbc", TEXT)

    def check_rows(self, line: bytes, wanted: bytes, options: Sequence[str] = ()) -> None:
        ended = self.ended("decode", "--csv", *options, self.database(), stdin=line + b"\n")
        is_wanted = ended == (DONE, FIRST + wanted, b"")
        self.check(repr(line), None if is_wanted else f"{ended[1]!r}, not {FIRST + wanted!r} {ended[2]!r}")

    def fault_of(self, database: str, log: bytes, options: Sequence[str] = ()) -> str | None:
        """None if the rows mean what the objects do, else the first that doesn't."""
        objects = self.ended("decode", "--json", *options, database, stdin=log)
        rows = self.ended("decode", "--csv", *options, database, stdin=log)
        if (objects[0], rows[0]) != (DONE, DONE):
            return f"statuses {objects[0]} and {rows[0]}"
        wanted = [HEADER] + [row for line in objects[1].split(b"\n") if line for row in rows_of(read(line))]
        found = rows_in(rows[1])
        for one, other in zip(found, wanted):
            if one != other:
                return f"{one!r} for {other!r}"
        return None if len(found) == len(wanted) else f"{len(found)} rows for {len(wanted)}"


@cases(ROWS)
class Rows(RowCase):
    def row(self, line: bytes, wanted: bytes) -> None:
        self.check_rows(line, wanted)


@cases(SHORT)
class ShortRows(RowCase):
    """Rows of truncated frames."""

    def row(self, line: bytes, wanted: bytes) -> None:
        self.check_rows(line, wanted, ["--short"])


@cases(logged_examples())
class Examples(RowCase):
    def row(self, name: str, database: str, log: str) -> None:
        self.check(name, self.fault_of(database, content(log)))


class Lines(RowCase):
    def test_no_line(self) -> None:
        is_header = self.ended("decode", "--csv", self.database()) == (DONE, FIRST, b"")
        self.check("no line", None if is_header else "no header")

    def test_random_lines(self) -> None:
        dice = random.Random(20261129)
        for options in OPTIONS:
            self.check("random lines", self.fault_of(self.database(), at_random(dice, 50_000), options))


if __name__ == "__main__":
    main()
