#!/usr/bin/env python3
"""Lines of logs that the program decodes to objects of JSON, each with what is wanted of it.

The objects were worked out by hand. Each is compared byte for byte, is read by Python's `json` with exact numbers, and has to mean
what `decode` without --json writes for its line. Then so do the objects of 100,000 random lines, and of the examples.
"""

from __future__ import annotations

import os
import random
import sys
from collections.abc import Sequence
from typing import Final

sys.dont_write_bytecode = True
sys.path.insert(0, os.path.dirname(os.path.realpath(__file__)))

from json_objects import Wrong, decoded, read  # noqa: E402
from log_texts import TEXT, at_random, logged_examples  # noqa: E402
from test_support import DONE, ProgramCase, cases, content, main, put  # noqa: E402

DATA = b'"extended":false,"kind":"data","data":"%s",'
CCVS = (
    b'"interface":"can0","id":419361073,"extended":true,"kind":"data","data":"%s","message":"CCVS","number":2566844672,'
    b'"j1939":{"pgn":65265,"priority":6,"source":49},'
)


def line_of(number: int, name: bytes, data: bytes, signals: bytes) -> bytes:
    head = b'{"time":1.5,"interface":"c","id":%d,' % number
    return head + DATA % data + b'"message":"%s","number":%d,"signals":%s}' % (name, number, signals)


# a line, and its object
Row = tuple[bytes, bytes]
ROWS: Final[list[Row]] = [
    # what is not a frame
    (b"", b'{"line":""}'),
    (b"no frame", b'{"line":"no frame"}'),
    (b'"\\\t/\x00\x1f\x7f', b'{"line":"\\"\\\\\\t/\\u0000\\u001f\x7f"}'),
    (b"\xc2\xb0", b'{"line":"\xc2\xb0"}'),
    (b"\xb0 \xff", b'{"line":"\xc2\xb0 \xc3\xbf","line_hex":"B020FF"}'),
    (b"(1.5) c 123", b'{"line":"(1.5) c 123"}'),
    (b"(1.5) c 123#0", b'{"line":"(1.5) c 123#0"}'),
    # timestamps, interfaces, and what follows
    (b"(0.000000) can0 18FEF131#FF8014FFFFFFFFFF", b'{"time":0.000000,' + CCVS % b"FF8014FFFFFFFFFF"
        + b'"signals":{"Speed":{"value":20.5,"unit":"km/h"},"Brake":{"value":3}}}'),
    (b"(0002.25) can0 18FEF131#FF80141FFFFFFFFF", b'{"time":2.25,' + CCVS % b"FF80141FFFFFFFFF"
        + b'"signals":{"Speed":{"value":20.5,"unit":"km/h"},"Brake":{"value":1,"name":"pressed"}}}'),
    (b"(00.50) can0 18FEF131#ffffff2fffffffff", b'{"time":0.50,' + CCVS % b"FFFFFF2FFFFFFFFF"
        + b'"signals":{"Speed":{"value":255.99609375,"unit":"km/h"},"Brake":{"value":2,"name":""}}}'),
    (b"(1.5)  v\xfc 7FF#",
        b'{"time":1.5,"interface":"v\xc3\xbc","interface_hex":"76FC","id":2047,' + DATA % b"" + b'"not_decoded":"unknown id"}'),
    (b"(1.5) c 7FF#00 T", b'{"time":1.5,"interface":"c","id":2047,' + DATA % b"00" + b'"not_decoded":"unknown id","rest":"T"}'),
    (b"(1.5) c 7FF#00  R \xff ", b'{"time":1.5,"interface":"c","id":2047,' + DATA % b"00"
        + b'"not_decoded":"unknown id","rest":"R \xc3\xbf ","rest_hex":"5220FF20"}'),
    # kinds of frames
    (b"(1.5) c 123#R", b'{"time":1.5,"interface":"c","id":291,"extended":false,"kind":"remote","not_decoded":"remote frame"}'),
    (b"(1.5) c 20000080#0000000000000000",
        b'{"time":1.5,"interface":"c","id":128,"extended":true,"kind":"error","not_decoded":"error frame"}'),
    (b"(1.5) c 124##100",
        b'{"time":1.5,"interface":"c","id":292,"extended":false,"kind":"fd","data":"00","message":"Odd","number":292,'
        b'"signals":{"Odd":{"value":0,"unit":"a\\\\\\"b\\r\\n\\u0001\\\\\x7f"}}}'),
    (b"(1.5) c 00000124#00",
        b'{"time":1.5,"interface":"c","id":292,"extended":true,"kind":"data","data":"00","not_decoded":"unknown id"}'),
    # groups with and without a destination
    (b"(1) c 18EC2131#000102", b'{"line":"(1) c 18EC2131#000102"}'),
    (b"(1.0) c 18EC2131#00EE00",
        b'{"time":1.0,"interface":"c","id":418128177,"extended":true,"kind":"data","data":"00EE00","message":"Request",'
        b'"number":2565603582,"j1939":{"pgn":60416,"priority":6,"source":49,"destination":33},'
        b'"signals":{"Group":{"value":60928}}}'),
    (b"(1.0) c 00EC00FF#0000",
        b'{"time":1.0,"interface":"c","id":15466751,"extended":true,"kind":"data","data":"0000","message":"Request",'
        b'"number":2565603582,"j1939":{"pgn":60416,"priority":0,"source":255,"destination":0},'
        b'"not_decoded":"wrong size","size":3}'),
    # units, signs, and value descriptions
    (b"(1.5) c 123#F600", b'{"time":1.5,"interface":"c","id":291,' + DATA % b"F600" + b'"message":"Units","number":291,"signals":{'
        b'"Latin":{"value":-1,"unit":"\xc2\xb0C","unit_hex":"B043"},"Utf":{"value":-40,"unit":"\xc2\xb0C"}}}'),
    (b"(1.5) c 123#017F", b'{"time":1.5,"interface":"c","id":291,' + DATA % b"017F" + b'"message":"Units","number":291,"signals":{'
        b'"Latin":{"value":0.1,"unit":"\xc2\xb0C","unit_hex":"B043"},"Utf":{"value":23.5,"unit":"\xc2\xb0C"}}}'),
    (b"(1.5) c 123#01",
        b'{"time":1.5,"interface":"c","id":291,' + DATA % b"01"
        + b'"message":"Units","number":291,"not_decoded":"wrong size","size":2}'),
    (b"(1.5) c 125#FFFFFFFFFFFFFFFF", line_of(293, b"Wide", b"FFFFFFFFFFFFFFFF", b'{"Wide":{"value":1844674407370955161.5}}')),
    (b"(1.5) c 125#0100000000000000", line_of(293, b"Wide", b"0100000000000000", b'{"Wide":{"value":0.1}}')),
    (b"(1.5) c 126#0000000000000080", line_of(294, b"Signed", b"0000000000000080", b'{"Signed":{"value":-922337203685477580.8}}')),
    (b"(1.5) c 126#FFFFFFFFFFFFFFFF", line_of(294, b"Signed", b"FFFFFFFFFFFFFFFF", b'{"Signed":{"value":-0.1}}')),
    (b"(1.5) c 127##1010203040506070809",
        line_of(295, b"Causes", b"010203040506070809", b'{"Real":{"refused":"float"},"Long":{"refused":"long"},'
        b'"Fine":{"refused":"scale"},"Far":{"refused":"outside"}}').replace(b'"data","data"', b'"fd","data"')),
    (b"(1.5) c 128#010203", line_of(296, b"Mux", b"010203", b'{"Sel":{"value":1,"name":"one"},"One":{"value":2}}')),
    (b"(1.5) c 128#020203",
        line_of(296, b"Mux", b"020203", b'{"Sel":{"value":2,"name":"zw\xc3\xb6lf","name_hex":"7A77F66C66"},"Two":{"value":770}}')),
    (b"(1.5) c 128#030203", line_of(296, b"Mux", b"030203", b'{"Sel":{"value":3}}')),
    (b"(1.5) c 128#0302030405", line_of(296, b"Mux", b"0302030405", b'{"Sel":{"value":3}}')),
    (b"(1.5) c 129#", line_of(297, b"None", b"", b"{}")),
]

# lines, and their objects with --short
SHORT: Final[list[Row]] = [
    (b"(1.5) c 128#", line_of(296, b"Mux", b"", b"{}")),
    (b"(1.5) c 128#02", line_of(296, b"Mux", b"02", b'{"Sel":{"value":2,"name":"zw\xc3\xb6lf","name_hex":"7A77F66C66"}}')),
    (b"(1.5) c 128#0103", line_of(296, b"Mux", b"0103", b'{"Sel":{"value":1,"name":"one"},"One":{"value":3}}')),
    (b"(1.5) c 123#01", line_of(291, b"Units", b"01", b'{"Latin":{"value":0.1,"unit":"\xc2\xb0C","unit_hex":"B043"}}')),
    (b"(1.0) c 18EC2131#0000",
        b'{"time":1.0,"interface":"c","id":418128177,"extended":true,"kind":"data","data":"0000","message":"Request",'
        b'"number":2565603582,"j1939":{"pgn":60416,"priority":6,"source":49,"destination":33},"signals":{}}'),
    (b"hello", b'{"line":"hello"}'),
    (b"(1.5) c 123#R", b'{"time":1.5,"interface":"c","id":291,"extended":false,"kind":"remote","not_decoded":"remote frame"}'),
]
# the options of the first rows, and of those of truncated frames
OPTIONS: Final[tuple[list[str], ...]] = ([], ["--short"])


class ObjectCase(ProgramCase):
    """Runs on one database, with a text for each kind of value."""

    def database(self) -> str:
        return put(self.folder, "a.dbc", TEXT)

    def check_object(self, line: bytes, wanted: bytes, options: Sequence[str] = ()) -> None:
        status, output, errors = self.ended("decode", "--json", *options, self.database(), stdin=line + b"\n")
        is_wanted = (status, output, errors) == (DONE, wanted + b"\n", b"")
        self.check(repr(line), None if is_wanted else f"{output!r}, not {wanted!r} {errors!r}")

    def fault_of(self, database: str, log: bytes, options: Sequence[str] = ()) -> str | None:
        """None if each object means what the decoded line does, else the first that doesn't."""
        plain = self.ended("decode", *options, database, stdin=log)
        objects = self.ended("decode", "--json", *options, database, stdin=log)
        if (plain[0], objects[0]) != (DONE, DONE):
            return f"statuses {plain[0]} and {objects[0]}"
        bodies = [line.removesuffix(b"\r") for line in log.split(b"\n")]
        *lines, last = objects[1].split(b"\n")
        *wanted_lines, _ = plain[1].split(b"\n")
        if last or len(lines) != len(wanted_lines):
            return f"{len(lines)} lines and {last!r}"
        for body, line, wanted in zip(bodies, lines, wanted_lines):
            try:
                if decoded(read(line), body) != wanted:
                    return f"{line!r} for {wanted!r}"
            except (Wrong, ValueError, KeyError) as error:
                return f"{line!r}: {error!r}"
        return None


@cases(ROWS)
class Objects(ObjectCase):
    def row(self, line: bytes, wanted: bytes) -> None:
        self.check_object(line, wanted)


@cases(SHORT)
class ShortObjects(ObjectCase):
    """Objects of truncated frames."""

    def row(self, line: bytes, wanted: bytes) -> None:
        self.check_object(line, wanted, ["--short"])


@cases(logged_examples())
class Examples(ObjectCase):
    def row(self, name: str, database: str, log: str) -> None:
        self.check(name, self.fault_of(database, content(log)))


class Lines(ObjectCase):
    """Objects that mean what `decode` writes without --json."""

    def test_rows(self) -> None:
        for rows, options in zip((ROWS, SHORT), OPTIONS):
            log = b"".join(line + b"\r\n" for line, _ in rows)
            self.check("the rows mean what decode writes", self.fault_of(self.database(), log, options))

    def test_random_lines(self) -> None:
        dice = random.Random(20261128)
        for options in OPTIONS:
            self.check("random lines", self.fault_of(self.database(), at_random(dice, 50_000), options))


if __name__ == "__main__":
    main()
