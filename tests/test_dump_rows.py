#!/usr/bin/env python3
"""Databases that the program writes as objects of JSON, each with what is wanted of it.

The objects were worked out by hand. Each is compared byte for byte. Then the objects of the examples, and of the databases of the
outside cases, have to mean what `dump` draws and what `print` prints.
"""

from __future__ import annotations

import glob
import os
import sys

sys.dont_write_bytecode = True
sys.path.insert(0, os.path.dirname(os.path.realpath(__file__)))

import database_objects  # noqa: E402
from json_objects import Wrong  # noqa: E402
from test_support import CASES, DONE, EXAMPLES, REFUSED, ROOT, ProgramCase, cases, content, main  # noqa: E402

REST = {
    "version": '""', "symbols": "[]", "bit_timing": "null", "nodes": "[]", "value_tables": "[]", "definitions": "[]",
    "defaults": "[]", "comments": "[]", "attributes": "[]", "values": "[]", "value_types": "[]", "multiplexing": "[]",
    "kept": "[]",
}  # fmt: skip
MESSAGE = {
    "name": '"A"', "number": "1", "id": "1", "extended": "false", "size": "1", "sender": '"N"', "pgn": "null",
    "comment": "null", "attributes": "[]", "signals": "{}",
}  # fmt: skip
SIGNAL = {
    "start": "0", "length": "8", "order": '"intel"', "signed": "false", "factor": "1", "offset": "0", "minimum": "0",
    "maximum": "0", "unit": '""', "receivers": '["R"]', "tag": "null", "positions": "[0,1,2,3,4,5,6,7]", "refused": "null",
    "chain": "[]", "values": "[]", "comment": "null", "attributes": "[]",
}  # fmt: skip


def item(members: dict[str, str], **changed: str) -> str:
    """An object of these members, some with other values; a text that goes on after its value adds members."""
    return "{" + ",".join(f'"{key}":{changed.get(key, value)}' for key, value in members.items()) + "}"


def message(**changed: str) -> str:
    return item(MESSAGE, **changed) + "\n"


def rest(**changed: str) -> str:
    return item(REST, **changed) + "\n"


def signals(*each: tuple[str, str]) -> str:
    return "{" + ",".join(f'"{name}":{signal}' for name, signal in each) + "}"


def signal(**changed: str) -> str:
    return item(SIGNAL, **changed)


A = b"BO_ 1 A: 1 N\n"
S = b" SG_ S : 0|8@1+ (1,0) [0|0] \"\" R\n"

# a database, and its objects
ROWS: list[tuple[bytes, str]] = [
    (b"", rest()),
    (A, message() + rest()),
    # identifiers: of 11 and of 29 bits, and numbers that are none
    (b"BO_ 2047 A: 0 N\n", message(number="2047", id="2047", size="0") + rest()),
    (b"BO_ 2048 A: 1 N\n", message(number="2048", id="null", extended="null") + rest()),
    (b"BO_ 2566844672 A: 8 N\n", message(number="2566844672", id="419361024", extended="true", size="8") + rest()),
    (b"BO_ 3221225472 A: 0 N\n", message(number="3221225472", id="null", extended="null", size="0") + rest()),
    # parameter groups: by the attribute's own value, by its default, and not for a number of 11 bits
    (
        b'BO_ 2566844672 A: 8 N\nBO_ 1 B: 1 N\nBA_DEF_ BO_ "VFrameFormat" ENUM "StandardCAN","J1939PG";\n'
        b'BA_DEF_DEF_ "VFrameFormat" "J1939PG";\nBA_ "VFrameFormat" BO_ 1 1;\n',
        message(number="2566844672", id="419361024", extended="true", size="8", pgn="65265")
        + message(name='"B"', attributes='[{"name":"VFrameFormat","value":1}]')
        + rest(
            definitions='[{"object":"message","name":"VFrameFormat","type":"ENUM",'
            '"values":[{"text":"StandardCAN"},{"text":"J1939PG"}]}]',
            defaults='[{"name":"VFrameFormat","value":"J1939PG"}]',
        ),
    ),
    # signals: both orders, exact decimals, units and receivers
    (A + S, message(signals=signals(("S", signal()))) + rest()),
    (
        b'BO_ 1 A: 2 N\n SG_ S : 3|12@0- (0.10,-40) [-1E3|1E-21] "km/h" R,Q\n',
        message(
            size="2",
            signals=signals((
                "S",
                signal(
                    start="3", length="12", order='"motorola"', signed="true", factor="0.1", offset="-40", minimum="-1000",
                    maximum="1E-21", unit='"km/h"', receivers='["R","Q"]', positions="[8,9,10,11,12,13,14,15,0,1,2,3]",
                ),  # fmt: skip
            )),
        )
        + rest(),
    ),
    (
        b'BO_ 1 A: 1 N\n SG_ S : 0|1@1+ (123456789012345678901,0) [0|0] "\xb0C" R\n SG_ T : 1|1@1+ (1,0) [0|0] "\xc2\xb0\r" R\n',
        message(
            signals=signals(
                (
                    "S",
                    signal(length="1", factor="123456789012345678901E0", unit='"°C","unit_hex":"B043"', positions="[0]"),
                ),
                ("T", signal(start="1", length="1", unit='"°\\r"', positions="[1]")),
            )
        )
        + rest(),
    ),
    # causes
    (
        b'BO_ 1 A: 1 N\n SG_ S : 7|2@1+ (1,0) [0|0] "" R\n SG_ F : 0|8@1+ (1,0) [0|0] "" R\nSIG_VALTYPE_ 1 F : 1;\n'
        b"SIG_VALTYPE_ 1 G : 2;\n",
        message(
            signals=signals(
                ("S", signal(start="7", length="2", positions="[7,8]", refused='"outside"')),
                ("F", signal(refused='"float"')),
            )
        )
        + rest(value_types='[{"message":1,"signal":"G","type":2}]'),
    ),
    # multiplexing: by tags, by rows, and a signal that is never there
    (
        b'BO_ 1 A: 1 N\n SG_ M M : 0|1@1+ (1,0) [0|0] "" R\n SG_ X m1M : 1|1@1+ (1,0) [0|0] "" R\n'
        b' SG_ Y m3 : 2|1@1+ (1,0) [0|0] "" R\n SG_ Z m0 : 3|1@1+ (1,0) [0|0] "" R\n'
        b"SG_MUL_VAL_ 1 Y X 3-3, 5-6;\nSG_MUL_VAL_ 1 Z Q 0-0;\nSG_MUL_VAL_ 2 Y X 1-1;\n",
        message(
            signals=signals(
                ("M", signal(length="1", tag='"M"', positions="[0]")),
                ("X", signal(start="1", length="1", tag='"m1M"', positions="[1]", chain='[{"switch":"M","ranges":[[1,1]]}]')),
                (
                    "Y",
                    signal(
                        start="2", length="1", tag='"m3"', positions="[2]",
                        chain='[{"switch":"X","ranges":[[3,3],[5,6]]},{"switch":"M","ranges":[[1,1]]}]',
                    ),  # fmt: skip
                ),
                ("Z", signal(start="3", length="1", tag='"m0"', positions="[3]", chain="null")),
            )
        )
        + rest(multiplexing='[{"message":2,"signal":"Y","switch":"X","ranges":[[1,1]]}]'),
    ),
    # value descriptions: the first row of a signal, numbers that repeat, and the bounds of 64 bits
    (
        A + S + b'VAL_ 1 S 1 "on" 1 "again" -9223372036854775808 "" 18446744073709551615 "\xff" ;\nVAL_ 1 S 2 "late" ;\n'
        b'VAL_ 1 T 0 "x" ;\nVAL_ 7 S 0 "y" ;\n',
        message(
            signals=signals((
                "S",
                signal(
                    values='[{"value":1,"name":"on"},{"value":1,"name":"again"},{"value":-9223372036854775808,"name":""},'
                    '{"value":18446744073709551615,"name":"ÿ","name_hex":"FF"}]'
                ),
            ))
        )
        + rest(
            values='[{"message":1,"signal":"T","values":[{"value":0,"name":"x"}]},'
            '{"message":7,"signal":"S","values":[{"value":0,"name":"y"}]}]'
        ),
    ),
    # comments and attributes: of messages and signals, and of what is none
    (
        b"BU_: E\n" + A + S + b'CM_ "whole";\nCM_ BU_ E "node";\nCM_ BO_ 1 "first";\nCM_ BO_ 1 "second";\nCM_ SG_ 1 S "a \\" b";\n'
        b'CM_ BO_ 2 "none";\nCM_ SG_ 1 T "none";\nBA_ "a" 1;\nBA_ "a" BU_ E 0.50;\nBA_ "a" BO_ 1 "x";\nBA_ "b" BO_ 1 2;\n'
        b'BA_ "a" SG_ 1 S 3;\nBA_ "a" SG_ 2 S 4;\n',
        message(
            comment='"first"',
            attributes='[{"name":"a","value":"x"},{"name":"b","value":2}]',
            signals=signals(("S", signal(comment='"a \\\\\\" b"', attributes='[{"name":"a","value":3}]'))),
        )
        + rest(
            nodes='["E"]',
            comments='[{"comment":"whole"},{"node":"E","comment":"node"},{"message":2,"comment":"none"},'
            '{"message":1,"signal":"T","comment":"none"}]',
            attributes='[{"name":"a","value":1},{"node":"E","name":"a","value":0.5},'
            '{"message":2,"signal":"S","name":"a","value":4}]',
        ),
    ),
    # the preamble, definitions of every type, and statements that are kept
    (
        b'VERSION "1\n2"\nNS_ :\n\tCM_\n\tBA_\nBS_: 500 : 1 , 2\nBU_: E F\nVAL_TABLE_ T 1 "a" 0 "b" ;\n'
        b'BA_DEF_ "i" INT 0 10;\nBA_DEF_ BU_ "h" HEX 0 255;\nBA_DEF_ SG_ "f" FLOAT -1.5 2;\nBA_DEF_ EV_ "s" STRING ;\n'
        b'BA_DEF_DEF_ "i" 5;\nEV_ V : 0 [0|1] "" 0 1 DUMMY_NODE_VECTOR0 E;\nSIG_GROUP_ 1 G 1 : S;\n',
        rest(
            version='"1\\n2"',
            symbols='["CM_","BA_"]',
            bit_timing="[500,1,2]",
            nodes='["E","F"]',
            value_tables='[{"name":"T","values":[{"value":1,"name":"a"},{"value":0,"name":"b"}]}]',
            definitions='[{"object":null,"name":"i","type":"INT","minimum":0,"maximum":10},'
            '{"object":"node","name":"h","type":"HEX","minimum":0,"maximum":255},'
            '{"object":"signal","name":"f","type":"FLOAT","minimum":-1.5,"maximum":2},'
            '{"object":"environment_variable","name":"s","type":"STRING"}]',
            defaults='[{"name":"i","value":5}]',
            kept='[{"text":"EV_ V : 0 [ 0 | 1 ] \\"\\" 0 1 DUMMY_NODE_VECTOR0 E ;"},{"text":"SIG_GROUP_ 1 G 1 : S ;"}]',
        ),
    ),
]


class DumpCase(ProgramCase):
    def written(self, text: bytes, *words: str) -> bytes:
        """What a command writes for a database."""
        output: bytes = self.ended(*words, "/dev/stdin", stdin=text)[1]
        return output

    def difference(self, text: bytes) -> str | None:
        """Where the objects of a database mean something else than what `dump` and `print` write, if they do."""
        try:
            messages, others = database_objects.objects(self.written(text, "dump", "--json"))
        except (Wrong, ValueError) as error:
            return str(error)
        if database_objects.pictures(messages) != self.written(text, "dump"):
            return "`dump` draws something else"
        printed = self.written(text, "print")
        if not printed.startswith(database_objects.front(messages, others)):
            return "`print` prints something else before its comments"
        missing = [line for line in database_objects.statements(messages, others) if line not in printed]
        return f"`print` doesn't print {missing[0]!r}" if missing else None


@cases(ROWS)
class Objects(DumpCase):
    def row(self, text: bytes, wanted: str) -> None:
        status, output, _ = self.ended("dump", "--json", "/dev/stdin", stdin=text)
        self.check_equal(f"{text!r}", (status, output), (DONE, wanted.encode()))
        self.check(f"words of {text!r}", self.difference(text))


class Rejected(DumpCase):
    def test_rejected_text(self) -> None:
        status, output, _ = self.ended("dump", "--json", "/dev/stdin", stdin=b"BO_ 1 A: 1")
        self.check_equal("a text without a database", (status, output), (REFUSED, b""))


def databases() -> list[str]:
    """The examples, and the databases of the outside cases."""
    return sorted(glob.glob(f"{EXAMPLES}/*.dbc")) + (sorted(glob.glob(f"{CASES}/*/*.dbc")) if CASES else [])


@cases(databases(), lambda path: os.path.relpath(path, CASES if CASES and path.startswith(CASES) else ROOT))
class Databases(DumpCase):
    """Objects of whole databases; those that are rejected have none."""

    def row(self, path: str) -> None:
        text = content(path)
        if self.ended("dump", "/dev/stdin", stdin=text)[0] != DONE:
            self.skipTest("it is rejected")
        self.check(path, self.difference(text))


if __name__ == "__main__":
    main()
