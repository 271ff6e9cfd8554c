#!/usr/bin/env python3
"""Databases with a diagnostic of each code, and texts with a fault of each cause, each with the bytes that are meant.

`check --json` and `explain --json` have to write these objects in this order. Instead of `at` each has the bytes that it is about,
which were marked by hand; their offsets are found in the text.
"""

from __future__ import annotations

import json
import os
import sys
from typing import Any, Final

sys.dont_write_bytecode = True
sys.path.insert(0, os.path.dirname(os.path.realpath(__file__)))

from marked_texts import Mark, range_of  # noqa: E402
from test_support import HAS_DIAGNOSTICS, REFUSED, ProgramCase, cases, main  # noqa: E402

# the code, its word, the other members without the remedy, and the bytes of each range
Finding = tuple[int, str, dict[str, object], tuple[Mark, ...]]

NODES: Final = b"BU_: N\n"
A: Final = b"BO_ 1 A: 8 N\n"
OWN: Final = {"number": 1, "message": "A"}
S: Final = OWN | {"signal": "S"}
INFORMATION: Final = {"severity": "information"}


def signal(head: bytes, position: bytes, scale: bytes = b"1,0", receivers: bytes = b"N") -> bytes:
    """A signal: its name and indicator, its position, and factor and offset."""
    return b" SG_ " + head + b" : " + position + b" (" + scale + b') [0|0] "" ' + receivers + b"\n"


J1939: Final = (
    b'BA_DEF_ BO_ "VFrameFormat" ENUM "StandardCAN","ExtendedCAN","reserved","J1939PG";\n'
    b'BA_ "VFrameFormat" BO_ 2566844672 3;\nBA_ "VFrameFormat" BO_ 2566844721 3;\n'
)
FOUND: Final[tuple[tuple[bytes, tuple[Finding, ...]], ...]] = (
    (NODES + b"BO_ 2048 A: 8 N\n", ((1, "BadIdentifier", {"number": 2048, "message": "A"}, (b"2048",)),)),
    (
        NODES + A + b"BO_ 1 B: 8 N\n",
        (
            (2, "SharedIdentifier", OWN, ((b"1", 0),)),
            (2, "SharedIdentifier", {"number": 1, "message": "B"}, ((b"1", 1),)),
        ),
    ),
    (
        NODES + A + b"BO_ 2 A: 8 N\n",
        ((3, "SharedName", OWN, ((b"A", 0),)), (3, "SharedName", {"number": 2, "message": "A"}, ((b"A", 1),))),
    ),
    (
        NODES + b"BO_ 2566844672 C: 8 N\nBO_ 2566844721 D: 8 N\n" + J1939,
        (
            (4, "SharedGroup", {"number": 2566844672, "message": "C"}, ((b"2566844672", 0),)),
            (4, "SharedGroup", {"number": 2566844721, "message": "D"}, ((b"2566844721", 0),)),
        ),
    ),
    (NODES + b"BO_ 1 A: 1 N\n" + signal(b"S", b"1|8@1+"), ((5, "Outside", S, (b"1|8@1",)),)),
    (
        NODES + A + signal(b"S", b"0|8@1+") + signal(b"T", b"7|1@1-"),
        ((6, "Overlap", S | {"other": "T"}, (b"0|8@1", b"7|1@1")),),
    ),
    (NODES + A + signal(b"S m3", b"0|8@1+"), ((7, "NoSwitch", S, (b"m3",)),)),
    (NODES + A + signal(b"S m3", b"0|8@1+") + b"SG_MUL_VAL_ 1 S Lost 3-3;\n", ((7, "NoSwitch", S, (b"Lost",)),)),
    (
        NODES + A + signal(b"Mode M", b"0|4@1+") + signal(b"Plain", b"4|4@1+") + signal(b"S m3", b"8|8@1+")
        + b"SG_MUL_VAL_ 1 S Plain 3-3;\n",
        ((8, "BadMuxRow", S, ((b"Plain", 1),)),),
    ),
    (
        NODES + A + signal(b"Up m0M", b"0|4@1+") + signal(b"Down m0M", b"4|4@1+")
        + b"SG_MUL_VAL_ 1 Up Down 0-0;\nSG_MUL_VAL_ 1 Down Up 0-0;\n",
        (
            (9, "SwitchLoop", OWN | {"signal": "Up"}, ((b"Down", 1),)),
            (9, "SwitchLoop", OWN | {"signal": "Down"}, ((b"Up", 2),)),
        ),
    ),
    (
        NODES + A + signal(b"S", b"0|32@1-") + b"SIG_VALTYPE_ 1 S : 1;\n",
        ((10, "Float", S | INFORMATION, ((b"1", 4),)),),
    ),
    (NODES + b"BO_ 1 A: 16 N\n" + signal(b"S", b"0|65@1+"), ((11, "Long", S | INFORMATION, (b"65",)),)),
    (NODES + A + signal(b"S", b"0|8@1+", b"-1e-400 , -1"), ((12, "Scale", S, (b"-1e-400 , -1",)),)),
    (NODES + b"BO_ 1 A: 8 Other\n", ((13, "UnknownNode", OWN | {"node": "Other"}, (b"Other",)),)),
    (
        NODES + A + signal(b"S", b"0|8@1+", receivers=b"N,Other"),
        ((13, "UnknownNode", S | {"node": "Other"}, (b"Other",)),),
    ),
    (
        NODES + A + signal(b"S", b"0|2@1+") + b'VAL_ 1 S 7 "a" -3 "b" ;\n',
        ((14, "ValueOutOfRange", S | {"value": 7}, (b"7",)), (14, "ValueOutOfRange", S | {"value": -3}, (b"-3",))),
    ),
    (
        NODES + A + signal(b"S", b"0|2@1+") + b'VAL_ 1 S 1 "a" 1 "b" ;\n',
        ((15, "RepeatedValue", S | {"value": 1}, ((b"1", 5),)),),
    ),
    (NODES + b'CM_ BO_ 9 "c";\n', ((16, "DanglingRow", {"entry": "CM_", "number": 9}, (b"CM_ BO_ 9",)),)),
    (
        NODES + A + b'CM_ BO_ 1 "c";\nCM_ BO_ 1 "d";\n',
        ((17, "RepeatedRow", {"entry": "CM_", "number": 1}, ((b"CM_ BO_ 1", 1),)),),
    ),
    (NODES + b'BA_ "Cycle" 1;\n', ((18, "UnknownAttribute", {"entry": "BA_", "name": "Cycle"}, (b'BA_ "Cycle"',)),)),
)

SIGNAL: Final = b' SG_ %s : 0|8@1+ (1,0) [0|0] ""\n'
# a text, the code of its first fault, its word, what is found, and the bytes of the token; or their offset, if no token begins
# there or the text ends
REJECTED_TEXTS: Final[tuple[tuple[bytes, int, str, str, Mark | int], ...]] = (
    (b"BO_ 1 A: 8 N\n$\n", 1, "Token", "'$', which begins no token", 13),
    (b'VERSION "\xc3\xa4\nBU_: N\n', 1, "Token", "a quote that is never closed", 8),
    (b"BU_: N\r\nBO_ 1 A 8 N\n", 2, "Statement", "the number 8", b"8"),
    (b"BO_ 1 A: 8", 2, "Statement", "the end of the file", 10),
    (A + SIGNAL % b"S" + SIGNAL % b"S", 3, "RepeatedSignal", "the word S", (b"S", 3)),
    (A * 65_536, 4, "MessagesFull", "the keyword BO_", (b"BO_", 65_535)),
    (A + b"".join(SIGNAL % (b"S%d" % i) for i in range(1_000)), 5, "SignalsFull", "the keyword SG_", (b"SG_", 999)),
    (b"BO_ 4294967296 A: 8 N\n", 6, "Limit", "the number 4294967296", b"4294967296"),
)


def finding_of(text: bytes, found: Finding) -> dict[str, object]:
    """The object of a diagnostic without its remedy."""
    code, word, members, marks = found
    head = {"code": code, "word": word, "severity": "warning"}
    return head | members | {"at": [range_of(text, mark) for mark in marks]}


def objects_of(output: bytes) -> list[dict[str, Any]]:
    return [json.loads(line) for line in output.decode().splitlines()]


@cases(FOUND, lambda text, found: f"{found[0][0]} {found[0][1]} {' '.join(map(str, found[0][2].values()))}")
class Diagnostics(ProgramCase):
    """The objects of diagnostics, by `check` and by `explain`."""

    def row(self, text: bytes, found: tuple[Finding, ...]) -> None:
        for command in ("check", "explain"):
            status, output, errors = self.ended(command, "--json", "/dev/stdin", stdin=text)
            objects = objects_of(output)
            remedies = [it.pop("remedy", "") for it in objects]
            wanted = [finding_of(text, it) for it in found]
            self.check_equal(f"{command} of {text!r}", (status, objects, errors), (HAS_DIAGNOSTICS, wanted, b""))
            self.check(f"remedies of {text!r}", None if all(remedies) else f"{remedies}")


@cases(REJECTED_TEXTS, lambda text, code, word, found, mark: f"{code} {word} {found}")
class Faults(ProgramCase):
    """The object of the first fault of a rejected text."""

    def row(self, text: bytes, code: int, word: str, found: str, mark: Mark | int) -> None:
        if isinstance(mark, int):
            at = {"line": 1 + text.count(b"\n", 0, mark), "from": mark, "to": mark}
        else:
            at = range_of(text, mark)
        status, output, errors = self.ended("check", "--json", "/dev/stdin", stdin=text)
        first = objects_of(output)[0]
        actual = (status, {key: first.get(key) for key in ("code", "word", "severity", "found", "at", "guess")}, errors)
        wanted = {"code": code, "word": word, "severity": "error", "found": found, "at": [at], "guess": None}
        line = f"candesk: line {at['line']}: {code} {word}\n".encode()
        self.check_equal(f"{word} of {text[:60]!r}", actual, (REFUSED, wanted, line))
        self.check(f"what is expected in {text[:60]!r}", None if first.get("expected") else f"{first}")


if __name__ == "__main__":
    main()
