#!/usr/bin/env python3
"""Runs the program on the examples, and compares what it writes with the files of the examples.

What a command has to write is in examples/NAME.COMMAND; decode-short is `decode --short`. A log is in NAME.log and a script in
NAME.script.
"""

from __future__ import annotations

import os
import sys

sys.dont_write_bytecode = True
sys.path.insert(0, os.path.dirname(os.path.realpath(__file__)))

from test_support import DONE, EXAMPLES, HAS_DIAGNOSTICS, ProgramCase, cases, content, difference, main  # noqa: E402

NAMES = ("car", "lorry")
# the ending of the file with what is wanted, the words before the database, the ending of standard input, and the status
COMMANDS = (
    ("check", ("check",), None, HAS_DIAGNOSTICS),
    ("print", ("print",), None, DONE),
    ("dump", ("dump",), None, DONE),
    ("decode", ("decode",), "log", DONE),
    ("decode-short", ("decode", "--short"), "log", DONE),
    ("session", ("session",), "script", DONE),
)
# a session that keeps only the last lines
KEEPING = {("lorry", "session"): ("session", "--keep", "2")}


ROWS = [(name, *command) for name in NAMES for command in COMMANDS]


@cases(ROWS, lambda name, ending, *_: f"{name}.{ending}")
class Examples(ProgramCase):
    def row(self, name: str, ending: str, words: tuple[str, ...], stream: str | None, status: int) -> None:
        stdin = content(f"{EXAMPLES}/{name}.{stream}") if stream else b""
        words = KEEPING.get((name, ending), words)
        got, wanted = self.ended(*words, f"{EXAMPLES}/{name}.dbc", stdin=stdin), content(f"{EXAMPLES}/{name}.{ending}")
        is_right = got == (status, wanted, b"")
        lines = difference(wanted, got[1], f"examples/{name}.{ending}")
        self.check_true(f"{name}.{ending}", is_right, f"status {got[0]}, {got[2]!r}\n{lines}")


if __name__ == "__main__":
    main()
