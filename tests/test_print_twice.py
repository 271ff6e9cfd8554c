#!/usr/bin/env python3
"""Prints each database, and then prints what was printed: the second time gives the same bytes.

The databases are those of the examples and of the outside cases. Those that `print` rejects are skipped.
"""

from __future__ import annotations

import glob
import os
import sys

sys.dont_write_bytecode = True
sys.path.insert(0, os.path.dirname(os.path.realpath(__file__)))

from test_support import CASES, DONE, EXAMPLES, REFUSED, ROOT, ProgramCase, cases, main, put, shown  # noqa: E402

FILES = sorted(glob.glob(f"{EXAMPLES}/*.dbc")) + (sorted(glob.glob(f"{CASES}/*/f.dbc")) if CASES else [])


@cases(FILES, lambda file: os.path.relpath(file, CASES if CASES and file.startswith(CASES) else ROOT))
class PrintedTwice(ProgramCase):
    def row(self, file: str) -> None:
        first = self.ended("print", file)
        if first[:2] == (REFUSED, b""):
            self.skipTest("it is rejected")
        if (first[0], first[2]) != (DONE, b""):
            self.check(file, shown(first))
        else:
            self.check_equal(f"{file}, again", self.ended("print", put(self.folder, "printed.dbc", first[1])), first)


if __name__ == "__main__":
    main()
