#!/usr/bin/env python3
"""No line of the files that git has is over 132 characters wide.

Left out is what has to be as it is: images, answers and inputs in examples/, must-fail edits, each of whose texts is one line,
the program in dist/, the lines of crates.txt, a crate each, proof attributes (`#[tactic(`), which the kit's formatter puts on one
line, string data in the sources of crates of tests, and a line of one word, as of an address or of one import.
"""

from __future__ import annotations

import os
import re
import shutil
import sys

sys.dont_write_bytecode = True
sys.path.insert(0, os.path.dirname(os.path.realpath(__file__)))

from test_support import ROOT, Case, content, main, run  # noqa: E402

WIDEST = 132
# files whose lines have to be as they are
FIXED = re.compile(r".*\.(?:png|svg)$|dist/candesk-|examples/|crates/\w+/must-fail/|crates\.txt$|LICENSE$")
# an attribute of the prover, and a line of one word, after what begins it
ATTRIBUTE = re.compile(r"\s*#!?\[tactic\(")
ONE_WORD = re.compile(r"\s*(?:[-*#>/|]+ |use )?\S+$")
# a line with string data, in the sources of crates of tests
TESTS = re.compile(r"crates/\w+_tests/src/")
TEXT = re.compile(r'"[^"]')


def may_be_wide(file: str, line: str) -> bool:
    if ATTRIBUTE.match(line) or ONE_WORD.match(line):
        return True
    return bool(TESTS.match(file) and TEXT.search(line))


def files() -> list[str]:
    """The files that git has and that exist; none without git."""
    listed = run(["git", "ls-files", "-z"], cwd=ROOT)[1].decode() if shutil.which("git") else ""
    return [it for it in listed.split("\0") if it and not FIXED.match(it) and os.path.isfile(f"{ROOT}/{it}")]


class Widths(Case):
    def test_files(self) -> None:
        found = files()
        if not found:
            self.skipTest("git's list of files isn't at hand")
        for file in found:
            lines = enumerate(content(f"{ROOT}/{file}").decode(errors="replace").split("\n"), 1)
            wide = [(at, len(line)) for at, line in lines if len(line) > WIDEST and not may_be_wide(file, line)]
            self.check(file, "; ".join(f"line {at} has {width} characters" for at, width in wide) or None)


if __name__ == "__main__":
    main()
