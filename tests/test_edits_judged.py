#!/usr/bin/env python3
"""Must-fail edits of a small crate are judged as they must be, alone and many in one check.

An edit that breaks a contract is refused. One that changes nothing that matters is not, also if it is made together with one that
is refused, and if the function that it changes calls one that is not proved. One that a proof rejects only because it names what
the edit takes away is hollow, one that can't be made is bad, and of one that can't be read nothing is known. It needs the kit.
"""

from __future__ import annotations

import os
import shutil
import sys
import tempfile
import unittest
from typing import Any, ClassVar

sys.dont_write_bytecode = True
sys.path.insert(0, os.path.dirname(os.path.realpath(__file__)))

from test_support import Case, cases, main, script  # noqa: E402

edits = script("edits")
Verdict = edits.Verdict

SOURCE = """\
//! Functions whose edits are judged.
#![tactic(auto)]

ghost use Rattle.std.specs.Prelude.{◌≡◌, ◌≤◌};

/// The number itself.
pub fn same(n: u8) -> u8
    ensures { result ≡ n }
{
    n + 0
}

/// A number that is at most the first.
pub fn at_most(a: u8, b: u8) -> u8
    ensures { result ≤ a }
{
    if a < b { a } else { b }
}

/// The number itself, by another function.
pub fn same_again(n: u8) -> u8
    ensures { result ≡ n }
{
    let first = same(n);
    first
}

/// The number itself, by another function that has no proof by hand.
pub fn same_too(n: u8) -> u8
    ensures { result ≡ n }
{
    same(n) + 0
}
"""
ANSWERS = """\
use Rattle.judged.proofs.same_again.Goals as goal

pub returns : goal.returns
returns c = c.same-first.ensures
"""
# each edit with its old and its new text, and its verdict
EDITS = {
    "another_number": ("    n + 0", "    n / 2", Verdict.REFUSED),
    "test_of_equal_numbers": ("if a < b { a }", "if a <= b { a }", Verdict.PROVED),
    "call_of_unproved": ("    same(n) + 0", "    same(n) - 0", Verdict.PROVED),
    "name_taken_away": ("let first = same(n);", "let second = same(n); let first = second;", Verdict.HOLLOW),
    "text_that_is_not_there": ("    n + 3", "    n + 2", Verdict.UNFIT),
    "name_of_nothing": ("if a < b { a }", "if a < c { a }", Verdict.UNKNOWN),
}


def write(path: str, text: str) -> None:
    os.makedirs(os.path.dirname(path), exist_ok=True)
    with open(path, "w", encoding="utf-8") as file:
        file.write(text)


def made(folder: str) -> str:
    """The folder of a crate with these edits, the only one of its repository."""
    crate = f"{folder}/crates/judged"
    os.makedirs(f"{folder}/.git")
    write(f"{folder}/crates.txt", "judged:\n")
    write(f"{folder}/HANDLES", "Handles allowed: none.\n")
    write(f"{crate}/src/lib.rt", SOURCE)
    write(f"{crate}/proofs/same_again/Answers.antt", ANSWERS)
    for name, (old, new, _) in EDITS.items():
        write(f"{crate}/must-fail/{name}.edit", f"file: src/lib.rt\nold: {old}\nnew: {new}\n")
    return crate


@cases([(name, wanted) for name, (_, _, wanted) in EDITS.items()])
class Judged(Case):
    verdicts: ClassVar[dict[str, Any]]
    source: ClassVar[str]

    @classmethod
    def setUpClass(cls) -> None:
        if not shutil.which("rt"):
            raise unittest.SkipTest("rt of the Rattle kit isn't at hand")
        with tempfile.TemporaryDirectory() as folder:
            trial = edits.Trial(edits.Checks(), made(folder))
            trial.run()
            cls.verdicts, cls.source = trial.verdicts, edits.content(f"{folder}/crates/judged/src/lib.rt")

    def row(self, name: str, wanted: Any) -> None:
        self.check_equal(name, self.verdicts.get(f"{name}.edit"), wanted)

    def test_sources_afterwards(self) -> None:
        self.check_equal("the sources afterwards", self.source, SOURCE)


if __name__ == "__main__":
    main()
