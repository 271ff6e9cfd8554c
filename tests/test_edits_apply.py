#!/usr/bin/env python3
"""Each must-fail edit can be made: a proof takes hours to find one that can't.

An edit is lines 'file: PATH' in the crate and then pairs 'old: TEXT' and 'new: TEXT'. It can be made if each old text is in its
file exactly once, after the pairs before, and it changes a file of `src`, or of `specs` for a law.
"""

from __future__ import annotations

import glob
import os
import sys

sys.dont_write_bytecode = True
sys.path.insert(0, os.path.dirname(os.path.realpath(__file__)))

from test_support import ROOT, Case, cases, content, main, script  # noqa: E402

edits = script("edits")


def fault_of(path: str) -> str | None:
    """Why an edit can't be made, or None."""
    crate = os.path.dirname(os.path.dirname(path))
    if not edits.NAME.fullmatch(os.path.basename(path)):
        return "its name is none of an edit"
    texts: dict[str, str] = {}
    for file, old, new in edits.pairs_of(content(path).decode()):
        if not file.startswith(("src/", "specs/")) or not os.path.isfile(f"{crate}/{file}"):
            return f"{file} is no file of src or specs"
        text = texts.setdefault(file, content(f"{crate}/{file}").decode())
        if text.count(old) != 1:
            return f"{file} has {text.count(old)} times: {old}"
        texts[file] = text.replace(old, new)
    return None if any(it.encode() != content(f"{crate}/{file}") for file, it in texts.items()) else "it changes nothing"


@cases(sorted(glob.glob(f"{ROOT}/crates/*/must-fail/*")), lambda path: os.path.relpath(path, f"{ROOT}/crates"))
class Edits(Case):
    def row(self, path: str) -> None:
        self.check(os.path.relpath(path, ROOT), fault_of(path))


if __name__ == "__main__":
    main()
