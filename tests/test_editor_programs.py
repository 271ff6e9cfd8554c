#!/usr/bin/env python3
"""The language server in neovim and Emacs, each with its own client and the files of editors/."""

from __future__ import annotations

import json
import os
import shutil
import sys
from typing import Any

sys.dont_write_bytecode = True
sys.path.insert(0, os.path.dirname(os.path.realpath(__file__)))

from editor_samples import BASE, CANONICAL, HOVERS, LOOSE, RENAMINGS  # noqa: E402
from test_support import ROOT, main  # noqa: E402
from tool_runs import TOOLS, ToolCase, ran, read, written  # noqa: E402


# an entry for a message that isn't there, after a character of two bytes
TEXT = BASE + 'CM_ "ä"; VAL_ 11 X 0 "off" ;\n'
# (a character of four bytes and two units is put before it, and a line with two more is added)
EDITED = BASE + 'CM_ "😀ä"; VAL_ 11 X 0 "off" ;\nVAL_ 12 X 0 "😀ä"; VAL_ 13 X 0 "b" ;\n'


def renamed() -> str:
    """EDITED after the first renaming."""
    changed = RENAMINGS[0][2]
    return "\n".join(changed.get(index, line) for index, line in enumerate(EDITED.split("\n")))


def wanted_of_locations(outline: list[str]) -> dict[str, Any]:
    """What an editor gets that needs locations: the hover over an entry's signal, the multiplexor's definition, and so on."""
    return {"hover": HOVERS[0][2], "outline": outline, "definition": [5, 5], "renamed": renamed()}


class Programs(ToolCase):
    def results_of(self, words: list[str]) -> dict[str, Any]:
        """What a script reports that runs in an editor."""
        path = written(self.folder, "a.dbc", TEXT.encode())
        loose, results = written(self.folder, "loose.dbc", LOOSE.encode()), os.path.join(self.folder, "results")
        environment = {
            "PATH": f"{TOOLS}:{os.environ['PATH']}", "CANDESK": self.program, "HOME": self.folder, "XDG_CACHE_HOME": self.folder,
            "TRIED_FILE": path, "TRIED_LOOSE": loose, "TRIED_RESULTS": results,
        }
        done = ran([it.replace("FILE", path) for it in words], b"", **environment)
        if not os.path.exists(results):
            return {"fault": done}
        return {name: value for name, value in map(json.loads, read(results).decode().splitlines())}

    def check_all(self, editor: str, got: dict[str, Any], wanted: dict[str, Any]) -> None:
        self.check_true(f"{editor}: no fault", "fault" not in got, got.get("fault"))
        for name, value in wanted.items():
            found = got.get(name)
            # (Emacs takes Markdown only if it has a mode for it)
            is_right = str(found).removeprefix("```\n").startswith(value) if name == "hover" else found == value
            self.check_true(f"{editor}: {name}", is_right, found)

    def test_neovim(self) -> None:
        if not shutil.which("nvim"):
            self.skipTest("neovim isn't at hand")
        start = [f"set runtimepath+={ROOT}/editors/vim", "filetype plugin on", "syntax on"]
        words = ["nvim", "--headless", "-u", "NONE", "-i", "NONE", "-n", *(word for it in start for word in ("--cmd", it))]
        got = self.results_of([*words, "-c", f"luafile {ROOT}/tests/editor_neovim.lua", "FILE"])
        # (columns in bytes; severity 2 is a warning)
        wanted = {
            "file type": "dbc",
            "syntax": ["dbcStatement", "dbcString"],
            "diagnostics": [[17, 10, 19, 2, 16]],
            "diagnostics after an edit": [[17, 14, 23, 2, 16], [18, 0, 9, 2, 16], [18, 22, 31, 2, 16]],
            "completion": ["Speed"],
            "formatted": CANONICAL,
            "clients after reading again": 1,
            **wanted_of_locations(["OnOff", "Motor", "CCVS", "Kind"]),
        }
        self.check_all("neovim", got, wanted)

    def test_emacs(self) -> None:
        if not shutil.which("emacs") or ran(["emacs", "--batch", "--eval", "(progn (package-initialize) (require 'eglot))"]).status:
            self.skipTest("Emacs with eglot isn't at hand")
        words = ["emacs", "--batch", "-L", f"{ROOT}/editors/emacs", "-l", f"{ROOT}/tests/editor_emacs.el"]
        got = self.results_of(words)
        # (columns in characters)
        warning = "eglot-warning"
        wanted = {
            "mode": "dbc-mode",
            "faces": ["font-lock-keyword-face", "font-lock-string-face", "font-lock-function-name-face"],
            "diagnostics": [[17, 9, 18, warning]],
            "diagnostics after an edit": [[17, 10, 19, warning], [18, 0, 9, warning], [18, 18, 27, warning]],
            "completion": ["Speed"],
            "formatted": CANONICAL,
            **wanted_of_locations(["CCVS", "Heat", "Kind", "Mode", "Motor", "OnOff", "Speed"]),
        }
        self.check_all("Emacs", got, wanted)


if __name__ == "__main__":
    main()
