#!/usr/bin/env python3
"""The commands of the pages write what is printed below them.

A command is a line `$ ..` in a block between three backquotes; the lines below it up to the next one are what it writes, standard
error too. Each page has a folder of its own, with the examples, and with the program as ./candesk and as candesk, and the tools on
the PATH.
"""

from __future__ import annotations

import os
import re
import shutil
import subprocess
import sys
import tempfile

sys.dont_write_bytecode = True
sys.path.insert(0, os.path.dirname(os.path.realpath(__file__)))

from test_support import EXAMPLES, ROOT, Case, cases, difference, main, program, run  # noqa: E402

PAGES = ("README.md", "docs/MANUAL.md", "docs/GUIDE.md", "docs/MANY_LOGS.md", "docs/CANTOOLS.md")
TOOLS = os.path.join(ROOT, "tools")
# what is needed by commands with such a word: a program, or a package of Python (of Debian's Python too)
NEEDED = {"jq -": "jq", "candesk-plot": "matplotlib", "candesk-decode-many": "parallel", "candesk-decode-dask": "distributed"}


def commands_of(page: str) -> list[tuple[str, str]]:
    """The commands of a page in order, each with what it writes."""
    with open(os.path.join(ROOT, page), encoding="utf-8") as text:
        blocks = re.findall(r"^```(\w*)\n(.*?)^```$", text.read(), re.MULTILINE | re.DOTALL)
    found: list[tuple[str, str]] = []
    for language, block in blocks:
        for line in block.splitlines(keepends=True) if not language and block.startswith("$ ") else []:
            if line.startswith("$ "):
                found.append((line[2:].rstrip("\n"), ""))
            else:
                command, below = found[-1]
                found[-1] = (command, below + line)
    return found


def missing_for(command: str) -> str | None:
    """What a command needs that isn't at hand, if anything."""
    for word, needed in NEEDED.items():
        asked = f"import importlib.util, sys; sys.exit(importlib.util.find_spec({needed!r}) is None)"
        pythons = [it for it in (sys.executable, "/usr/bin/python3") if os.access(it, os.X_OK)]
        if word in command and not shutil.which(needed) and all(run([it, "-c", asked])[0] for it in pythons):
            return needed
    return None


def written(command: str, folder: str) -> bytes:
    """What a command writes, standard error too."""
    path = ":".join((folder, TOOLS, os.environ["PATH"]))
    environment = dict(os.environ, PATH=path, LC_ALL="C.UTF-8", CANDESK=os.path.join(folder, "candesk"))
    return run(["bash", "-c", command], cwd=folder, env=environment, stderr=subprocess.STDOUT)[1]


@cases([page for page in PAGES if commands_of(page)])
class Pages(Case):
    def row(self, page: str) -> None:
        with tempfile.TemporaryDirectory() as folder:
            shutil.copytree(EXAMPLES, os.path.join(folder, "examples"))
            os.symlink(program(), os.path.join(folder, "candesk"))
            for command, below in commands_of(page):
                name, missing = f"{page}: $ {command}", missing_for(command)
                if missing:
                    self.skip_check(name, missing)
                    continue
                got, wanted = written(command, folder), below.encode()
                self.check_true(name, got == wanted, "it writes something else\n" + difference(wanted, got, page))


if __name__ == "__main__":
    main()
