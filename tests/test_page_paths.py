#!/usr/bin/env python3
"""Each path that the pages name exists, and what they quote is in the sources.

A path is a word in backquotes, or the target of a link, that ends as a source, page or script does, or begins as a folder of the
repository or of a crate. It exists if a file or folder of the repository ends in it; if paths of its paragraph or list item
begin with names of crates, a crate that is named there has to have it, or a folder outside of the crates.
"""

from __future__ import annotations

import os
import re
import sys
from collections.abc import Iterator
from typing import ClassVar

sys.dont_write_bytecode = True
sys.path.insert(0, os.path.dirname(os.path.realpath(__file__)))

from test_support import ROOT, Case, cases, content, main, run, script  # noqa: E402

proving = script("proving")

# words in backquotes, and the targets of links
NAMED = re.compile(r"`([^`\s]+)`|\]\(([^)\s#]+)(?:#[^)\s]*)?\)")
ENDING = re.compile(r"^[\w./-]+\.(rt|antt|edit|py|md|sh|c|h)$")
# what a path of the repository, or of a crate, may begin with
PARTS = ("src", "specs", "proofs", "must-fail")
# what is made, and what isn't of the repository
NOT_HERE = ("out",)


def existing_paths() -> set[str]:
    """The files and folders of the repository."""
    found: set[str] = set()
    for at, folders, names in os.walk(ROOT):
        folders[:] = [it for it in folders if it not in (".git", "out", "__pycache__")]
        found.update(os.path.relpath(f"{at}/{it}", ROOT) for it in folders + names)
    return found


def pages() -> Iterator[str]:
    yield from ("README.md", "CONTRIBUTING.md", "CHANGELOG.md")
    yield from (f"docs/{it}" for it in sorted(os.listdir(f"{ROOT}/docs")) if it.endswith(".md"))


def items(text: str) -> Iterator[str]:
    """The paragraphs and list items of a page, without its blocks of code."""
    prose = re.sub(r"^```.*?^```", "", text, flags=re.M | re.S)
    yield from re.split(r"\n(?=\s*(?:[-*]|\d+\.) )|\n\s*\n", prose)


def paths_in(item: str, tops: set[str]) -> Iterator[str]:
    for found in NAMED.finditer(item):
        word = (found[1] or found[2]).removeprefix("../").removeprefix("./")
        first = word.split("/")[0]
        if first in NOT_HERE or "://" in word:
            continue
        if ENDING.match(word) or ("/" in word and first in tops and re.fullmatch(r"[\w./-]+", word)):
            yield word.rstrip("/")


def lost_in(item: str, files: set[str], crates: set[str]) -> Iterator[str]:
    """The paths in a paragraph or list item that lead nowhere."""
    tops = {it.split("/")[0] for it in files} | crates | set(PARTS)
    paths = [it for it in paths_in(item, tops) if it not in PARTS]
    named = crates & {it.removeprefix("crates/").split("/")[0] for it in paths}
    if named:
        named |= crates & set(re.findall(r"\w+", item))
    for path in paths:
        ends = {it for it in files if it == path or it.endswith(f"/{path}")}
        if not any(not it.startswith("crates/") or not named or it.split("/")[1] in named for it in ends):
            yield path


@cases(list(pages()))
class Paths(Case):
    files: ClassVar[set[str]]
    crates: ClassVar[set[str]]

    @classmethod
    def setUpClass(cls) -> None:
        cls.files, cls.crates = existing_paths(), set(proving.dependencies())

    def row(self, page: str) -> None:
        text = content(f"{ROOT}/{page}").decode()
        lost = [it for item in items(text) for it in lost_in(item, self.files, self.crates)]
        self.check(page, f"there is no {', '.join(lost)}" if lost else None)


class Quotes(Case):
    def test_pages_quote_the_sources(self) -> None:
        self.check_equal("pages quote the sources", run([f"{ROOT}/scripts/quoted_pages", "--check"])[0], 0)

    def test_picture_of_the_crates(self) -> None:
        self.check_equal("the picture has these crates", run([f"{ROOT}/scripts/crate_picture", "--check"])[0], 0)


if __name__ == "__main__":
    main()
