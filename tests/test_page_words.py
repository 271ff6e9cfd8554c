#!/usr/bin/env python3
"""The pages use the field's words, are of limited length, and no two have a passage in common.

The pages are README.md, CONTRIBUTING.md, and in docs/ the Markdown pages and manual pages; the words of DEFINITIONS.md aren't
looked at, as these are the definitions' own. Blocks of code and what is between backquotes don't count: the words of commands,
diagnostics and public names are fixed.
"""

from __future__ import annotations

import glob
import os
import re
import sys
from collections import defaultdict

sys.dont_write_bytecode = True
sys.path.insert(0, os.path.dirname(os.path.realpath(__file__)))

from test_support import ROOT, Case, cases, content, main  # noqa: E402

# words of ours for what has one in the field
OURS = {
    r"doubtful|doubts?": "diagnostic, problem",
    r"ways? up": "multiplexing chain",
    r"named values?": "value description",
    r"group messages?|group numbers?": "J1939 message, PGN",
    r"short frames?": "truncated frame",
    r"retain(?:s|ed|ing)?": "keep",
    r"want of memory|wants? memory": "out of memory",
    r"greatest weight": "MSB",
    r"whoever": "if you",
    r"beneath": "below",
    r"but for": "except",
    r"lends?|lent|lending": "return by reference",
    r"hand(?:s|ed|ing)? (?:on|over)": "pass",
    r"takes? no guess(?:es)?": "never guesses",
}
MOST_WORDS = 26_000
# this page is made of the definitions' own words
MADE = "docs/DEFINITIONS.md"
# so many words in a row that two pages have in common are a passage
PASSAGE = 12
BLOCK = re.compile(r"^```.*?^```", re.M | re.S)
CODE = re.compile(r"`[^`\n]*`")
WORD = re.compile(r"[^\W_][\w'-]*")


def pages() -> list[str]:
    names = ["README.md", "CONTRIBUTING.md", *glob.glob("docs/*.md", root_dir=ROOT), *glob.glob("docs/*.1", root_dir=ROOT)]
    return sorted(names)


def prose(page: str) -> str:
    """A page without its code."""
    return CODE.sub("` `", BLOCK.sub("```", content(f"{ROOT}/{page}").decode()))


@cases([page for page in pages() if page != MADE])
class Words(Case):
    def row(self, page: str) -> None:
        text = prose(page)
        for ours, others in OURS.items():
            found = re.findall(rf"\b(?:{ours})\b", text, re.I)
            self.check(f"{page}, {ours}", f"{', '.join(sorted(set(found)))}: the field says {others}" if found else None)


class Pages(Case):
    def test_length(self) -> None:
        texts = [prose(page) for page in pages() if page.startswith("docs/") and page.endswith(".md")]
        count = sum(len(WORD.findall(text)) for text in texts)
        print(f"{count:,} words in docs/, {len(pages())} pages")
        self.check_true("words of docs/", count <= MOST_WORDS, f"{count:,} are over {MOST_WORDS:,}")

    def test_passages(self) -> None:
        """Pages in Markdown have none in common. A manual page repeats what is in the page on its tool."""
        seen: dict[tuple[str, ...], set[str]] = defaultdict(set)
        for page in (it for it in pages() if it.endswith(".md")):
            for part in prose(page).split("`"):
                words = WORD.findall(part)
                for at in range(len(words) - PASSAGE + 1):
                    seen[tuple(words[at : at + PASSAGE])].add(page)
        common = [f"{' and '.join(sorted(it))}: {' '.join(words)}" for words, it in seen.items() if len(it) > 1]
        self.check("passages of two pages", "; ".join(common) or None)


if __name__ == "__main__":
    main()
