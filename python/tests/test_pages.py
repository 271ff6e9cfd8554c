"""The examples of the pages: each runs, and prints what its comments show."""

from __future__ import annotations

import contextlib
import io
import os
import re
import unittest

from helping import ROOT, Case, has

PAGES = ("docs/GUIDE.md", "docs/CANTOOLS.md")


class Pages(Case):
    def test_examples(self) -> None:
        count = 0
        for page in PAGES:
            with open(os.path.join(ROOT, page), encoding="utf-8") as file:
                blocks = re.findall(r"^```python\n(import candesk\n.*?)^```$", file.read(), re.MULTILINE | re.DOTALL)
            for block in blocks:
                if ".frame(" in block and not has("pandas"):
                    continue
                count += 1
                printed = io.StringIO()
                with self.subTest(f"{page}: {block[:60]}"), contextlib.chdir(ROOT), contextlib.redirect_stdout(printed):
                    exec(block, {})  # noqa: S102
                self.assertEqual(printed.getvalue().splitlines(), re.findall(r"print\(.*\)  # (.*)$", block, re.MULTILINE))
        self.assertGreater(count, 1)


if __name__ == "__main__":
    unittest.main()
