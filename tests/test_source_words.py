#!/usr/bin/env python3
"""Comments and names are in the field's words.

Looked at are the comments of the crates, of the Python files with their docstrings, and of the shell scripts, the names in the
crates, and the names of must-fail edits. What is between backquotes in a comment is code and doesn't count, nor do quoted texts in
code: the words of diagnostics, refusals, replies and public names are fixed. The pages have a test of their own.
"""

from __future__ import annotations

import ast
import glob
import io
import os
import re
import sys
import tokenize
from collections.abc import Iterable, Iterator

sys.dont_write_bytecode = True
sys.path.insert(0, os.path.dirname(os.path.realpath(__file__)))

import test_python_files  # noqa: E402
from test_support import ROOT, Case, content, main  # noqa: E402

# words of ours in comments, and the field's words
COMMENTS = {
    r"stands?|lies": "is, is at, comes",
    r"tells?|told|says?|said": "reports, means, gives",
    r"behind|beneath|beside": "after, below, next to",
    r"but for|whoever": "except, if you",
    r"doubtful|doubts?": "diagnostic, problem",
    r"ways? up": "multiplexing chain",
    r"(?<!parameter )group (?:messages?|numbers?)": "J1939 message, PGN",
    r"short frames?": "truncated frame",
    r"kept statements?": "statement kept verbatim",
    r"retain(?:s|ed|ing)?": "keep",
    r"want of memory|wants? memory": "out of memory",
    r"greatest weight": "MSB",
    r"lends?|lent|lending": "return by reference",
    r"hand(?:s|ed|ing)? (?:on|over)": "pass",
    r"takes? no guess(?:es)?": "never guesses",
    r"mended|laid out": "fixed, formatted",
}
# the same in names of must-fail edits, which have no code in them
EDITS = COMMENTS | {
    r"widths?": "standard (11-bit) or extended (29-bit), bit 31",
    r"named values?": "value description",
    r"tags?": "multiplexer indicator",
    r"way": "multiplexing chain",
    r"pictures?": "diagram",
}
# names that describe a thing by a word of ours, and what its name is
NAMES = {
    "Beside": "ChainIndex", "Tidy": "SortedLink", "Ways": "MuxPaths", "Above": "MuxParent", "ShownBus": "CompiledBus",
    "Fresh": "RedecodedLine", "Remade": "AppliedEdit", "Known": "CrossReferences", "Few": "Inline", "Draft": "TextBuffer",
    "kept_name": "cached_name", "FAR": "SATURATED", "MOST": "MAX_CACHED_NAMES", "FEW": "LINEAR_SEARCH_LIMIT",
    "Said": "JobParts", "Begun": "LocatedMessage", "goes_with": "can_coexist", "are_seen_apart": "are_disjoint_in_sequence",
    "one_of_six": "standalone_statement",
}
# parts of names that are words of ours; those of decimal places and of the library are allowed, and names that the kit makes
PARTS = {
    "place": "index, position, location", "behind": "following, after", "told": "given, reported", "said": "stated",
    "stands": "occurs", "lies": "is", "tells": "decides", "says": "means", "turn": "round",
}  # fmt: skip
ALLOWED = re.compile(
    r"(?:\w*decimal_)?places?_?|\w*one_more_place\w*|in_place|changed_in_place|behind|told"
    r"|place_faults\w*|(?:push|report)_place_faults|(?:eqb|leb)_tells"
)
FAMILIES = ("byte_", "dbc_", "can_", "session_", "candesk")
# the program of the benchmark
BENCHMARK = "workloads"
BACKQUOTED = re.compile(r"`[^`\n]*`")
STRING = re.compile(r'b?"(?:[^"\\]|\\.)*"')
IDENTIFIER = re.compile(r"[A-Za-z_][A-Za-z0-9_]*")
SHELL = re.compile(rb"#!.*\b(?:ba)?sh\n")


def sources() -> list[str]:
    """The files of the crates that are proved."""
    found = [it for it in glob.glob(f"{ROOT}/crates/*/*/**/*", recursive=True) if it.endswith((".rt", ".antt"))]
    return sorted(it for it in found if it[len(f"{ROOT}/crates/") :].split("/")[1] in ("src", "specs", "proofs"))


def python_comments(text: str) -> Iterator[tuple[int, str]]:
    """The comments and docstrings of a Python file, with their lines."""
    for token in tokenize.generate_tokens(io.StringIO(text).readline):
        if token.type == tokenize.COMMENT:
            yield token.start[0], token.string
    for node in ast.walk(ast.parse(text)):
        if isinstance(node, (ast.Module, ast.ClassDef, ast.FunctionDef, ast.AsyncFunctionDef)):
            yield getattr(node, "lineno", 1), ast.get_docstring(node) or ""


def shell_scripts() -> list[str]:
    """The shell scripts in the folders of scripts, and those at the top that start the program and its tests."""
    found = [it for folder in (".", ".ci", "scripts", "bench", "benches") for it in glob.glob(f"{ROOT}/{folder}/*")]
    shells = {os.path.relpath(it, ROOT) for it in found if os.path.isfile(it) and SHELL.match(content(it))}
    return sorted(shells - set(test_python_files.files()))


def is_comment(line: str) -> bool:
    return line.lstrip().startswith(("//", "--"))


def ours_in(text: str, ours: dict[str, str] = COMMENTS) -> Iterable[str]:
    """Each word of ours in a comment, with the field's words."""
    for words, others in ours.items():
        for found in re.findall(rf"\b(?:{words})\b", BACKQUOTED.sub("", text), re.I):
            yield f"{found}: {others}"


def names_in(line: str) -> Iterable[str]:
    """Each name of ours in a line of code, with what it is called."""
    for name in IDENTIFIER.findall(STRING.sub("", line)):
        if name in NAMES:
            yield f"{name}: {NAMES[name]}"
        elif not ALLOWED.fullmatch(name):
            yield from (f"{name}: {others}" for part, others in PARTS.items() if part in name.split("_"))


class SourceWords(Case):
    """The sources of the program, and the scripts around it."""

    def test_comments(self) -> None:
        for path in sources():
            lines = enumerate(content(path).decode().split("\n"), 1)
            found = [f"line {at}: {it}" for at, line in lines if is_comment(line) for it in ours_in(line)]
            self.check(path.removeprefix(f"{ROOT}/"), "; ".join(found) or None)

    def test_scripts(self) -> None:
        for path in shell_scripts():
            lines = enumerate(content(f"{ROOT}/{path}").decode().split("\n"), 1)
            found = [f"line {at}: {it}" for at, line in lines if line.lstrip().startswith("#") for it in ours_in(line)]
            self.check(path, "; ".join(found) or None)

    def test_python_files(self) -> None:
        paths = test_python_files.files()
        if not paths:
            self.skipTest("git's list of files isn't at hand")
        for path in paths:
            comments = python_comments(content(f"{ROOT}/{path}").decode())
            found = [f"line {at}: {it}" for at, comment in comments for it in ours_in(comment)]
            self.check(path, "; ".join(found) or None)

    def test_names(self) -> None:
        for path in sources():
            lines = enumerate(content(path).decode().split("\n"), 1)
            found = [f"line {at}: {it}" for at, line in lines if not is_comment(line) for it in names_in(line)]
            self.check(path.removeprefix(f"{ROOT}/"), "; ".join(found) or None)

    def test_edits(self) -> None:
        """An edit's name describes a mistake, its words apart by underscores."""
        for path in sorted(glob.glob(f"{ROOT}/crates/*/must-fail/*.edit")):
            name = os.path.basename(path).removesuffix(".edit").replace("_", " ")
            self.check(path.removeprefix(f"{ROOT}/"), "; ".join(ours_in(name, EDITS)) or None)

    def test_families(self) -> None:
        for crate in sorted(os.listdir(f"{ROOT}/crates")):
            is_named = crate == BENCHMARK or crate.startswith(FAMILIES)
            self.check_true(crate, is_named, f"it begins with none of {', '.join(FAMILIES)}")

    def test_order_of_families(self) -> None:
        """No crate uses one of a later family, except can_session, whose name is older than the families."""
        for line in content(f"{ROOT}/crates.txt").decode().splitlines():
            crate, colon, used = line.partition(":")
            if not colon or crate in (BENCHMARK, "can_session"):
                continue
            later = [it for it in used.split() if it != "can_session" and family(it) > family(crate)]
            self.check(crate, f"it uses {', '.join(later)}" if later else None)


def family(crate: str) -> int:
    """The index of a crate's family; what is no crate of ours is below all."""
    return next((at for at, it in enumerate(FAMILIES) if crate.startswith(it)), -1)


if __name__ == "__main__":
    main()
