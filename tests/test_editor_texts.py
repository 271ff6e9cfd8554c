#!/usr/bin/env python3
"""The diagnostics of the language server: their ranges, severities and words, and that they are of the last version."""

from __future__ import annotations

import json
import os
import random
import statistics
import subprocess
import sys
import time
from typing import Any

sys.dont_write_bytecode = True
sys.path.insert(0, os.path.dirname(os.path.realpath(__file__)))

from editor_client import PUBLISHED, URI, EditorCase, applied, position, range_of, units  # noqa: E402
from test_support import ROOT, main  # noqa: E402
from tool_runs import ran, read  # noqa: E402


Object = dict[str, Any]
Placed = tuple[int, int, int, int, int]

ERROR, WARNING, INFORMATION = 1, 2, 3
# `Gate` isn't in BU_, Lock can't be 8, two messages have one name, entries are for a message that isn't there, and twice for one
PROBLEMS = """\
BU_: Ecu
BO_ 10 Door: 2 Ecu
 SG_ Side : 0|4@1+ (1,0) [0|0] "°C" Ecu,Gate
 SG_ Lock : 2|3@1+ (1,0) [0|0] "" Ecu
BO_ 2048 Door: 1 Ecu
VAL_ 10 Lock 8 "ä" 1 "😀" 1 "zwei" ;
CM_ "ä😀"; VAL_ 11 Lock 0 "off" ;
CM_ BO_ 10 "a"; CM_ BO_ 10 "b";
SIG_VALTYPE_ 10 Lock : 1;
"""
# line, first column and the one after the last, severity, code: counted by hand
PROBLEM_RANGES = [
    (1, 7, 11, WARNING, 3),
    (2, 12, 17, WARNING, 6),
    (2, 40, 44, WARNING, 13),
    (4, 4, 8, WARNING, 1),
    (4, 9, 13, WARNING, 3),
    (5, 13, 14, WARNING, 14),
    (5, 26, 27, WARNING, 15),
    (6, 11, 23, WARNING, 16),
    (7, 16, 26, WARNING, 17),
    (8, 23, 24, INFORMATION, 10),
]
REJECTED = """\
BU_: Ecu
BO_ 1 A: 1 Ecu
 SG_ S : 0|8@1+ (1,0) [0|inf] "ä" Ecu
VAL_ 1 S 0 "😀" one "x" ;
BO_ 2 B: 1 Ecu
"""
REJECTED_RANGES = [(2, 25, 28, ERROR, 2), (3, 16, 19, INFORMATION, 2)]
VALID = 'BU_: Ecu\nBO_ 1 A: 1 Ecu\n SG_ S : 0|8@1+ (1,0) [0|0] "" Ecu\n'
# how long a text stays as it is before it is checked, and the longest that a check after an edit may take, in seconds
DEBOUNCE, LONGEST = 0.1, 0.3
# and the longest that an answer may take that an editor's user asked for
SLOWEST = 3
LARGE_MESSAGES = 1297
EDITS, BATCH = 1000, 10


def placed(diagnostics: list[Object]) -> list[Placed]:
    """Diagnostics, each as its line, columns, severity and code, in the order of the text."""
    found = []
    for it in diagnostics:
        begin, end = it["range"]["start"], it["range"]["end"]
        line = begin["line"] if begin["line"] == end["line"] else -1
        found.append((line, begin["character"], end["character"], it["severity"], it["code"]))
    return sorted(found)


def change(text: str, begin: int, end: int, new: str) -> Object:
    return {"range": {"start": position(text, begin), "end": position(text, end)}, "text": new}


def expected(program: str, text: str) -> list[Placed]:
    """The diagnostics of a text by the program, with positions that are found here."""
    data = text.encode()
    done = ran([program, "explain", "--json", "/dev/stdin"], data)
    found = []
    for it in map(json.loads, done.out.splitlines()):
        severity = INFORMATION if it.get("guess") else {"error": ERROR, "warning": WARNING}.get(it["severity"], INFORMATION)
        # (a token that is none may begin within a character)
        begin, end = (position(text, len(data[: it["at"][0][side]].decode(errors="ignore"))) for side in ("from", "to"))
        line = begin["line"] if begin["line"] == end["line"] else -1
        found.append((line, begin["character"], end["character"], severity, it["code"]))
    return sorted(found)


def random_edit(rng: random.Random, text: str) -> tuple[int, int, str]:
    """Where a text is changed and into what: digits, strings, lines, or anything."""
    kind = rng.random()
    if kind < 0.4:
        at = rng.choice([at for at, it in enumerate(text) if it.isdecimal() and text[at - 1] != "@"] or [0])
        return at, at + 1, rng.choice("0123456789")
    if kind < 0.7:
        # (after a quote that opens a string)
        at = rng.choice([at + 1 for at, it in enumerate(text) if it == '"'][::2] or [0])
        return at, at, rng.choice(("ä", "😀", "é\r\n", "\n", "€ "))
    if kind < 0.94:
        lines = PROBLEMS.replace("\n", rng.choice(("\n", "\r\n"))).splitlines(keepends=True)
        # (where no string is open)
        at = rng.choice([0, *(at + 1 for at, it in enumerate(text) if it == "\n" and text.count('"', 0, at) % 2 == 0)])
        return at, at, rng.choice(lines[5:])
    begin = rng.randint(0, len(text))
    end = min(len(text), begin + rng.choice((0, 0, 1, 2)))
    return begin, end, rng.choice(("", "", " ", "\r\n", "\r", "😀", "// ä\r\n", "Ecu"))


def is_between(text: str, at: int) -> bool:
    """Whether an index is between CR and LF, where the protocol has no position."""
    return text[at - 1 : at + 1] == "\r\n"


class Diagnostics(EditorCase):
    def test_ranges(self) -> None:
        editor = self.editor
        for name, end in (("LF", "\n"), ("CR LF", "\r\n"), ("CR", "\r")):
            got = placed(editor.open(PROBLEMS.replace("\n", end)))
            self.check_true(f"diagnostics, lines end in {name}", got == PROBLEM_RANGES, got)
        got = placed(editor.replace(REJECTED))
        self.check_true("diagnostics of a rejected text", got == REJECTED_RANGES, got)
        got = placed(editor.replace("BO_ 1 ä: 1 Ecu\n"))
        self.check_true("a token that isn't one", got == [(0, 6, 6, ERROR, 1)], got)
        got = placed(editor.replace('BO_ 1 A: 0 N CM_ "\n'))
        self.check_true("a quote that isn't closed", got == [(0, 17, 17, ERROR, 1)], got)
        self.check_true("a text without diagnostics", editor.replace(VALID) == [])
        # (a line of Latin-1, as an editor sends it that doesn't know the encoding: one unit for its one byte)
        got = placed(editor.replace('CM_ "\udce4"; VAL_ 11 Lock 0 "off" ;\n'))
        self.check_true("a byte that isn't UTF-8", got == [(0, 9, 21, WARNING, 16)], got)

    def test_words(self) -> None:
        """The words of diagnostics, what they are related to, and those of a guess."""
        editor = self.editor
        by_code = {it["code"]: it for it in editor.open(PROBLEMS)}
        got = by_code[13]
        self.check_true("source", got["source"] == "candesk", got)
        wanted = "UnknownNode 10 Door.Side Gate\nadd the node to BU_, or correct its name"
        self.check_true("words of a diagnostic", got["message"] == wanted, got)
        self.check_true("nothing is related to a single range", "relatedInformation" not in got, got)
        begin, end = {"line": 3, "character": 12}, {"line": 3, "character": 17}
        wanted_related = [{"location": {"uri": URI, "range": {"start": begin, "end": end}}, "message": "Door.Lock"}]
        got = by_code[6]
        self.check_true("the second range of a pair", got.get("relatedInformation") == wanted_related, got)
        self.check_true("an entry's key", by_code[17]["message"].startswith("RepeatedRow CM_ BO_ 10\n"), by_code[17])
        first, guess = sorted(editor.replace(REJECTED), key=lambda it: int(it["range"]["start"]["line"]))
        wanted = "found the word inf, expected '-', '+' or a number\ninf and nan are not numbers; "
        self.check_true("words of an error", first["message"].startswith(wanted), first)
        wanted = "maybe an error, or a consequence of the first one: found the word one, expected "
        self.check_true("words of a guess", guess["message"].startswith(wanted), guess)
        text = 'BA_ "X" BO_ 10 5;\nBA_ "ä" 5;\nBA_DEF_ SG_ "A" INT 0 1;\nBA_DEF_ SG_ "A" INT 0 1;\n'
        text += 'CM_ BU_ N "";\nCM_ SG_ 1 S "";\n'
        lines = {it["message"].split("\n")[0] for it in editor.replace(text)}
        keys = {'DanglingRow BA_ "X" BO_ 10', 'UnknownAttribute BA_ "X" BO_ 10', 'UnknownAttribute BA_ "ä"',
                'RepeatedRow BA_DEF_ SG_ "A"', "DanglingRow CM_ BU_ N", "DanglingRow CM_ SG_ 1 S"}
        self.check_true("keys of entries", lines == keys, lines)

    def test_changes(self) -> None:
        """Changes as ranges: after characters of two units, over lines, several in one notification, and past the ends."""
        editor = self.editor
        editor.open(PROBLEMS)
        at = PROBLEMS.index(" ;\nCM_")
        editor.change([change(PROBLEMS, at, at, ' 9 "😀ä" 10 "x"')])
        got = [it for it in placed(editor.diagnostics()) if it[0] == 5]
        # (`VAL_ 10 Lock 8 "ä" 1 "😀" 1 "zwei" 9 "😀ä" 10 "x" ;`)
        wanted = [(5, 13, 14, WARNING, 14), (5, 26, 27, WARNING, 15), (5, 35, 36, WARNING, 14), (5, 43, 45, WARNING, 14)]
        self.check_true("a change after a character of two units", got == wanted, got)
        editor.open(VALID)
        node = {"start": {"line": 1, "character": 11}, "end": {"line": 1, "character": 14}}
        editor.change([{"range": node, "text": "N"}, {"range": range_of(VALID, "BU_: Ecu\n"), "text": ""}])
        got = placed(editor.diagnostics())
        self.check_true("two changes, the second by the text after the first", got == [(0, 11, 12, 2, 13), (1, 31, 34, 2, 13)], got)
        past = {"start": {"line": 9, "character": 9}, "end": {"line": 99, "character": 0}}
        editor.change([{"range": past, "text": "BO_ 2048 B: 0 N"}])
        got = placed(editor.diagnostics())
        self.check_true("a change past the end", (2, 4, 8, WARNING, 1) in got, got)
        editor.change([{"range": {"start": {"line": 2, "character": 8}, "end": {"line": 2, "character": 4}}, "text": "7"}])
        got = placed(editor.diagnostics())
        # (now `BO_ 7 B: 0 N`)
        self.check_true("a range from its end to its start", [it for it in got if it[0] == 2] == [(2, 11, 12, WARNING, 13)], got)
        editor.change([{"text": ""}])
        self.check_true("an empty text", editor.diagnostics() == [])

    def test_versions(self) -> None:
        """Of changes that follow each other at once, only the last version's diagnostics are published, after a pause."""
        editor = self.editor
        editor.open(VALID)
        began = time.monotonic()
        for count in range(20):
            editor.change([{"text": VALID + "\n" * count + "VAL_ 9 S 0 \"\" ;\n"}])
            time.sleep(0.02)
        last = time.monotonic()
        got = placed(editor.diagnostics())
        took = time.monotonic() - last
        self.check_true("the last version", got == [(22, 0, 8, WARNING, 16)], got)
        self.check_true("a check waits for a pause", took >= DEBOUNCE - 0.02 and last - began > 0.3, took)
        editor.open(VALID)
        editor.taken(0)
        for _ in range(40):
            editor.change([{"text": "BU_: x\n"}])
            # (now and then as its check is running)
            time.sleep(random.Random(editor.version).uniform(0.09, 0.12))
        sent = editor.version
        came = [it["params"]["version"] for it in editor.taken(0.5) if it["method"] == PUBLISHED]
        self.check_true("versions only rise", came == sorted(set(came)) and came[-1] == sent, came)
        editor.close()
        came_last = [it["params"] for it in editor.taken(0.3)]
        self.check_true("a closed document has none", came_last == [{"uri": URI, "diagnostics": []}], came_last)

    def test_documents(self) -> None:
        """Two documents, each with its own text, diagnostics and requests."""
        editor = self.editor
        other = "file:///work/b.dbc"
        first, second = placed(editor.open(REJECTED)), placed(editor.open(PROBLEMS, other))
        self.check_true("two documents", (first, second) == (REJECTED_RANGES, PROBLEM_RANGES), (first, second))
        for uri in (URI, other):
            editor.change([{"text": VALID.replace("A", "B") + ("VAL_ 2 B 0 \"\" ;" if uri == other else "")}], uri)
        second = placed(editor.diagnostics(other))
        found = [it["params"] for it in editor.taken(0.3) if it["method"] == PUBLISHED]
        # (the first was checked before)
        got = [(it["uri"], it["diagnostics"]) for it in found]
        self.check_true("two documents that change", second == [(3, 0, 8, WARNING, 16)] and got == [(URI, [])], (second, got))
        editor.close()
        start = {"line": 0, "character": 0}
        got_items = editor.about("completion", start), editor.about("completion", start, uri=other)
        self.check_true("a document after the other was closed", got_items[0] is None and bool(got_items[1]), got_items)
        editor.close(other)
        editor.taken(0.2)

    def test_random_edits(self) -> None:
        editor = self.editor
        rng, text = random.Random(20261130), PROBLEMS.replace("\n", "\r\n")
        editor.open(text)
        wrong, problems, rejected = [], 0, 0
        for batch in range(EDITS // BATCH):
            changes: list[Object] = []
            while len(changes) < BATCH:
                begin, end, new = random_edit(rng, text)
                if not is_between(text, begin) and not is_between(text, end):
                    changes.append(change(text, begin, end, new))
                    text = text[:begin] + new + text[end:]
            # (all at once, or each in a notification of its own)
            for part in [changes] if batch % 2 else [[it] for it in changes]:
                editor.change(part)
            got, wanted = placed(editor.diagnostics()), expected(self.program, text)
            if got != wanted:
                wrong.append((batch, got, wanted))
            is_rejected = any(it[3] == ERROR for it in wanted)
            problems, rejected = problems + len(wanted), rejected + is_rejected
            if is_rejected:
                text = PROBLEMS.replace("\n", rng.choice(("\n", "\r\n")))
                editor.replace(text)
        self.check_true(f"{EDITS} random edits", not wrong, wrong[:1])
        print(f"{EDITS} random edits: {problems} diagnostics, {rejected} of {EDITS // BATCH} texts rejected")
        are_of_all_kinds = problems > EDITS // BATCH and 5 < rejected < EDITS // BATCH - 5
        self.check_true("random edits lead to all kinds of texts", are_of_all_kinds, rejected)

    def test_long_line(self) -> None:
        """Thousands of problems in one line with umlauts: each position there is found at once, and not all are listed."""
        editor = self.editor
        count, most = 3000, 5000
        began = time.monotonic()
        # (17 characters an entry, of which the key has 8; each but the first is for a missing signal and repeated)
        got = editor.open('VAL_ 1 S 0 "ä" ; ' * count)
        took = time.monotonic() - began
        columns = {it[:3] for it in placed(got[:most])}
        is_right = len(got) == most + 1 and columns <= {(0, 17 * at, 17 * at + 8) for at in range(count)} and len(columns) > 2000
        self.check_true("problems in a long line", is_right and took < 5, (len(got), took, sorted(columns)[:3]))
        notice = "only the first 5,000 of 5,999 problems are listed; see `candesk check`"
        self.check_true("more problems than are listed", got[-1]["message"] == notice, got[-1])

    def test_large(self) -> None:
        """Diagnostics of a database of 577 KB after an edit."""
        editor = self.editor
        path = os.path.join(self.folder, "large.dbc")
        subprocess.run([sys.executable, os.path.join(ROOT, "benches", "make_text.py"), path, str(LARGE_MESSAGES)], check=True)
        text = read(path).decode()
        editor.open(text)
        line = text.count("\n", 0, text.index("BO_ 2147484296 "))
        taken: list[float] = []
        for name in ("Other", "Node9", "Other", "Node9", "Other"):
            # (`BO_ 2147484296 Message648: 8 Node18`)
            where = {"start": {"line": line, "character": 29}, "end": {"line": line, "character": 35 if not taken else 34}}
            began = time.monotonic()
            editor.change([{"range": where, "text": name}])
            got = placed(editor.diagnostics())
            taken.append(time.monotonic() - began)
            wanted = [] if name == "Node9" else [(line, 29, 34, WARNING, 13)]
            self.check_true(f"a large database, {name}", got == wanted, got)
        median = statistics.median(taken)
        print(f"{units(text) / 1000:.0f} KB: diagnostics {median:.3f} s after an edit (of that {DEBOUNCE} s is the pause)")
        self.check_true("a large database is fast", median < LONGEST, taken)
        began = time.monotonic()
        edits = editor.about("formatting", options={})
        took = time.monotonic() - began
        # (the text as it is after the edits)
        changed = text.replace("BO_ 2147484296 Message648: 8 Node18", "BO_ 2147484296 Message648: 8 Other")
        wanted_text = ran([self.program, "print", "/dev/stdin"], changed.encode()).out.decode()
        self.check_true("formatting a large database", took < SLOWEST and applied(changed, edits) == wanted_text, took)
        began = time.monotonic()
        labels = [it["label"] for it in editor.about("completion", {"line": line, "character": 29})]
        self.check_true("completion in a large database", time.monotonic() - began < SLOWEST and "Node18" in labels, labels[:5])
        began = time.monotonic()
        where = {"start": {"line": line, "character": 30}, "end": {"line": line, "character": 30}}
        fixes = editor.about("codeAction", range=where, context={"diagnostics": []})
        self.check_true("a quick fix in a large database", time.monotonic() - began < SLOWEST and len(fixes) == 1, fixes)


if __name__ == "__main__":
    main()
