#!/usr/bin/env python3
"""What the language server answers: hover, outline, definition, references, completion, formatting, quick fixes, renaming."""

from __future__ import annotations

import os
import re
import sys
from typing import Any

sys.dont_write_bytecode = True
sys.path.insert(0, os.path.dirname(os.path.realpath(__file__)))

from editor_client import URI, Editor, EditorCase, applied  # noqa: E402
from editor_samples import BASE, CANONICAL, HOVERS, LOOSE, RENAMINGS  # noqa: E402
from test_support import cases, main  # noqa: E402
from tool_runs import ToolCase, example, ran, read  # noqa: E402


Object = dict[str, Any]
# a line, the first column and the one after the last
Span = tuple[int, int, int]

KEPT = 'BU_: A\r\nBO_ 1 M: 1 A\r\nBO_TX_BU_ 1 : A ;\r\nCM_ BO_ 1 "x";\r\n'
VECTOR = 'VERSION ""\r\n\r\nNS_ :\r\n\r\nBS_:\r\n\r\nBU_: A\r\n\r\nBO_ 1 M: 1 A\r\n\r\nBO_TX_BU_ 1 : A ;\r\n\r\nCM_ BO_ 1 "x";\r\n'


def at(line: int, character: int) -> Object:
    return {"line": line, "character": character}


def spans(found: Any) -> list[Span]:
    """Locations or edits, as lines and columns."""
    ranges = [it["range"] for it in found or ()]
    return sorted((it["start"]["line"], it["start"]["character"], it["end"]["character"]) for it in ranges)


def formatted(editor: Editor, text: str) -> str | None:
    """A text after the edits of formatting; nothing if there are none."""
    editor.open(text)
    edits = editor.about("formatting", options={"tabSize": 8, "insertSpaces": True})
    return None if edits is None else applied(text, edits)


# what is typed after BASE, and the labels that it is completed to
COMPLETIONS: tuple[tuple[str, list[str]], ...] = (
    ("VAL_ 500 S", ["Speed"]),
    ("VAL_ 500 ", ["Heat", "Mode", "Speed"]),
    ("VAL_ ", ["2566844672", "500", "CCVS", "Motor"]),
    ("VAL_ mo", ["Motor"]),
    ("SG_MUL_VAL_ 500 Speed ", ["Mode"]),
    ('BA_ "', ['"Kind"']),
    ('BA_ "ki', ['"Kind"']),
    ('BA_ "Kind" ', ["BO_"]),
    ('BA_ "Kind" BO_ ', ["2566844672", "500", "CCVS", "Motor"]),
    ('BA_ "Kind" BO_ 500 ', ['"fast"', '"slow"']),
    ('BA_ "Kind" BO_ 500 "s', ['"slow"']),
    ('BA_DEF_DEF_ "Kind" ', ['"fast"', '"slow"']),
    ("BO_ 7 New: 8 ", ["Dash", "Gateway", "Vector__XXX"]),
    (' SG_ X : 0|1@1+ (1,0) [0|0] "ä" ', ["Dash", "Gateway", "Vector__XXX"]),
    (' SG_ X : 0|1@1+ (1,0) [0|0] "ä" Dash,ga', ["Gateway"]),
    (' SG_ X : 0|1@1+ ', []),
    ("CM_ ", ["BO_", "BU_", "EV_", "SG_"]),
    ("CM_ BU_ d", ["Dash"]),
    ("CM_ SG_ 500 h", ["Heat"]),
    ("VERS", ["VERSION"]),
    ("SIG_V", ["SIG_VALTYPE_"]),
    ("// VAL_ 500 ", []),
    ('CM_ "VAL_ 500 ', []),
    ('CM_ "a\nVAL_ 500 ', []),
    ('CM_ "a"; VAL_ 500 he', ["Heat"]),
)

# a text, the line and column of a diagnostic, and the text after its quick fix
FIXES: tuple[tuple[str, tuple[int, int], str | None], ...] = (
    ("BU_: Ecu // ä\nBO_ 1 A: 1 Gate\n", (1, 11), "BU_: Ecu Gate // ä\nBO_ 1 A: 1 Gate\n"),
    ("BU_:\nBO_ 1 A: 1 Gate\n", (1, 11), "BU_: Gate\nBO_ 1 A: 1 Gate\n"),
    ('VERSION ""\r\nBO_ 1 A: 1 Gate\r\n', (1, 11), 'VERSION ""\r\nBU_: Gate\r\nBO_ 1 A: 1 Gate\r\n'),
    ('CM_ "a";\nVAL_ 11 X 0 "a;b" 1 "ä" ; \nCM_ BU_ N "c";\n', (1, 0), 'CM_ "a";\nCM_ BU_ N "c";\n'),
    ('CM_ "a"; VAL_ 11 X 0 "a;b" ; CM_ "c";\n', (0, 9), 'CM_ "a"; CM_ "c";\n'),
    ('CM_ "a"; CM_ "b";\nBU_:\n', (0, 9), 'CM_ "a"; \nBU_:\n'),
    ('BA_ "X" 5;', (0, 0), ""),
    (
        'BU_: E\nBO_ 1 A: 1 E\n SG_ S : 0|8@1+ (1,0) [0|0] "" E\nVAL_ 1 S 1 "ä" 1 "b" 2 "c" ;\n',
        (3, 15),
        'BU_: E\nBO_ 1 A: 1 E\n SG_ S : 0|8@1+ (1,0) [0|0] "" E\nVAL_ 1 S 1 "ä" 2 "c" ;\n',
    ),
    ("BU_: E\nBO_ 2048 A: 1 E\n", (1, 4), "BU_: E\nBO_ 2147485696 A: 1 E\n"),
    # (bits 29 and 31: no bit makes it right; and a number that another message has)
    ("BU_: E\nBO_ 2684354560 A: 1 E\n", (1, 4), None),
    ("BU_: E\nBO_ 2048 A: 1 E\nBO_ 2147485696 B: 1 E\n", (1, 4), None),
)


def fixed(editor: Editor, text: str, where: Object, only: list[str] | None = None) -> list[str]:
    """A text after each of the quick fixes at a position."""
    diagnostics = editor.open(text)
    context: Object = {"diagnostics": diagnostics, **({"only": only} if only else {})}
    found = editor.about("codeAction", range={"start": where, "end": where}, context=context)
    return [applied(text, it["edit"]["changes"][URI]) for it in found]


# where the cursor is in BASE, and where what is there is defined
DEFINITIONS: tuple[tuple[str, tuple[int, int], list[Span]], ...] = (
    ("a multiplexor", (16, 24), [(4, 5, 9)]),
    ("the end of a multiplexor", (16, 26), [(4, 5, 9)]),
    ("a receiver", (4, 38), [(1, 13, 17)]),
    ("the second receiver", (5, 52), [(1, 5, 12)]),
    ("a sender", (3, 18), [(1, 5, 12)]),
    ("the node of a comment", (10, 8), [(1, 13, 17)]),
    ("the message of an entry", (14, 6), [(3, 8, 13)]),
    ("the signal of an entry", (14, 10), [(5, 5, 10)]),
    ("the signal of another message", (8, 6), [(8, 5, 10)]),
    ("the keyword of an entry", (14, 1), [(5, 5, 10)]),
    ("an attribute", (13, 5), [(11, 12, 18)]),
    ("the message of an attribute", (13, 16), [(3, 8, 13)]),
    ("a value table", (2, 12), [(2, 11, 16)]),
    ("a description", (14, 18), []),
)
REFERENCES: tuple[tuple[str, tuple[int, int], list[Span]], ...] = (
    ("a signal", (5, 6), [(5, 5, 10), (9, 12, 17), (14, 9, 14), (15, 30, 35), (16, 16, 21)]),
    ("a multiplexor", (4, 6), [(4, 5, 9), (15, 25, 29), (16, 22, 26)]),
    ("a node", (1, 14), [(1, 13, 17), (4, 37, 41), (5, 47, 51), (6, 37, 41), (8, 51, 55), (10, 8, 12)]),
    ("a message", (3, 9), [(3, 4, 7), (3, 8, 13), (9, 8, 11), (13, 15, 18), (14, 5, 8), (16, 12, 15)]),
    ("an attribute", (11, 14), [(11, 12, 18), (12, 12, 18), (13, 4, 10)]),
)


def unkept(printed: bytes) -> list[bytes]:
    """The lines of a printed database without groups, which a session doesn't rename."""
    return [it for it in printed.split(b"\n") if not it.startswith(b"SIG_GROUP_")]


class Formatting(EditorCase):
    def test_formatting(self) -> None:
        editor = self.editor
        got = formatted(editor, LOOSE)
        self.check_true("formatting", got == CANONICAL, got)
        got = formatted(editor, LOOSE.replace("\n", "\r\n"))
        self.check_true("formatting, CR LF", got == CANONICAL.replace("\n", "\r\n"), got)
        editor.open(CANONICAL)
        edits = editor.about("formatting", options={})
        self.check_true("formatting of a text in the form", edits == [], edits)
        changed = CANONICAL.replace("0|8@1+", "0|8 @ 1+")
        editor.open(changed)
        edits = editor.about("formatting", options={})
        is_small = spans(edits) == [(5, 0, 0)] and applied(changed, edits) == CANONICAL
        self.check_true("formatting edits only what differs", is_small, edits)
        self.check_true("no message of formatting", editor.shown() == [])
        for text, why in (
            ("BU_: A // one\n" + LOOSE, "line 1 has a // comment, which would be lost"),
            ("BU_ A\n", "line 1: 2 Statement"),
        ):
            got, message = formatted(editor, text), editor.wait_shown()
            self.check_true("formatting is refused", got is None and message == f"candesk: not formatted: {why}", (got, message))
        got = formatted(editor, 'CM_ "// none"  ;\n')
        self.check_true("a comment in a string is none", got == 'VERSION ""\nNS_ :\nBS_:\nBU_:\nCM_ "// none";\n', got)
        got, message = formatted(editor, 'CM_  "\udce4" ;\n'), editor.wait_shown()
        self.check_true("formatting what isn't UTF-8", got is None and "isn't UTF-8" in message, (got, message))


class VectorFormatting(ToolCase):
    def test_vector(self) -> None:
        editor = Editor(self.program, options={"format": "vector"})
        got = formatted(editor, KEPT)
        self.check_true("formatting in Vector's order", got == VECTOR, got)
        self.check_true("vector: the server ends", editor.end() == (0, b""))


@cases(COMPLETIONS)
class Completions(EditorCase):
    def row(self, typed: str, wanted: list[str]) -> None:
        self.editor.open(BASE)
        # (names come from the last valid text, which this isn't)
        self.editor.about("completion", at(0, 0))
        self.editor.change([{"text": BASE + typed}])
        *lines, last = typed.split("\n")
        items = self.editor.about("completion", at(BASE.count("\n") + len(lines), len(last)))
        labels = sorted(it["label"] for it in items)
        self.check_true(f"completion of {typed!r}", labels == wanted, labels)


class CompletionEdits(EditorCase):
    """What an accepted completion replaces."""

    def check_edit(self, name: str, typed: str, wanted: tuple[list[Span], str]) -> None:
        self.editor.open(BASE)
        self.editor.about("completion", at(0, 0))
        self.editor.change([{"text": BASE + typed}])
        items = self.editor.about("completion", at(BASE.count("\n"), 7))
        got = [(spans([it["textEdit"]]), it["textEdit"]["newText"]) for it in items]
        self.check_true(name, got == [wanted], got)

    def test_both_quotes(self) -> None:
        line = BASE.count("\n")
        self.check_edit("what is typed replaces both quotes", 'BA_ "ki" BO_ 500', ([(line, 4, 8)], '"Kind"'))

    def test_a_message_by_its_name(self) -> None:
        line = BASE.count("\n")
        self.check_edit("a message by its name", "VAL_ mo", ([(line, 5, 7)], "500"))


@cases(FIXES)
class QuickFixes(EditorCase):
    def row(self, text: str, where: tuple[int, int], wanted: str | None) -> None:
        got = fixed(self.editor, text, at(*where))
        self.check_true(f"quick fix of {text!r}", got == ([] if wanted is None else [wanted]), got)


class OtherFixes(EditorCase):
    def test_where_none_is(self) -> None:
        text = FIXES[0][0]
        self.check_true("no quick fix elsewhere", fixed(self.editor, text, at(0, 2)) == [])
        self.check_true("no quick fix among refactorings", fixed(self.editor, text, at(1, 11), ["refactor"]) == [])
        self.check_true("a quick fix that is asked for", len(fixed(self.editor, text, at(1, 11), ["quickfix"])) == 1)

    def test_identifier_with_entries(self) -> None:
        """Statements kept verbatim that name nothing are in the text too."""
        text = 'BU_: E\nBO_ 2048 A: 1 E\nCM_ BO_ 2048 "a 2048";\nBO_TX_BU_ 2048 : E;\nSIG_GROUP_ ;\n'
        got = fixed(self.editor, text, at(1, 4))
        wanted = 'BU_: E\nBO_ 2147485696 A: 1 E\nCM_ BO_ 2147485696 "a 2048";\nBO_TX_BU_ 2147485696 : E;\nSIG_GROUP_ ;\n'
        self.check_true("quick fix of an identifier with entries", got == [wanted], got)


@cases(DEFINITIONS)
class Definitions(EditorCase):
    def row(self, name: str, where: tuple[int, int], wanted: list[Span]) -> None:
        for end in ("\n", "\r\n"):
            self.editor.open(BASE.replace("\n", end))
            found = spans(self.editor.about("definition", at(*where)))
            self.check_true(f"definition of {name}, {end!r}", found == wanted, found)


@cases(REFERENCES)
class References(EditorCase):
    def row(self, name: str, where: tuple[int, int], wanted: list[Span]) -> None:
        for end in ("\n", "\r\n"):
            self.editor.open(BASE.replace("\n", end))
            found = spans(self.editor.about("references", at(*where), context={"includeDeclaration": True}))
            self.check_true(f"references of {name}, {end!r}", found == wanted, found)

    def test_without_the_definition(self) -> None:
        self.editor.open(BASE)
        found = spans(self.editor.about("references", at(5, 6), context={"includeDeclaration": False}))
        wanted = [(9, 12, 17), (14, 9, 14), (15, 30, 35), (16, 16, 21)]
        self.check_true("references without the definition", found == wanted, found)


@cases(HOVERS)
class Hovers(EditorCase):
    def row(self, name: str, where: tuple[int, int], wanted: str) -> None:
        self.editor.open(BASE)
        got = self.editor.about("hover", at(*where))
        shown = got["contents"]["value"] if got else ""
        is_right = shown.startswith(f"```\n{wanted}") and shown.endswith("\n```") and got["contents"]["kind"] == "markdown"
        self.check_true(f"hover over {name}", is_right, shown)

    def test_range(self) -> None:
        self.editor.open(BASE)
        got = self.editor.about("hover", at(14, 10))["range"]
        self.check_true("the range of hover", spans([{"range": got}]) == [(14, 9, 14)], got)

    def test_nothing(self) -> None:
        self.editor.open(BASE)
        self.check_true("hover over nothing", self.editor.about("hover", at(0, 3)) is None)


class Locations(EditorCase):
    """What else needs the locations of names."""

    def test_outline(self) -> None:
        editor = self.editor
        editor.open(BASE)
        found = editor.about("documentSymbol")
        names = [(it["name"], [child["name"] for child in it["children"]]) for it in found]
        wanted = [("OnOff", []), ("Motor", ["Mode", "Speed", "Heat"]), ("CCVS", ["Speed"]), ("Kind", [])]
        self.check_true("outline", names == wanted, names)
        motor = found[1]
        self.check_true("outline: a message", (motor["detail"], motor["kind"]) == ("500, 4 bytes", 5), motor)
        got = motor["range"]["start"], motor["range"]["end"], motor["selectionRange"]
        wanted_ranges = at(3, 0), at(6, 41), {"start": at(3, 8), "end": at(3, 13)}
        self.check_true("outline: the ranges of a message", got == wanted_ranges, got)
        speed = motor["children"][1]
        got = speed["range"]["start"], speed["range"]["end"], speed["selectionRange"]
        wanted_ranges = at(5, 1), at(5, 59), {"start": at(5, 5), "end": at(5, 10)}
        self.check_true("outline: the ranges of a signal", got == wanted_ranges, got)

    def test_renaming(self) -> None:
        editor = self.editor
        editor.open(BASE)
        lines = BASE.split("\n")
        for where, new, changed in RENAMINGS:
            got = editor.about("rename", at(*where), newName=new)
            text = applied(BASE, got["changes"][URI]) if "changes" in got else ""
            wanted = "\n".join(changed.get(index, line) for index, line in enumerate(lines))
            self.check_true(f"renaming into {new}", text == wanted, got)
            message = editor.shown()
            kept = ["candesk: renaming {} also changes 1 line with statements kept verbatim, which candesk doesn't check: 16"]
            wanted_message = [it.format({"Pace": "Speed", "Gear": "Mode"}[new]) for it in kept] if 15 in changed else []
            self.check_true(f"renaming into {new} announces statements kept verbatim", message == wanted_message, message)
        for new, why in (("Mode", "candesk session: refused 23 SignalExists"), ("9x", "9x isn't a name"), ("BO_", "bad command")):
            got = editor.about("rename", at(5, 6), newName=new)
            self.check_true(f"renaming into {new} is refused", why in got.get("message", ""), got)
        got = editor.about("prepareRename", at(14, 2))
        wanted_range = {"start": at(14, 9), "end": at(14, 14)}
        self.check_true("what can be renamed", got == {"range": wanted_range, "placeholder": "Speed"}, got)
        self.check_true("what can't be renamed", editor.about("prepareRename", at(3, 9)) is None)

    def test_odd_places(self) -> None:
        """A name after characters of two units on its line, messages with one number, and a text that was valid before."""
        editor = self.editor
        editor.open(BASE + 'CM_ "ä😀"; VAL_ 500 Heat 0 "x" ;')
        found = spans(editor.about("references", at(17, 23), context={"includeDeclaration": False}))
        # (`CM_ "ä😀"; ` has 11 units, `VAL_ 500 ` nine)
        self.check_true("references after characters of two units", found == [(17, 20, 24)], found)
        got = editor.about("rename", at(17, 23), newName="Temperature")
        found = spans(got["changes"][URI])
        self.check_true("renaming after characters of two units", found == [(6, 5, 9), (17, 20, 24)], got)
        text = 'BO_ 5 A: 1 N\n SG_ S : 0|8@1+ (1,0) [0|0] "" N\nBO_ 5 B: 2 N\n SG_ S : 0|16@1+ (1,0) [0|0] "" N\nVAL_ 5 S 0 "x" ;\n'
        editor.open(text)
        shown = [editor.about("hover", at(*where))["contents"]["value"][4:12] for where in ((1, 5), (3, 5), (2, 6), (4, 7))]
        self.check_true("hover over messages with one number", shown == ["A.S: 8 b", "B.S: 16 ", "B 5 (0x0", "A.S: 8 b"], shown)
        found = spans(editor.about("definition", at(4, 7)))
        self.check_true("definitions in messages with one number", found == [(1, 5, 6), (3, 5, 6)], found)
        got = editor.about("rename", at(1, 5), newName="T")
        self.check_true("renaming in messages with one number", got.get("message") == "candesk session: refused 33 NameShared", got)
        editor.replace("BO_ 5 A: 1 Vector__XXX\n")
        got = editor.about("hover", at(0, 13))["contents"]["value"], editor.about("definition", at(0, 13))
        self.check_true("no node", got == ("```\nVector__XXX: no node\n```", []), got)
        editor.replace(text + "VAL_")
        got = editor.about("definition", at(4, 7)), editor.about("documentSymbol"), editor.about("hover", at(1, 5))
        self.check_true("a rejected text has no names", got == (None, None, None), got)
        got = editor.about("rename", at(1, 5), newName="T")
        self.check_true("renaming in a rejected text", "valid database" in got.get("message", ""), got)

    def test_all_renamings(self) -> None:
        """Each signal of the examples gets a name that nothing has: what changes are its old names, all that a session renames."""
        editor = self.editor
        wrong, count = [], 0
        for name in ("car.dbc", "lorry.dbc", "truck.dbc"):
            text, index = read(example(name)).decode(), -1
            editor.open(text)
            for number, line in enumerate(text.split("\n")):
                index += line.startswith("BO_ ")
                found = re.match(r" SG_ (\w+)", line)
                if not found:
                    continue
                got = editor.about("rename", at(number, 5), newName="Zq9")
                renamed = applied(text, got["changes"][URI]) if "changes" in got else ""
                command = f"rename-signal {index} {found[1]} Zq9\nprint\n".encode()
                wanted = ran([self.program, "session", example(name)], command).out.removeprefix(b"ok\n").removesuffix(b"ok\n")
                printed = ran([self.program, "print", "/dev/stdin"], renamed.encode()).out
                count += 1
                if renamed.replace("Zq9", found[1]) != text or unkept(printed) != unkept(wanted):
                    wrong.append((name, line, got))
        self.check_true(f"renaming {count} signals of the examples", not wrong and count > 50, wrong[:1])
        editor.shown()


if __name__ == "__main__":
    main()
