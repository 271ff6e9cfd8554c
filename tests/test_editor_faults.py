#!/usr/bin/env python3
"""The language server if something fails: the program, messages, sizes and streams; and how it ends."""

from __future__ import annotations

import os
import random
import signal
import sys
import time
from typing import Any

sys.dont_write_bytecode = True
sys.path.insert(0, os.path.dirname(os.path.realpath(__file__)))

from editor_client import CAPABILITIES, PATIENCE, URI, Editor, framed  # noqa: E402
from test_support import main  # noqa: E402
from tool_runs import ToolCase, by_shell, is_fault, path_of, tool, written  # noqa: E402


Object = dict[str, Any]

VALID = "BU_: Ecu\nBO_ 1 A: 1 Ecu\n"
PROBLEM = "BU_: Ecu\nBO_ 1 A: 1 Gate\n"
MAX_TEXT, MAX_BODY = 16 << 20, 64 << 20
# programs that end by a signal, without memory, in words of their own, and with what isn't JSON; %s is the real one
KILLED = "kill -9 $$"
NO_MEMORY = 'echo "candesk: 90 Memory" >&2; exit 4'
OTHER = "echo '{}'"
# a program that takes its time over a text with the word
SLOW = 'for path; do :; done; if grep -q Slow "$path"; then sleep %s; fi; exec %s "$@"'
# values that a client shouldn't send
ODD: tuple[Any, ...] = (None, -1, 5, 1e99, float("inf"), "x", "\ud800", True, [], {}, [None], {"line": "1"}, "file:///b.dbc")
METHODS = (
    "hover", "documentSymbol", "definition", "references", "completion", "formatting", "codeAction", "prepareRename", "rename",
)


def script(folder: str, name: str, text: str) -> str:
    path = written(folder, "new", b"#!/bin/bash\n" + text.encode() + b"\n")
    os.chmod(path, 0o755)
    # (a program that is running can't be written over)
    os.replace(path, os.path.join(folder, name))
    return os.path.join(folder, name)


def children(editor: Editor) -> list[str]:
    """The processes that the server started and that are there, also those that ended and weren't waited for."""
    found = []
    for task in os.listdir(f"/proc/{editor.process.pid}/task"):
        with open(f"/proc/{editor.process.pid}/task/{task}/children", encoding="utf-8") as file:
            found += file.read().split()
    return found


def has_children(editor: Editor, count: int) -> bool:
    """Whether the server comes to have so many children."""
    end = time.monotonic() + 5
    while time.monotonic() < end:
        if len(children(editor)) == count:
            return True
        time.sleep(0.02)
    return False


def open_only(editor: Editor, text: str) -> None:
    editor.version += 1
    item = {"uri": URI, "languageId": "dbc", "version": editor.version, "text": text}
    editor.note("textDocument/didOpen", {"textDocument": item})


def framed_bytes(body: bytes) -> bytes:
    return b"Content-Length: %d\r\n\r\n" % len(body) + body


def replaced(rng: random.Random, it: Any) -> Any:
    """A value with an odd one somewhere in it."""
    if isinstance(it, dict) and it and rng.random() < 0.9:
        key = rng.choice(list(it))
        return {name: replaced(rng, value) if name == key else value for name, value in it.items()}
    if isinstance(it, list) and it and rng.random() < 0.9:
        return [replaced(rng, it[0]), *it[1:]]
    return rng.choice(ODD)


def cpu_time(process: int) -> float:
    """How long a process has run, in seconds."""
    with open(f"/proc/{process}/stat", encoding="utf-8") as file:
        fields = file.read().rpartition(")")[2].split()
    return (int(fields[11]) + int(fields[12])) / os.sysconf("SC_CLK_TCK")


class Programs(ToolCase):
    """Programs that fail, are slow, and hang."""

    def test_program(self) -> None:
        """A program that fails is reported once, and used again as soon as it answers."""
        path = os.path.join(self.folder, "candesk")
        real = f'exec {self.program} "$@"'
        for name, text, wanted in (
            ("no program", None, f"there is no candesk at {path}, which CANDESK names"),
            ("a killed program", KILLED, "candesk explain was ended by signal 9"),
            ("a program without memory", NO_MEMORY, "candesk explain: 90 Memory"),
            ("another program", OTHER, "candesk explain --json wrote what isn't expected: KeyError('at')"),
        ):
            if text is not None:
                script(self.folder, "candesk", text)
            editor = Editor(path)
            open_only(editor, VALID)
            report = editor.wait_shown()
            for _ in range(3):
                editor.change([{"text": PROBLEM}])
                time.sleep(0.15)
            more = editor.shown(0.2)
            self.check_true(f"{name} is reported once", (report, more) == (f"candesk: {wanted}", []), (report, more))
            if text != OTHER:
                got = editor.about("formatting", options={}), editor.shown()
                self.check_true(f"{name}: formatting has no result", got[0] is None and len(got[1]) <= 1, got)
            script(self.folder, "candesk", real)
            got_codes = [it["code"] for it in editor.replace(PROBLEM)]
            self.check_true(f"{name}: the server goes on", got_codes == [13], got_codes)
            self.check_true(f"{name}: children are waited for", has_children(editor, 0), children(editor))
            ended = editor.end()
            self.check_true(f"{name}: the server ends", ended == (0, b""), ended)
            os.unlink(path)

    def test_slow(self) -> None:
        """A check of a version that is superseded is stopped, at the next change and at the end."""
        editor = Editor(script(self.folder, "candesk", SLOW % ("30", self.program)))
        open_only(editor, "BU_: Slow\n")
        self.check_true("a slow check runs", has_children(editor, 1), children(editor))
        began = time.monotonic()
        got = [it["code"] for it in editor.replace(PROBLEM)]
        took = time.monotonic() - began
        self.check_true("a superseded check is stopped", got == [13] and took < 5, (got, took))
        self.check_true("a stopped check is waited for", has_children(editor, 0), children(editor))
        editor.change([{"text": "BU_: Slow\n"}])
        self.check_true("a second slow check runs", has_children(editor, 1), children(editor))
        began = time.monotonic()
        ended = editor.end()
        self.check_true("the end stops a check", ended == (0, b"") and time.monotonic() - began < 5, ended)
        editor = Editor(script(self.folder, "candesk", SLOW % ("0.6", self.program)))
        editor.open("BU_: Slow\n")
        first, second = editor.send("textDocument/formatting", {"textDocument": {"uri": URI}, "options": {}}), editor.count + 1
        editor.send("textDocument/completion", {"textDocument": {"uri": URI}, "position": {"line": 0, "character": 0}})
        editor.note("$/cancelRequest", {"id": second})
        while second not in editor.answers:
            editor.take(PATIENCE)
        got_error = editor.answers[second].get("error", {}).get("code")
        self.check_true("a cancelled request", "result" in editor.answers[first] and got_error == -32800, editor.answers)
        editor.end()

    def test_hanging(self) -> None:
        """A program that doesn't end."""
        editor = Editor(script(self.folder, "candesk", SLOW % ("1000", self.program)))
        open_only(editor, "BU_: Slow\n")
        report = editor.wait_shown()
        self.check_true("a program that hangs", report == "candesk: candesk explain took over 10 seconds", report)
        self.check_true("the server goes on after it", [it["code"] for it in editor.replace(PROBLEM)] == [13])
        self.check_true("a program that hangs is ended", has_children(editor, 0), children(editor))
        ended = editor.end()
        self.check_true("the server ends after a program that hangs", ended == (0, b""), ended)


class Messages(ToolCase):
    """Malformed, wrong and odd messages, and huge texts."""

    def test_messages(self) -> None:
        editor = Editor(self.program)
        self.check_malformed(editor)
        self.check_wrong(editor)
        self.check_true("the server goes on after all", [it["code"] for it in editor.replace(PROBLEM)] == [13])
        ended = editor.end()
        self.check_true("the server ends after malformed messages", ended == (0, b""), ended)

    def check_malformed(self, editor: Editor) -> None:
        """Malformed messages: each is reported in one message, and the server goes on with the next."""
        for name, data, wanted in (
            ("no JSON", framed_bytes(b"{"), "a message isn't JSON"),
            ("deep JSON", framed_bytes(b"[" * 200_000), "a message isn't JSON"),
            ("a batch", framed_bytes(b"[]"), "a message isn't an object"),
            ("no length", b"Content-Type: x\r\n\r\n{}", "a message has no Content-Length"),
            ("a bad length", b"Content-Length: -5\r\n\r\n{}", "a message has no Content-Length"),
            ("long", framed_bytes(b" " * (MAX_BODY + 1)), "has 67,108,865 bytes; at most 67,108,864"),
        ):
            editor.write(data)
            # (what follows a message without a length is skipped up to the next one)
            codes = [it["code"] for it in editor.open(PROBLEM)]
            report = editor.shown()
            self.check_true(f"a message: {name}", len(report) == 1 and wanted in report[0] and codes == [13], (report, codes))
        editor.write(b"content-type: x\r\ncontent-length:16\r\n\r\n" + b'{"method":"no"} ')
        editor.write(framed({"jsonrpc": "2.0", "id": 900}))
        while not any(it.get("id") == 900 for it in editor.answers.values()):
            editor.take(PATIENCE)
        self.check_true("a message that is neither", editor.answers.pop(900).get("error", {}).get("code") == -32600)

    def check_wrong(self, editor: Editor) -> None:
        """Requests and notifications that can't be answered."""
        odd: tuple[Object, ...] = ({"method": {}}, {"method": 5}, {"method": "$/cancelRequest", "params": [1]}, {"params": {}})
        for it in odd:
            editor.write(framed({"jsonrpc": "2.0", **it}))
        got = editor.ask("textDocument/formatting", {"textDocument": {"uri": URI}, "options": {}})
        self.check_true("methods that are no words", "result" in got, got)
        for method, params, wanted_code in (
            ("textDocument/fly", {}, -32601),
            ("textDocument/hover", {}, -32602),
            ("textDocument/completion", {"textDocument": {"uri": URI}}, -32602),
            ("textDocument/completion", {"textDocument": {"uri": URI}, "position": "x"}, -32602),
            ("textDocument/completion", [1], -32602),
            ("initialize", {}, -32600),
        ):
            got = editor.ask(method, params)  # type: ignore[arg-type]
            self.check_true(f"a request that is wrong: {method}", got.get("error", {}).get("code") == wanted_code, got)
        got = editor.about("completion", {"line": 0, "character": 0}, uri="file:///b.dbc")
        self.check_true("a document that isn't open", got is None, got)
        editor.shown()
        changes = [{"range": 5, "text": ""}]
        editor.note("textDocument/didChange", {"textDocument": {"uri": URI, "version": 99}, "contentChanges": changes})
        editor.note("textDocument/fly", {})
        report = editor.shown(0.3)
        self.check_true("a notification that is wrong", len(report) == 1 and "textDocument/didChange" in report[0], report)

    def test_odd_messages(self) -> None:
        """Parameters with an odd value somewhere: each request gets one answer, and the server goes on."""
        editor, rng = Editor(self.program), random.Random(20261201)
        where = {"start": {"line": 0, "character": 0}, "end": {"line": 1, "character": 12}}
        about: Object = {"textDocument": {"uri": URI}, "position": {"line": 1, "character": 5}, "range": where, "newName": "x"}
        about["context"] = {"diagnostics": [], "only": ["quickfix"], "includeDeclaration": True}
        item = {"uri": URI, "languageId": "dbc", "version": 1, "text": PROBLEM}
        change = {"textDocument": {"uri": URI, "version": 2}, "contentChanges": [{"range": where, "text": "BU_: x\n"}]}
        editor.open(PROBLEM)
        answered = 0
        for count in range(300):
            got = editor.ask(f"textDocument/{rng.choice(METHODS)}", replaced(rng, about))
            answered += ("result" in got) != ("error" in got)
            if count % 3 == 0:
                editor.note("textDocument/didChange", replaced(rng, change))
            if count % 10 == 0:
                editor.note("textDocument/didOpen", replaced(rng, {"textDocument": item}))
                editor.note("textDocument/didClose", replaced(rng, {"textDocument": {"uri": URI}}))
        self.check_true("odd parameters", answered == 300, answered)
        # (a version that none of these had)
        editor.version = 1000
        codes = [it["code"] for it in editor.open(PROBLEM)]
        self.check_true("the server goes on after odd parameters", codes == [13], codes)
        ended = editor.end()
        self.check_true("the server ends after odd parameters", ended == (0, b""), ended)

    def test_huge(self) -> None:
        editor = Editor(self.program)
        open_only(editor, VALID + "\n" * MAX_TEXT)
        report = editor.wait_shown()
        editor.change([{"range": {"start": {"line": 0, "character": 0}, "end": {"line": 0, "character": 0}}, "text": "\n"}])
        more = editor.shown(0.3)
        wanted = f"candesk: {URI}: 16,777,240 bytes; a text of over 16,777,216 isn't checked, as each edit would take too long"
        self.check_true("a huge text", (report, more) == (wanted, []), (report, more))
        self.check_true("another text after it", [it["code"] for it in editor.open(PROBLEM)] == [13])
        editor.change([{"text": PROBLEM}, {"text": "ä" * (MAX_TEXT // 2 + 1)}])
        report = editor.wait_shown()
        self.check_true("a text that becomes huge", "16,777,218 bytes" in report, report)
        ended = editor.end()
        self.check_true("the server ends after a huge text", ended == (0, b""), ended)


class Endings(ToolCase):
    """How the server ends."""

    def test_life(self) -> None:
        editor = Editor(self.program, is_ready=False)
        got = editor.ask("textDocument/hover", {})
        self.check_true("a request before initialize", got.get("error", {}).get("code") == -32002, got)
        open_only(editor, PROBLEM)
        editor.note("exit", {})
        ended = editor.ended()
        self.check_true("exit before shutdown", ended == (1, b""), ended)
        editor = Editor(self.program, words=("--stdio",))
        editor.ask("shutdown", None)
        got = editor.about("hover", {"line": 0, "character": 0})
        self.check_true("a request after shutdown", got.get("code") == -32600, got)
        assert editor.process.stdin
        editor.process.stdin.close()
        ended = editor.process.wait(PATIENCE), b""
        self.check_true("the end of the stream after shutdown", ended == (0, b""), ended)
        initialize = framed({"jsonrpc": "2.0", "id": 1, "method": "initialize", "params": {"capabilities": CAPABILITIES}})
        for name, data in (("", b""), (" in a header", b"Content-Le"), (" in a body", initialize[:-5]), (" at once", initialize)):
            ran = tool("candesk-lsp", given=data, CANDESK=self.program)
            self.check_true(f"the end of the stream{name}", (ran.status, ran.errors) == (1, b""), ran)
        ran = tool("candesk-lsp", given=b"Content-Type: x\r\n\r\n" + initialize, CANDESK=self.program)
        self.check_true("a fault before initialize", is_fault(ran, 1, b"candesk-lsp: a message has no Content-Length\n"), ran)

    def test_streams(self) -> None:
        self.check_true("bad words", is_fault(tool("candesk-lsp", "fly"), 2, b"candesk-lsp: unrecognized arguments: fly; see"))
        ran = tool("candesk-lsp", "--help")
        self.check_true("help", ran.status == 0 and ran.out.startswith(b"Serves editors") and not ran.errors, ran)
        initialize = framed({"jsonrpc": "2.0", "id": 1, "method": "initialize", "params": {}})
        path = path_of("candesk-lsp")
        ran = by_shell('"$@" <&-', path)
        self.check_true("no standard input", is_fault(ran, 3, b"candesk-lsp: standard input: Bad file descriptor\n"), ran)
        ran = by_shell('"$@" </', path)
        self.check_true("a folder as standard input", is_fault(ran, 3, b"candesk-lsp: standard input: Is a directory\n"), ran)
        ran = by_shell('"$@" >&-', path, given=initialize)
        self.check_true("no standard output", is_fault(ran, 3, b"candesk-lsp: standard output: Bad file descriptor\n"), ran)
        ran = by_shell('{ cat; sleep 1; } | "$@" | true; exit ${PIPESTATUS[1]}', path, given=initialize * 3)
        self.check_true("a reader that goes", ran.status in (1, 3) and not ran.errors, ran)
        faults, ends = [], set()
        for limit in (8_000, 24_000, 40_000, 80_000, 160_000):
            ran = by_shell(f'ulimit -v {limit}; exec "$@"', path, given=initialize)
            ends.add(ran.status)
            if ran.status not in (1, 4) or ran.errors.count(b"\n") != (ran.status == 4) or b"Traceback" in ran.errors:
                faults.append((limit, ran))
        self.check_true("little memory", not faults and 4 in ends, (ends, faults))

    def test_waiting(self) -> None:
        """An idle server takes no time, and one that is killed leaves nothing."""
        before, os.environ["TMPDIR"] = os.environ.get("TMPDIR"), self.folder
        editor = Editor(self.program)
        editor.open(PROBLEM)
        time.sleep(0.3)
        began = cpu_time(editor.process.pid)
        time.sleep(1.5)
        took = cpu_time(editor.process.pid) - began
        self.check_true("an idle server", took <= 0.02, took)
        editor.change([{"text": VALID}])
        time.sleep(0.1)
        editor.kill()
        self.check_true("a killed server leaves no files", os.listdir(self.folder) == [], os.listdir(self.folder))
        os.environ["TMPDIR"] = before or ""
        if before is None:
            del os.environ["TMPDIR"]
        editor = Editor(self.program)
        editor.process.send_signal(signal.SIGINT)
        ended = editor.ended()
        self.check_true("an interrupt", ended == (130, b"candesk-lsp: interrupted\n"), ended)


if __name__ == "__main__":
    main()
