"""A client of the language server, for tests: it speaks the protocol over the server's standard streams, and keeps what comes.

It has its own framing, and finds positions in a text by its own count, so that nothing of the server is needed to judge it.
"""

from __future__ import annotations

import json
import os
import queue
import re
import subprocess
import threading
import time
from typing import Any

from tool_runs import ToolCase, path_of

Object = dict[str, Any]

# how long an answer may take, in seconds
PATIENCE = 20
PUBLISHED = "textDocument/publishDiagnostics"
URI = "file:///work/a.dbc"
LINE_END = re.compile("\r\n|\n|\r")
# the capabilities of an editor of today
CAPABILITIES: Object = {
    "textDocument": {
        "publishDiagnostics": {"relatedInformation": True},
        "hover": {"contentFormat": ["markdown", "plaintext"]},
        "documentSymbol": {"hierarchicalDocumentSymbolSupport": True},
    }
}


class Ended(Exception):
    """The server ended, or took too long."""


def framed(message: Object) -> bytes:
    try:
        body = json.dumps(message, ensure_ascii=False).encode("utf-8", "surrogateescape")
    except UnicodeEncodeError:
        body = json.dumps(message).encode()
    return b"Content-Length: %d\r\n\r\n" % len(body) + body


def units(text: str) -> int:
    return len(text.encode("utf-16-le", "surrogatepass")) // 2


def position(text: str, at: int) -> Object:
    """The position of a character of a text."""
    *lines, last = LINE_END.split(text[:at])
    return {"line": len(lines), "character": units(last)}


def range_of(text: str, part: str, occurrence: int = 0) -> Object:
    """The range of a part of a text."""
    at = -1
    for _ in range(occurrence + 1):
        at = text.index(part, at + 1)
    return {"start": position(text, at), "end": position(text, at + len(part))}


def index_of(text: str, at: Object) -> int:
    """The character at a position."""
    starts = [0, *(it.end() for it in LINE_END.finditer(text))]
    if at["line"] >= len(starts):
        return len(text)
    index, count = starts[at["line"]], 0
    while index < len(text) and count < at["character"] and text[index] not in "\r\n":
        count += units(text[index])
        index += 1
    return index


def applied(text: str, edits: list[Object]) -> str:
    """A text with edits done that the server asked for."""
    original = text

    def index(at: Object) -> int:
        return index_of(original, at)

    ends = len(text) + 1
    for edit in sorted(edits, key=lambda it: index(it["range"]["start"]), reverse=True):
        begin, end = index(edit["range"]["start"]), index(edit["range"]["end"])
        if not begin <= end < ends:
            raise ValueError(f"edits overlap: {edits}")
        text, ends = text[:begin] + edit["newText"] + text[end:], begin + 1
    return text


class Editor:
    """A client with a server of its own."""

    def __init__(self, program: str, *, options: Object | None = None, is_ready: bool = True, words: tuple[str, ...] = ()) -> None:
        env = dict(os.environ, CANDESK=program, LC_ALL="C.UTF-8")
        pipe = subprocess.PIPE
        self.process = subprocess.Popen([path_of("candesk-lsp"), *words], stdin=pipe, stdout=pipe, stderr=pipe, env=env)
        self.came: queue.Queue[Object | None] = queue.Queue()
        self.notes: list[Object] = []
        self.answers: dict[int, Object] = {}
        self.count = self.version = 0
        self.text = ""
        self.capabilities: Object = {}
        threading.Thread(target=self.read_all, daemon=True).start()
        if is_ready:
            given = {"processId": None, "rootUri": None, "capabilities": CAPABILITIES, "initializationOptions": options or {}}
            self.capabilities = self.ask("initialize", given)["result"]["capabilities"]
            self.note("initialized", {})

    # ---- messages

    def read_all(self) -> None:
        source = self.process.stdout
        assert source
        while head := source.readline():
            length = int(head.split(b":")[1])
            assert source.readline() == b"\r\n"
            self.came.put(json.loads(source.read(length)))
        self.came.put(None)

    def write(self, data: bytes) -> None:
        assert self.process.stdin
        self.process.stdin.write(data)
        self.process.stdin.flush()

    def note(self, method: str, params: Object) -> None:
        self.write(framed({"jsonrpc": "2.0", "method": method, "params": params}))

    def send(self, method: str, params: Object | None) -> int:
        self.count += 1
        self.write(framed({"jsonrpc": "2.0", "id": self.count, "method": method, "params": params}))
        return self.count

    def ask(self, method: str, params: Object | None) -> Object:
        number = self.send(method, params)
        while number not in self.answers:
            self.take(PATIENCE)
        return self.answers.pop(number)

    def take(self, seconds: float) -> None:
        """Takes the next message that comes."""
        try:
            message = self.came.get(timeout=seconds)
        except queue.Empty:
            raise Ended(f"nothing came for {seconds} seconds") from None
        if message is None:
            raise Ended(f"the server ended: {self.ended()}")
        if "method" in message:
            self.notes.append(message)
        else:
            self.answers[message["id"]] = message

    def taken(self, seconds: float) -> list[Object]:
        """All notifications so far and those of some more seconds; from then on they are forgotten."""
        end = time.monotonic() + seconds
        while (left := end - time.monotonic()) > 0:
            try:
                self.take(left)
            except Ended:
                break
        found, self.notes = self.notes, []
        return found

    def shown(self, seconds: float = 0.0) -> list[str]:
        """The messages that the user saw."""
        return [it["params"]["message"] for it in self.taken(seconds) if it["method"] == "window/showMessage"]

    def wait_shown(self) -> str:
        """The next message that the user sees."""
        while True:
            for at, it in enumerate(self.notes):
                if it["method"] == "window/showMessage":
                    del self.notes[at]
                    message: str = it["params"]["message"]
                    return message
            self.take(PATIENCE)

    # ---- documents

    def open(self, text: str, uri: str = URI) -> list[Object]:
        """Opens a document, and returns its diagnostics."""
        self.version, self.text = self.version + 1, text
        item = {"uri": uri, "languageId": "dbc", "version": self.version, "text": text}
        self.note("textDocument/didOpen", {"textDocument": item})
        return self.diagnostics(uri)

    def change(self, changes: list[Object], uri: str = URI) -> None:
        self.version += 1
        self.note("textDocument/didChange", {"textDocument": {"uri": uri, "version": self.version}, "contentChanges": changes})

    def replace(self, text: str, uri: str = URI) -> list[Object]:
        """Sends a whole text, and returns its diagnostics."""
        self.text = text
        self.change([{"text": text}], uri)
        return self.diagnostics(uri)

    def close(self, uri: str = URI) -> None:
        self.note("textDocument/didClose", {"textDocument": {"uri": uri}})

    def diagnostics(self, uri: str = URI) -> list[Object]:
        """The diagnostics of the version that was sent last."""
        while True:
            for it in self.notes:
                params = it["params"]
                if it["method"] == PUBLISHED and params["uri"] == uri and params.get("version") == self.version:
                    self.notes.remove(it)
                    found: list[Object] = params["diagnostics"]
                    return found
            self.take(PATIENCE)

    def about(self, method: str, at: Object | None = None, uri: str = URI, **more: Any) -> Any:
        """The result of a request about a document, and perhaps a position in it; or its error."""
        params = {"textDocument": {"uri": uri}, **({"position": at} if at else {}), **more}
        answer = self.ask(f"textDocument/{method}", params)
        return answer["result"] if "result" in answer else answer["error"]

    # ---- the end

    def end(self) -> tuple[int, bytes]:
        """Shuts the server down; its exit status, and what it wrote to standard error."""
        self.ask("shutdown", None)
        self.note("exit", {})
        return self.ended()

    def ended(self) -> tuple[int, bytes]:
        status = self.process.wait(PATIENCE)
        assert self.process.stdin and self.process.stderr
        self.process.stdin.close()
        return status, self.process.stderr.read()

    def kill(self) -> None:
        self.process.kill()
        self.process.wait()


class EditorCase(ToolCase):
    """A test with a server of its own, which has to end without a fault."""

    editor: Editor

    def setUp(self) -> None:
        super().setUp()
        self.editor = Editor(self.program)

    def tearDown(self) -> None:
        ended = self.editor.end()
        self.check_true("the server ends", ended == (0, b""), ended)
        super().tearDown()
