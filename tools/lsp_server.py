"""The language server: it reads messages, keeps documents, checks each after a pause, and answers requests.

One thread reads, one runs the program for diagnostics, and the main thread does all else: it waits for events, and only it writes.
The check of a superseded version is stopped, and its report is dropped.
"""

from __future__ import annotations

import queue
import threading
import time
from dataclasses import dataclass, field
from typing import Any, BinaryIO, Callable, Union

import candesk_tools as tools
import lsp_diagnostics
import lsp_features
import lsp_framing
from lsp_documents import Text, apply_change, to_bytes
from lsp_program import BAD_WORDS, CHECK, OBJECTS, Answer, Run, Snapshot
from lsp_requests import ERROR, INVALID_PARAMS, WARNING, Client, Document, RequestError

Object = dict[str, Any]

# how long a text has to stay unchanged before it is checked, in seconds
DEBOUNCE = 0.1
# the longest text that is checked, in bytes: a check of it takes half a second, and each edit needs one
MAX_TEXT = 16 << 20
# how many messages may wait to be handled
MAX_WAITING = 100
# how long the server waits for a stopped check to end, in seconds
PATIENCE = 5

METHOD_NOT_FOUND, NOT_INITIALIZED, CANCELLED = -32601, -32002, -32800
CANCEL = "$/cancelRequest"
# the exceptions that malformed parameters or output of a program raise
BAD_PARAMETERS = (LookupError, TypeError, ValueError, AttributeError, ArithmeticError)
# changes of a document come as ranges with their new text
INCREMENTAL = 2


@dataclass(frozen=True)
class Closed:
    """The stream of messages has ended, or can't be read."""

    error: OSError | None = None


@dataclass(frozen=True)
class Checked:
    """The program's report about a version."""

    check: Check
    words: tuple[str, ...]
    answer: Answer


@dataclass(frozen=True)
class Finished:
    """A check has ended, perhaps by a fault."""

    check: Check
    fault: BaseException | None


Event = Union[Object, lsp_framing.BadMessage, Closed, Checked, Finished]


def cancelled_id(message: Object) -> str:
    """The ID of a request that a client has cancelled."""
    params = message.get("params")
    return str(params.get("id")) if isinstance(params, dict) else ""


class Check(threading.Thread):
    """Runs the program over a version: for its diagnostics, and if it is valid for its names, which completion uses later."""

    def __init__(self, uri: str, snapshot: Snapshot, put: Callable[[Event], None]) -> None:
        super().__init__(daemon=True)
        self.uri, self.snapshot, self.put = uri, snapshot, put
        self.is_stopped = False
        self.current: Run | None = None

    def stop(self) -> None:
        self.is_stopped = True
        if self.current:
            self.current.stop()

    def report(self, words: tuple[str, ...]) -> Answer:
        self.current = Run(words, self.snapshot.data)
        if self.is_stopped:
            self.current.stop()
        answer = self.current.answer()
        self.put(Checked(self, words, answer))
        return answer

    def run(self) -> None:
        fault: BaseException | None = None
        try:
            # (a rejected text has a line on standard error)
            if not self.is_stopped and not self.report(CHECK).errors and not self.is_stopped:
                self.report(OBJECTS)
        except (tools.Fault, OSError, MemoryError) as error:
            fault = error
        self.put(Finished(self, fault))


@dataclass
class Server:
    """The state of a server, and its streams."""

    source: BinaryIO
    sink: BinaryIO
    events: queue.Queue[Event] = field(default_factory=lambda: queue.Queue(MAX_WAITING))
    documents: dict[str, Document] = field(default_factory=dict)
    # when the text of a document is checked, by the clock
    due: dict[str, float] = field(default_factory=dict)
    check: Check | None = None
    client: Client = field(default_factory=Client)
    is_initialized: bool = False
    is_shut_down: bool = False
    # the IDs of requests that the client has cancelled
    cancelled: set[str] = field(default_factory=set)
    # the last fault that was shown, until the program answers again
    shown: str = ""

    def __post_init__(self) -> None:
        self.client.show = self.show

    # ---- events

    def read_all(self) -> None:
        """Reads messages up to the end of the stream."""
        while True:
            try:
                message = lsp_framing.read_message(self.source)
            except lsp_framing.BadMessage as error:
                self.events.put(error)
                continue
            except OSError as error:
                self.events.put(Closed(error))
                return
            if message is None:
                self.events.put(Closed())
                return
            if message.get("method") == CANCEL:
                self.cancelled.add(cancelled_id(message))
            self.events.put(message)

    def run(self) -> int:
        """Serves up to the end. Returns the exit status."""
        threading.Thread(target=self.read_all, daemon=True).start()
        status: int | None = None
        while status is None:
            try:
                status = self.handle(self.events.get(timeout=self.pause()))
            except queue.Empty:
                pass
            self.start_check()
        self.stop_check()
        return status

    def pause(self) -> float | None:
        """How long to wait for an event until the next check is due, in seconds; None if none is."""
        if self.check or not self.due:
            return None
        return max(0.0, min(self.due.values()) - time.monotonic())

    def handle(self, event: Event) -> int | None:
        """Handles an event. Returns the exit status if it is the last one."""
        if isinstance(event, Closed):
            if event.error:
                event.error.filename = "standard input"
                raise event.error
            return 0 if self.is_shut_down else 1
        if isinstance(event, lsp_framing.BadMessage):
            self.show(ERROR, str(event))
            self.send({"id": None, "error": {"code": event.code, "message": str(event)}})
        elif isinstance(event, Checked):
            self.take(event)
        elif isinstance(event, Finished):
            self.check = None
            if event.fault and not event.check.is_stopped:
                self.show_fault(event.fault)
        elif event.get("method") == "exit":
            return 0 if self.is_shut_down else 1
        elif isinstance(event.get("method"), str):
            self.answer(event) if "id" in event else self.note(event)
        elif "result" not in event and "error" not in event:
            self.send({"id": event.get("id"), "error": {"code": lsp_framing.INVALID_REQUEST, "message": "no method"}})
        return None

    # ---- sending

    def send(self, message: Object) -> None:
        lsp_framing.write_message(self.sink, {"jsonrpc": "2.0", **message})

    def notify(self, method: str, params: Object) -> None:
        self.send({"method": method, "params": params})

    def show(self, kind: int, text: str) -> None:
        """Shows a line to the user; on standard error, before the client is ready for it."""
        if self.is_initialized:
            self.notify("window/showMessage", {"type": kind, "message": f"candesk: {text}"})
        else:
            tools.report(text)

    def show_fault(self, fault: BaseException) -> None:
        """Shows that the program failed, once until it answers again."""
        text = "out of memory" if tools.lacks_memory(fault) else str(fault)
        if text != self.shown:
            self.shown = text
            self.show(ERROR, text)

    # ---- checks

    def start_check(self) -> None:
        """Starts the check that is due first, if none is running."""
        if self.check or not self.due:
            return
        uri = min(self.due, key=lambda it: self.due[it])
        if self.due[uri] > time.monotonic():
            return
        del self.due[uri]
        self.check = Check(uri, self.documents[uri].snapshot, self.events.put)
        self.check.start()

    def stop_check(self) -> None:
        if self.check:
            self.check.stop()
            end = time.monotonic() + PATIENCE
            while self.check.is_alive() and time.monotonic() < end:
                try:
                    self.events.get(timeout=0.1)
                except queue.Empty:
                    pass

    def take(self, event: Checked) -> None:
        """Takes the program's report about a version, unless a newer one has come since."""
        document = self.documents.get(event.check.uri)
        if document is None or document.snapshot is not event.check.snapshot:
            return
        document.snapshot.answers[event.words] = event.answer
        if event.words == OBJECTS:
            document.last_valid = document.snapshot
            return
        try:
            self.publish(document)
            self.shown = ""
        except BAD_PARAMETERS as error:
            self.show_fault(tools.Fault(f"candesk {' '.join(CHECK)} wrote what isn't expected: {error!r}", tools.BAD_FILES))

    def publish(self, document: Document) -> None:
        answer = document.snapshot.answer(CHECK)
        if answer.status == BAD_WORDS:
            raise ValueError(tools.error_message(answer.errors))
        made = lsp_diagnostics.diagnostics_of(answer.objects(), document.text, document.uri, self.client.has_related)
        self.notify("textDocument/publishDiagnostics", {"uri": document.uri, "version": document.version, "diagnostics": made})

    # ---- documents

    def changed(self, document: Document) -> None:
        """Records that a document has another text: what was known about the previous one is dropped."""
        if OBJECTS in document.snapshot.answers and not document.snapshot.answers[OBJECTS].status:
            document.last_valid = document.snapshot
        document.snapshot = Snapshot(document.text.data)
        self.due[document.uri] = time.monotonic() + DEBOUNCE
        self.stop_check_of(document.uri)

    def stop_check_of(self, uri: str) -> None:
        if self.check and self.check.uri == uri:
            self.check.stop()

    def reject(self, uri: str, size: int) -> None:
        """Rejects a text that is too long. Its document is unknown from then on, until it is opened again."""
        self.forget(uri)
        why = f"{size:,} bytes; a text of over {MAX_TEXT:,} isn't checked, as each edit would take too long"
        self.show(WARNING, f"{uri}: {why}")

    def forget(self, uri: str) -> None:
        self.documents.pop(uri, None)
        self.due.pop(uri, None)
        self.stop_check_of(uri)
        self.notify("textDocument/publishDiagnostics", {"uri": uri, "diagnostics": []})

    def did_open(self, params: Object) -> None:
        item = params["textDocument"]
        data = to_bytes(item["text"])
        if len(data) > MAX_TEXT:
            self.reject(item["uri"], len(data))
            return
        document = Document(item["uri"], item.get("version", 0), Text(data), Snapshot(data))
        self.documents[document.uri] = document
        self.changed(document)

    def did_change(self, params: Object) -> None:
        document = self.documents.get(params["textDocument"]["uri"])
        if document is None:
            return
        for change in params["contentChanges"]:
            new = to_bytes(change["text"])
            size = len(new) if change.get("range") is None else len(document.text.data) + len(new)
            if size > MAX_TEXT:
                self.reject(document.uri, size)
                return
            apply_change(document.text, change.get("range"), new)
        document.version = params["textDocument"].get("version", document.version)
        self.changed(document)

    def did_close(self, params: Object) -> None:
        self.forget(params["textDocument"]["uri"])

    # ---- messages

    def note(self, message: Object) -> None:
        """Handles a notification. One that isn't known is ignored, as the protocol has it."""
        handlers: dict[str, Callable[[Object], None]] = {
            "textDocument/didOpen": self.did_open,
            "textDocument/didChange": self.did_change,
            "textDocument/didClose": self.did_close,
        }
        if message["method"] == CANCEL:
            self.cancelled.discard(cancelled_id(message))
        handler = handlers.get(message["method"])
        if handler is None or not self.is_initialized or self.is_shut_down:
            return
        try:
            handler(message.get("params") or {})
        except BAD_PARAMETERS as error:
            self.show(ERROR, f"{message['method']} has bad parameters: {error!r}")

    def answer(self, request: Object) -> None:
        try:
            result = self.result_of(request)
        except RequestError as error:
            self.send({"id": request["id"], "error": {"code": error.code, "message": str(error)}})
        except tools.Fault as fault:
            # (no error of the request in addition: an editor would show both)
            self.show_fault(fault)
            self.send({"id": request["id"], "result": None})
        except BAD_PARAMETERS as error:
            message = f"{request['method']} has bad parameters: {error!r}"
            self.send({"id": request["id"], "error": {"code": INVALID_PARAMS, "message": message}})
        else:
            self.send({"id": request["id"], "result": result})

    def result_of(self, request: Object) -> Any:
        method, params = request["method"], request.get("params") or {}
        if str(request["id"]) in self.cancelled:
            raise RequestError("cancelled", CANCELLED)
        if method == "initialize" and not self.is_initialized:
            return self.initialize(params)
        if not self.is_initialized:
            raise RequestError("the server isn't initialized", NOT_INITIALIZED)
        if self.is_shut_down or method == "initialize":
            raise RequestError("not at this time", lsp_framing.INVALID_REQUEST)
        if method == "shutdown":
            self.is_shut_down = True
            return None
        feature = lsp_features.FEATURES.get(method)
        if feature is None:
            raise RequestError(f"{method} isn't supported", METHOD_NOT_FOUND)
        document = self.documents.get(params["textDocument"]["uri"])
        return feature(document, params, self.client) if document else None

    def initialize(self, params: Object) -> Object:
        self.client.take(params)
        self.is_initialized = True
        sync = {"openClose": True, "change": INCREMENTAL}
        info = {"name": "candesk-lsp"}
        return {"capabilities": {"textDocumentSync": sync, **lsp_features.CAPABILITIES}, "serverInfo": info}
