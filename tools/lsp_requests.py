"""The context of a request: a document, and a client with its capabilities and options."""

from __future__ import annotations

from dataclasses import dataclass
from typing import Any, Callable

from lsp_documents import Text
from lsp_program import Snapshot

Object = dict[str, Any]

INVALID_PARAMS, FAILED = -32602, -32803
ERROR, WARNING, INFO = 1, 2, 3


class RequestError(Exception):
    """A request that is refused, and why."""

    def __init__(self, text: str, code: int = FAILED) -> None:
        super().__init__(text)
        self.code = code


@dataclass
class Document:
    """A document that is open in the editor."""

    uri: str
    version: int
    text: Text
    snapshot: Snapshot
    # the last version that wasn't rejected
    last_valid: Snapshot | None = None

    def offset(self, params: Object) -> int:
        return self.text.offset(params["position"])


def capability(params: Object, *path: str) -> Any:
    """The value of a client's capability; None if the client doesn't have it."""
    it: Any = params.get("capabilities")
    for name in path:
        it = it.get(name) if isinstance(it, dict) else None
    return it


def ignore(kind: int, text: str) -> None:
    """Shows nothing."""


@dataclass
class Client:
    """The capabilities of a client, and the options that it gave."""

    has_related: bool = False
    has_markdown: bool = False
    has_tree: bool = False
    is_vector: bool = False
    # shows a message to the user
    show: Callable[[int, str], None] = ignore

    def take(self, params: Object) -> None:
        """Takes the parameters of `initialize`."""
        self.has_related = bool(capability(params, "textDocument", "publishDiagnostics", "relatedInformation"))
        self.has_markdown = "markdown" in (capability(params, "textDocument", "hover", "contentFormat") or ())
        self.has_tree = bool(capability(params, "textDocument", "documentSymbol", "hierarchicalDocumentSymbolSupport"))
        options = params.get("initializationOptions")
        self.is_vector = isinstance(options, dict) and options.get("format") == "vector"
