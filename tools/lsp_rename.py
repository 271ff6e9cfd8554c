"""The renaming of a signal: edits of only the tokens that name it, and only if a session renames it with the same result."""

from __future__ import annotations

import re
from typing import Any

import candesk_tools as tools
from lsp_database import database
from lsp_edits import Edit, edited, edits_of, is_confirmed, kept_signals
from lsp_names import SIGNAL, Name, Names, name_at, names
from lsp_program import PRINT, ask
from lsp_requests import INFO, Client, Document, RequestError

Object = dict[str, Any]

WORD = re.compile(r"[A-Za-z_][A-Za-z0-9_]*")


def signal_at(document: Document, params: Object) -> tuple[Names, Name] | None:
    """The names of a text, and the signal at a position."""
    found = names(document.snapshot)
    name = name_at(found, document.offset(params)) if found else None
    return (found, name) if found and name and name.thing.kind == SIGNAL else None


def prepare_rename(document: Document, params: Object, client: Client) -> Object | None:
    found = signal_at(document, params)
    if not found:
        return None
    name = found[1]
    # (at a keyword, the name is that of the statement's signal)
    token = f"\\b{re.escape(name.thing.name)}$".encode()
    last = re.search(token, document.text.data[name.begin : name.end])
    begin = name.begin + last.start() if last else name.begin
    return {"range": document.text.range(begin, name.end), "placeholder": name.thing.name}


def rename(document: Document, params: Object, client: Client) -> Object:
    found = signal_at(document, params)
    known = database(document.snapshot)
    if not found or not known:
        raise RequestError("only signals of a valid database can be renamed")
    names, name = found
    thing, new, data = name.thing, str(params["newName"]), document.snapshot.data
    index = known.index_of(thing.number, thing.name)
    if not WORD.fullmatch(new):
        raise RequestError(f"{new} isn't a name: a name has letters, digits and _, and doesn't begin with a digit")
    if index is None:
        raise RequestError(f"no message {thing.number} has a signal {thing.name}")
    edits = [Edit(it.begin, it.end, new.encode()) for it in names.of(thing)]
    if not is_confirmed(data, edits, f"rename-signal {index} {thing.name} {new}"):
        raise RequestError("candesk session renames it otherwise; nothing is changed")
    kept = kept_signals(data, thing.number, thing.name)
    everything = edits + [Edit(begin, end, new.encode()) for _, begin, end in kept]
    if ask(PRINT, edited(data, everything)).status:
        raise RequestError("the text would be rejected; nothing is changed")
    if kept:
        lines = sorted({tools.line_of(data, begin) for _, begin, _ in kept})
        what = f"{tools.counted(len(lines), 'line')} with statements kept verbatim, which candesk doesn't check"
        client.show(INFO, f"renaming {thing.name} also changes {what}: {', '.join(map(str, lines))}")
    return {"changes": {document.uri: edits_of(document, everything)}}
