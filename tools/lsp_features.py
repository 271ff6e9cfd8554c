"""The features of a position or a whole text: hover, outline, definition and references; and all capabilities of the server."""

from __future__ import annotations

import re
from collections.abc import Callable
from typing import Any, Optional

import candesk_tools as tools
import lsp_completion
import lsp_edits
import lsp_rename
from lsp_database import NOBODY, Database, database, diagrams, message_lines, signal_lines
from lsp_names import ATTRIBUTE, NODE, SIGNAL, TABLE, Name, Names, Statement, Thing, name_at, names
from lsp_requests import Client, Document

Object = dict[str, Any]
Feature = Callable[[Document, Object, Client], Optional[Any]]

# kinds of symbols
CLASS, PROPERTY, FIELD, ENUM = 5, 7, 8, 10
KINDS = {"BO_": CLASS, "SG_": FIELD, "VAL_TABLE_": ENUM, "BA_DEF_": PROPERTY}


# ---- what is at a position


def index_at(found: Names, known: Database, thing: Thing, statement: Statement | None) -> int | None:
    """The index of a thing's message: in a `BO_` or `SG_` statement its own, elsewhere the first with its ID."""
    if statement and statement.keyword in ("BO_", "SG_") and statement.thing and statement.thing.number == thing.number:
        return sum(it.keyword == "BO_" and it.begin <= statement.begin for it in found.statements) - 1
    return known.index_of(thing.number, thing.name or None)


# ---- hover


def node_lines(known: Database, name: str) -> list[str]:
    if name == NOBODY:
        return [f"{name}: no node"]
    sent = [it["name"] for it in known.messages if it["sender"] == name]
    signals = ((f"{it['name']}.{signal}", of) for it in known.messages for signal, of in it["signals"].items())
    received = [signal for signal, of in signals if name in of["receivers"]]
    lines = [f"node {name}" + ("" if name in known.rest["nodes"] else ", not in BU_")]
    lines += [it["comment"] for it in known.rest["comments"] if it.get("node") == name]
    lines.append(f"sends {', '.join(sent) or 'nothing'}")
    return [*lines, f"receives {', '.join(received) or 'nothing'}"]


def table_lines(known: Database, name: str) -> list[str]:
    tables = (it for it in known.rest["value_tables"] if it["name"] == name)
    return [f"value table {name}", *(f"{it['value']} \"{it['name']}\"" for table in tables for it in table["values"])]


def attribute_lines(known: Database, name: str) -> list[str]:
    lines = [f'attribute "{name}"']
    for it in known.rest["definitions"]:
        if it["name"] == name:
            values = ",".join(f'"{value["text"]}"' for value in it.get("values", ()))
            limits = f"{it['minimum']} to {it['maximum']}" if "minimum" in it else ""
            lines.append(" ".join(part for part in ("of a", it.get("object", "database"), it["type"], values, limits) if part))
    return lines + [f"default {it.get('value', it.get('text'))}" for it in known.rest["defaults"] if it["name"] == name]


def described(document: Document, found: Names, known: Database, thing: Thing, statement: Statement | None) -> list[str]:
    """The description of a thing, with the layout diagram of its message."""
    simple = {NODE: node_lines, TABLE: table_lines, ATTRIBUTE: attribute_lines}
    if thing.kind in simple:
        return simple[thing.kind](known, thing.name)
    index = index_at(found, known, thing, statement)
    if index is None:
        return []
    message = known.messages[index]
    lines = signal_lines(message, thing.name) if thing.kind == SIGNAL else message_lines(message)
    return [*lines, "", diagrams(document.snapshot)[index]]


def fenced(lines: list[str]) -> str:
    """Lines as a block of code in Markdown, whatever they contain."""
    text = "\n".join(lines)
    fence = "`" * max(3, *(1 + len(it) for it in re.findall("`+", text) or [""]))
    return f"{fence}\n{text}\n{fence}"


def hover(document: Document, params: Object, client: Client) -> Object | None:
    found, known = names(document.snapshot), database(document.snapshot)
    if not found or not known:
        return None
    offset = document.offset(params)
    statement, name = found.statement_before(offset), name_at(found, offset)
    thing = name.thing if name else None
    if thing is None and statement and document.text.line_of(statement.begin) == document.text.line_of(offset):
        thing = statement.thing
    lines = described(document, found, known, thing, statement) if thing else []
    if not lines:
        return None
    lines = [part for it in lines for part in it.splitlines() or [""]]
    kind, value = ("markdown", fenced(lines)) if client.has_markdown else ("plaintext", "\n".join(lines))
    where = {"range": document.text.range(name.begin, name.end)} if name else {}
    return {"contents": {"kind": kind, "value": value}, **where}


# ---- outline


def symbol_of(document: Document, statement: Statement, known: Database, index: int, end: int) -> Object:
    """The symbol of a statement that ends before an offset."""
    thing, text = statement.thing, document.text
    assert thing
    last = min(text.line(text.line_of(statement.end)).end, end)
    name, detail = thing.name, ""
    if statement.keyword == "BO_":
        message = known.messages[index]
        name, detail = message["name"], f"{thing.number}, {tools.counted(message['size'], 'byte')}"
    token = re.search(rb'("[^"]*"|\w+)$', text.data[statement.begin : statement.end])
    begin = statement.begin + token.start() if token else statement.begin
    return {
        "name": name or '""', "detail": detail, "kind": KINDS[statement.keyword],
        "range": text.range(statement.begin, last), "selectionRange": text.range(begin, statement.end), "children": [],
    }


def outline(document: Document, found: Names, known: Database) -> list[Object]:
    """Messages with their signals, value tables and definitions of attributes."""
    made: list[Object] = []
    message: Object = {}
    index = -1
    begins = [*found.statement_begins[1:], len(document.text.data)]
    for statement, end in zip(found.statements, begins):
        if statement.keyword not in KINDS:
            continue
        index += statement.keyword == "BO_"
        symbol = symbol_of(document, statement, known, index, end)
        if statement.keyword == "SG_":
            message["children"].append(symbol)
            message["range"] = {"start": message["range"]["start"], "end": symbol["range"]["end"]}
            continue
        message = symbol
        made.append(symbol)
    return made


def flat(symbols: list[Object], uri: str, container: str = "") -> list[Object]:
    """The symbols of an outline as a list, for a client without support for trees."""
    made: list[Object] = []
    for it in symbols:
        location = {"uri": uri, "range": it["selectionRange"]}
        made.append({"name": it["name"], "kind": it["kind"], "location": location, "containerName": container})
        made += flat(it["children"], uri, it["name"])
    return made


def document_symbol(document: Document, params: Object, client: Client) -> list[Object] | None:
    found, known = names(document.snapshot), database(document.snapshot)
    if not found or not known:
        return None
    made = outline(document, found, known)
    return made if client.has_tree else flat(made, document.uri)


# ---- definition and references


def locations(document: Document, found: list[Name]) -> list[Object]:
    return [{"uri": document.uri, "range": document.text.range(it.begin, it.end)} for it in found]


def definition(document: Document, params: Object, client: Client) -> list[Object] | None:
    found = names(document.snapshot)
    name = name_at(found, document.offset(params)) if found else None
    if not found or not name:
        return None
    return locations(document, [it for it in found.of(name.thing) if it.is_definition])


def references(document: Document, params: Object, client: Client) -> list[Object] | None:
    found = names(document.snapshot)
    name = name_at(found, document.offset(params)) if found else None
    if not found or not name:
        return None
    has_definitions = (params.get("context") or {}).get("includeDeclaration", True)
    named = [it for it in found.of(name.thing) if has_definitions or not it.is_definition]
    if name.thing.kind == SIGNAL:
        kept = lsp_edits.kept_signals(document.text.data, name.thing.number, name.thing.name)
        named += [Name(begin, end, name.thing) for _, begin, end in kept]
    return locations(document, sorted(named))


FEATURES: dict[str, Feature] = {
    "textDocument/hover": hover,
    "textDocument/documentSymbol": document_symbol,
    "textDocument/definition": definition,
    "textDocument/references": references,
    "textDocument/completion": lsp_completion.completion,
    "textDocument/formatting": lsp_edits.formatting,
    "textDocument/codeAction": lsp_edits.code_action,
    "textDocument/prepareRename": lsp_rename.prepare_rename,
    "textDocument/rename": lsp_rename.rename,
}
CAPABILITIES: Object = {
    "hoverProvider": True,
    "documentSymbolProvider": True,
    "definitionProvider": True,
    "referencesProvider": True,
    "completionProvider": {"triggerCharacters": lsp_completion.TRIGGERS},
    "documentFormattingProvider": True,
    "codeActionProvider": {"codeActionKinds": [lsp_edits.QUICK_FIX]},
    "renameProvider": {"prepareProvider": True},
}
