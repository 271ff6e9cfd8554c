"""Completions at a position: keywords, nodes, messages, signals, names of attributes, and values of enumerations.

The statement before the cursor is split into tokens; names come from the last version of the text that was a valid database.
"""

from __future__ import annotations

import re
from collections.abc import Callable
from typing import Any, NamedTuple

import candesk_tools as tools
import vector_order
from lsp_database import NOBODY, Database, database
from lsp_documents import to_bytes, to_text
from lsp_requests import Client, Document

Object = dict[str, Any]

TRIGGERS = [" ", '"']
# kinds of items
FIELD, CLASS, MODULE, PROPERTY, KEYWORD, ENUM_MEMBER = 5, 7, 9, 10, 14, 20

KEYWORDS = (*vector_order.SECTIONS, b"SG_")
# where a statement begins: after a semicolon, or at a keyword that is first on its line
BEGIN = re.compile(rb";|^[ \t]*(?=(?:%s)\b)" % b"|".join(sorted(KEYWORDS, reverse=True)), re.MULTILINE)
TOKENS = re.compile(rb'//[^\n]*|(?P<token>%s|[A-Za-z_]\w*|[\d.][\w.+-]*|[^\s\w])' % tools.QUOTED, re.DOTALL)
WORD_BEFORE = re.compile(rb"\w*\Z")
OBJECTS = {b"BU_": "node", b"BO_": "message", b"SG_": "signal", b"EV_": "environment_variable"}
TYPES = ("INT", "HEX", "FLOAT", "STRING", "ENUM")


class Item(NamedTuple):
    """A completion: its label, its kind, a detail, and the inserted text if it isn't the label."""

    label: str
    kind: int
    detail: str = ""
    text: str = ""


class StatementStart(NamedTuple):
    """The statement before the cursor: its tokens, and where the token that is being typed begins."""

    tokens: list[bytes]
    begin: int
    is_quoted: bool


def statement_start(data: bytes, offset: int) -> StatementStart | None:
    """The statement that begins before an offset; None within a comment."""
    pieces = [(kind, start, start + len(piece)) for kind, start, piece in tools.pieces(data[:offset])]
    if pieces and pieces[-1][0] == "comment":
        return None
    is_quoted = bool(pieces) and pieces[-1][0] == "open"
    begin = pieces[-1][1] if is_quoted else offset
    if not is_quoted and pieces and pieces[-1][0] == "plain":
        found = WORD_BEFORE.search(data, pieces[-1][1], offset)
        begin = found.start() if found else offset
    start = 0
    for kind, first, last in reversed(pieces):
        starts = [it.end() for it in BEGIN.finditer(data, first, min(last, begin))] if kind == "plain" else []
        if starts:
            start = starts[-1]
            break
    return StatementStart([it.group() for it in TOKENS.finditer(data, start, begin) if it["token"]], begin, is_quoted)


# ---- what may follow


def keywords() -> list[Item]:
    return [Item(it.decode(), KEYWORD) for it in KEYWORDS]


def of_words(words: tuple[str, ...]) -> list[Item]:
    return [Item(it, KEYWORD) for it in words]


def nodes(known: Database) -> list[Item]:
    return [Item(it, MODULE) for it in (*known.rest["nodes"], NOBODY)]


def messages(known: Database) -> list[Item]:
    """The IDs of messages, also by their names."""
    by_number = [Item(str(it["number"]), CLASS, it["name"]) for it in known.messages]
    return by_number + [Item(it["name"], CLASS, str(it["number"]), str(it["number"])) for it in known.messages]


def signals(known: Database, number: bytes, is_multiplexor: bool = False) -> list[Item]:
    found = known.numbered(int(number)) if number.isdigit() else []
    return [
        Item(name, FIELD, f"{message['name']}.{name}")
        for message in found
        for name, it in message["signals"].items()
        if not is_multiplexor or (it["tag"] or "").endswith("M")
    ]


def attributes(known: Database) -> list[Item]:
    return [Item(f'"{it["name"]}"', PROPERTY, f"{it.get('object', 'database')}, {it['type']}") for it in known.rest["definitions"]]


def values_of(known: Database, name: bytes) -> list[Item]:
    """The values of an attribute that is an enumeration."""
    of_name = (it for it in known.rest["definitions"] if to_bytes(f'"{it["name"]}"') == name)
    return [Item(f'"{value["text"]}"', ENUM_MEMBER, it["name"]) for it in of_name for value in it.get("values", ())]


def after_target(known: Database, tokens: list[bytes]) -> list[Item] | None:
    """Completions after these tokens of a target, such as `SG_ 500 Speed`; None after a complete one."""
    kind, *rest = tokens or [b""]
    if kind == b"BU_" and not rest:
        return nodes(known)
    if kind in (b"BO_", b"SG_") and not rest:
        return messages(known)
    if kind == b"SG_" and len(rest) == 1:
        return signals(known, rest[0])
    return None


def after_comment(known: Database, tokens: list[bytes]) -> list[Item]:
    return of_words(tuple(it.decode() for it in OBJECTS)) if len(tokens) == 1 else after_target(known, tokens[1:]) or []


def after_attribute(known: Database, tokens: list[bytes]) -> list[Item]:
    """Completions after `BA_`: a name, the kind of its objects, one of them, and a value."""
    if len(tokens) == 1:
        return attributes(known)
    name, target = tokens[1], tokens[2:]
    kinds = {it.get("object") for it in known.rest["definitions"] if to_bytes(f'"{it["name"]}"') == name}
    if not target:
        found = of_words(tuple(word.decode() for word, kind in OBJECTS.items() if kind in kinds))
        return found + (values_of(known, name) if None in kinds else [])
    following = after_target(known, target)
    is_complete = len(target) == (3 if target[0] == b"SG_" else 2)
    return values_of(known, name) if following is None and is_complete else following or []


def after_signal_key(known: Database, tokens: list[bytes]) -> list[Item]:
    """Completions after the keyword of an entry of a signal: a message, the signal, and for `SG_MUL_VAL_` its multiplexor."""
    if len(tokens) == 1:
        return messages(known)
    if len(tokens) == 2:
        return signals(known, tokens[1])
    return signals(known, tokens[1], True) if tokens[0] == b"SG_MUL_VAL_" and len(tokens) == 3 else []


def after_definition(known: Database, tokens: list[bytes]) -> list[Item]:
    if len(tokens) == 1:
        return of_words(tuple(it.decode() for it in OBJECTS))
    return of_words(TYPES) if tokens[-1].startswith(b'"') and len(tokens) <= 3 else []


def after_default(known: Database, tokens: list[bytes]) -> list[Item]:
    return attributes(known) if len(tokens) == 1 else values_of(known, tokens[1]) if len(tokens) == 2 else []


def after_message(known: Database, tokens: list[bytes]) -> list[Item]:
    """The sender, after `BO_ 500 Motor : 8`."""
    return nodes(known) if len(tokens) == 5 else []


def after_signal(known: Database, tokens: list[bytes]) -> list[Item]:
    """Receivers, after the unit."""
    return nodes(known) if any(it.startswith(b'"') for it in tokens) else []


FOLLOWING: dict[bytes, Callable[[Database, list[bytes]], list[Item]]] = {
    b"BO_": after_message,
    b"SG_": after_signal,
    b"CM_": after_comment,
    b"BA_": after_attribute,
    b"BA_DEF_": after_definition,
    b"BA_DEF_DEF_": after_default,
    **dict.fromkeys((b"VAL_", b"SIG_VALTYPE_", b"SG_MUL_VAL_", b"SIG_GROUP_", b"SIG_TYPE_REF_"), after_signal_key),
}


# ---- the answer


def item_of(item: Item, where: Object) -> Object:
    text = item.text or item.label
    made: Object = {"label": item.label, "kind": item.kind, "filterText": item.label, "textEdit": {"range": where, "newText": text}}
    return {**made, "detail": item.detail} if item.detail else made


def completion(document: Document, params: Object, client: Client) -> list[Object]:
    data, offset = document.text.data, document.offset(params)
    found = statement_start(data, offset)
    if found is None:
        return []
    known = database(document.last_valid or document.snapshot)
    first = found.tokens[0] if found.tokens else b""
    items = FOLLOWING[first](known, found.tokens) if known and first in FOLLOWING else []
    line = data[data.rfind(b"\n", 0, found.begin) + 1 : found.begin]
    if not found.is_quoted and (not found.tokens or not line.strip()):
        items = keywords() + items
    typed = to_text(data[found.begin : offset]).lower()
    # (an editor that closes quotes by itself has put one after the cursor)
    end = offset + (found.is_quoted and data[offset : offset + 1] == b'"')
    where = document.text.range(found.begin, end)
    return [item_of(it, where) for it in items if it.label.lower().startswith(typed)]
