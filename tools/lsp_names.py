"""The tokens of a text that name something, from the output of `candesk dump --at`, and what each of them names.

The program reports where messages, signals, entries, senders and receivers are. Lists of nodes and statements kept verbatim, which
it doesn't report, are found by their words, outside of strings and comments.
"""

from __future__ import annotations

import re
from bisect import bisect_right
from collections.abc import Iterator
from dataclasses import dataclass
from typing import Any, NamedTuple

import candesk_tools as tools
import vector_order
from lsp_documents import to_bytes
from lsp_program import LOCATIONS, Snapshot

Object = dict[str, Any]

MESSAGE, SIGNAL, NODE, TABLE, ATTRIBUTE = "message", "signal", "node", "table", "attribute"
# the tokens of an entry's key
TOKENS = re.compile(rb'//[^\n]*|(?P<token>%s|[A-Za-z_]\w*|\d[\w.+-]*)' % tools.QUOTED, re.DOTALL)
WORDS = re.compile(rb"[A-Za-z_]\w*|\d\w*|[^\s\w]")
WORD = re.compile(rb"[A-Za-z_]\w*")
KEYWORDS = frozenset((*vector_order.SECTIONS, b"SG_"))


class Thing(NamedTuple):
    """A named thing: a message or a signal by the message ID, anything else by its name alone."""

    kind: str
    name: str
    number: int = 0


class Name(NamedTuple):
    """A token that names something."""

    begin: int
    end: int
    thing: Thing
    is_definition: bool = False


@dataclass(frozen=True)
class Statement:
    """The start of a statement, up to the last token of its key, and what it is about; None if that is the whole database."""

    begin: int
    end: int
    keyword: str
    thing: Thing | None


class Names:
    """The locations of a text in its order. Their tokens are scanned only when they are needed."""

    def __init__(self, data: bytes, objects: list[Object]) -> None:
        self.data = data
        ranges = [(at["from"], at["to"], number) for number, it in enumerate(objects) for at in it["at"]]
        self.objects, self.ranges = objects, sorted(ranges)
        self.begins = [it[0] for it in self.ranges]
        statements = [made for it in objects if (made := statement_of(it))]
        self.statements = sorted(statements, key=lambda it: it.begin)
        self.statement_begins = [it.begin for it in self.statements]

    def at(self, offset: int) -> Name | None:
        """The token at an offset, or that ends there."""
        index = bisect_right(self.begins, offset) - 1
        found = names_of(self.objects[self.ranges[index][2]], self.data) if index >= 0 else ()
        return next((it for it in found if it.begin <= offset <= it.end), None)

    def statement_before(self, offset: int) -> Statement | None:
        """The last statement that begins before an offset or there."""
        index = bisect_right(self.statement_begins, offset) - 1
        return self.statements[index] if index >= 0 else None

    def of(self, thing: Thing) -> list[Name]:
        """The tokens that name something."""
        objects = (it for it in self.objects if may_name(it, thing))
        return sorted(name for it in objects for name in names_of(it, self.data) if name.thing == thing)


def name_at(found: Names, offset: int) -> Name | None:
    """The token at an offset that names something. At the keyword of a statement, it is what the statement is about."""
    name = found.at(offset)
    statement = found.statement_before(offset)
    if name or statement is None or statement.thing is None or offset > statement.end:
        return name
    is_definition = statement.keyword in ("BO_", "SG_")
    return Name(statement.begin, statement.end, statement.thing, is_definition)


def tokens_in(data: bytes, begin: int, end: int) -> list[tuple[int, int]]:
    """The spans of the tokens in a part of a text."""
    return [it.span() for it in TOKENS.finditer(data, begin, end) if it["token"]]


# ---- what the program reports


def thing_of(it: Object) -> Thing | None:
    """The thing that an object of a location is about."""
    if "node" in it:
        return Thing(NODE, it["node"])
    if "signal" in it:
        return Thing(SIGNAL, it["signal"], it["number"])
    if "number" in it:
        return Thing(MESSAGE, "", it["number"])
    if "name" in it:
        return Thing(TABLE if it["entry"] == "VAL_TABLE_" else ATTRIBUTE, it["name"])
    return None


def may_name(it: Object, thing: Thing) -> bool:
    """Whether a location can have a token that names something."""
    if thing.kind in (MESSAGE, SIGNAL):
        return bool(it.get("number") == thing.number)
    return thing.name in (it.get("name"), it.get("node"))


def names_of_entry(it: Object, data: bytes) -> Iterator[Name]:
    """The tokens of an entry's key that name something, and the multiplexor that it names."""
    target, entry = thing_of(it), it["entry"]
    for begin, end in tokens_in(data, it["at"][0]["from"], it["at"][0]["to"])[1:]:
        token = data[begin:end]
        if token.startswith(b'"'):
            yield Name(begin, end, Thing(ATTRIBUTE, it["name"]), entry == "BA_DEF_")
        elif token[:1].isdigit():
            yield Name(begin, end, Thing(MESSAGE, "", it["number"]))
        elif target and token == to_bytes(target.name):
            yield Name(begin, end, target, target.kind == TABLE)
    for at in it["at"][1:]:
        other = data[at["from"] : at["to"]].decode(errors="replace")
        yield Name(at["from"], at["to"], Thing(SIGNAL, other, it["number"]))


def names_of(it: Object, data: bytes) -> Iterator[Name]:
    """The tokens of a location that name something."""
    thing = thing_of(it)
    begin, end = it["at"][0]["from"], it["at"][0]["to"]
    if "entry" in it:
        yield from names_of_entry(it, data)
    elif thing and thing.kind == NODE:
        yield Name(begin, end, thing, "number" not in it)
    elif thing:
        # (`BO_` with number and name, or `SG_` with a name)
        for first, last in tokens_in(data, begin, end)[1:]:
            yield Name(first, last, thing, last == end)


def statement_of(it: Object) -> Statement | None:
    """The statement that a location begins; None for a sender or a receiver."""
    at, entry = it["at"][0], it.get("entry")
    if entry is None and "node" in it:
        return None
    return Statement(at["from"], at["to"], entry or ("SG_" if "signal" in it else "BO_"), thing_of(it))


def names(snapshot: Snapshot) -> Names | None:
    """The names of a text; None if it is rejected, or if the program doesn't report locations."""

    def made() -> Names | None:
        answer = snapshot.answer(LOCATIONS)
        if answer.status:
            return None
        nodes = [{"node": name, "at": [{"from": begin, "to": end}]} for name, begin, end in node_list(snapshot.data).names]
        return Names(snapshot.data, answer.objects() + nodes)

    kept: Names | None = snapshot.value("names", made)
    return kept


# ---- what is found by its words


class NodeList(NamedTuple):
    """The nodes that the lists of `BU_` name, each with its bytes, and where the first list ends; -1 if there is none."""

    names: list[tuple[str, int, int]]
    end: int


def words(data: bytes, needed: bytes) -> Iterator[tuple[bytes, int, int]]:
    """The words and symbols of a text outside strings and comments, from each piece that contains `needed`; a string is a quote."""
    is_needed = False
    for kind, start, piece in tools.pieces(data):
        is_needed = is_needed or kind == "plain" and needed in piece
        if is_needed and kind == "quoted":
            yield b'"', start, start + len(piece)
            is_needed = False
        elif is_needed and kind == "plain":
            for found in WORDS.finditer(piece):
                yield found.group(), start + found.start(), start + found.end()


def node_list(data: bytes) -> NodeList:
    """The nodes of a valid text."""
    nodes: list[tuple[str, int, int]] = []
    first_end, before = -1, b""
    is_first = is_in_list = False
    for word, begin, end in words(data, b"BU_"):
        is_begin = word == b":" and before == b"BU_"
        is_node = is_in_list and WORD.fullmatch(word) is not None and word not in KEYWORDS
        if is_node:
            nodes.append((word.decode(), begin, end))
        elif is_begin:
            is_first = first_end < 0
        is_in_list = is_node or is_begin
        if is_in_list and is_first:
            first_end = end
        before = word
    return NodeList(nodes, first_end)


def first_message(data: bytes) -> int | None:
    """Where the first message of a valid text begins."""
    return next((begin for word, begin, _ in words(data, b"BO_") if word == b"BO_"), None)
