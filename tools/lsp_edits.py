"""Edits of a text: formatting, and quick fixes for diagnostics that have an obvious one."""

from __future__ import annotations

import itertools
import re
from collections.abc import Callable
from typing import Any, NamedTuple

import candesk_tools as tools
import lsp_diagnostics
import vector_order
from lsp_database import database
from lsp_documents import is_sendable, to_text
from lsp_names import MESSAGE, Thing, first_message, names, node_list
from lsp_program import BAD_WORDS, CHECK, PRINT, Snapshot, ask
from lsp_requests import WARNING, Client, Document, RequestError

Object = dict[str, Any]

QUICK_FIX = "quickfix"
# for how many diagnostics fixes are offered at once; each fix is tried by a run of the program
MAX_FIXES = 20
# the mark of an extended identifier, and how many bits it has
BIT_31, EXTENDED_BITS = 1 << 31, 29
STRING_AFTER = re.compile(rb"\s*%s[ \t]*" % tools.QUOTED, re.DOTALL)
# the statements kept verbatim that name messages or their signals
SIGNAL_GROUP, RELATION = b"SIG_GROUP_", b"BA_REL_"
OF_MESSAGES = (SIGNAL_GROUP, RELATION, b"SIG_TYPE_REF_", b"BO_TX_BU_")
TOKENS = re.compile(rb'//[^\n]*|%s|(?P<word>[A-Za-z_]\w*|\d\w*|:)' % tools.QUOTED, re.DOTALL)


class Edit(NamedTuple):
    """A range of bytes of a text, and its replacement."""

    begin: int
    end: int
    new: bytes


class Fix(NamedTuple):
    """A quick fix: its title, and its edits."""

    title: str
    edits: list[Edit]


def edited(data: bytes, edits: list[Edit]) -> bytes:
    for it in sorted(edits, reverse=True):
        data = data[: it.begin] + it.new + data[it.end :]
    return data


def edits_of(document: Document, edits: list[Edit]) -> list[Object]:
    return [{"range": document.text.range(it.begin, it.end), "newText": to_text(it.new)} for it in sorted(edits)]


def line_end(data: bytes) -> bytes:
    return b"\r\n" if vector_order.has_long_lines(data) else b"\n"


# ---- edits that a session confirms


def printed_after(data: bytes, command: str) -> bytes:
    """The canonical text after a session command. Raises a `RequestError` if the command is refused."""
    reply, _, rest = ask(("session",), data, command.encode() + b"\nprint\n").out.partition(b"\n")
    if reply != b"ok":
        raise RequestError(f"candesk session: {reply.decode(errors='replace')}")
    return rest.removesuffix(b"ok\n")


def is_confirmed(data: bytes, edits: list[Edit], command: str) -> bool:
    """Whether edits of a text have the same result as a session command."""
    return ask(PRINT, edited(data, edits)).out == printed_after(data, command)


Word = tuple[bytes, int, int]


def kept_words(data: bytes) -> list[list[Word]]:
    """The words of each statement kept verbatim that may name messages, with their bytes."""
    if not any(it in data for it in OF_MESSAGES):
        return []
    found = []
    for first, begin, end in vector_order.spans(data):
        if first[0] in OF_MESSAGES:
            words = (it for it in TOKENS.finditer(data, begin, end) if it["word"])
            found.append([(it["word"], it.start(), it.end()) for it in words])
    return found


def kept_numbers(data: bytes, number: int) -> list[Word]:
    """The occurrences of a message ID in statements kept verbatim: after their keyword, or after that of a message or signal."""
    found: list[Word] = []
    for words in kept_words(data):
        keywords = (b"SG_", b"BO_") if words[0][0] == RELATION else (words[0][0],)
        pairs = zip(words, words[1:])
        found += [word for before, word in pairs if word[0] == b"%d" % number and before[0] in keywords]
    return found


def kept_signals(data: bytes, number: int, name: str) -> list[Word]:
    """The occurrences of a signal in statements kept verbatim: after its message ID, or in a signal group of that message after the
    colon."""
    found: list[Word] = []
    for words in kept_words(data):
        texts = [it[0] for it in words]
        numbered, named = b"%d" % number, name.encode()
        if texts[0] == SIGNAL_GROUP and texts[1:2] == [numbered] and b":" in texts:
            found += [word for word in words[texts.index(b":") :] if word[0] == named]
        elif texts[0] != SIGNAL_GROUP:
            found += [word for before, word in zip(texts, words[1:]) if word[0] == named and before == numbered]
    return found


# ---- formatting


def formatted(document: Document, client: Client) -> bytes | None:
    """The text in the form that the client wants; None if it can't be formatted, and then the reason is shown."""
    data, answer = document.snapshot.data, document.snapshot.answer(PRINT)
    if answer.status:
        client.show(WARNING, f"not formatted: {tools.error_message(answer.errors)}")
        return None
    if client.is_vector:
        made = vector_order.vector_text(answer.out, data)
        if ask(PRINT, made).out != answer.out:
            client.show(WARNING, "not formatted: statements kept verbatim don't follow each other as Vector's tools write them")
            return None
    else:
        end = line_end(data)
        made = b"".join(b"".join([*line, end]) for line in tools.canonical_lines(answer.out))
    line = tools.comment_line(data)
    if line and made != data:
        client.show(WARNING, f"not formatted: line {line} has a // comment, which would be lost")
        return None
    return made


def difference(old: bytes, new: bytes) -> Edit:
    """The edit that makes one text of another, without the lines that both begin and end with."""
    before, after = old.splitlines(keepends=True), new.splitlines(keepends=True)
    same = sum(1 for _ in itertools.takewhile(lambda it: it[0] == it[1], zip(before, after)))
    ends = zip(reversed(before[same:]), reversed(after[same:]))
    same_end = sum(1 for _ in itertools.takewhile(lambda it: it[0] == it[1], ends))
    begin = sum(map(len, before[:same]))
    end = len(old) - sum(map(len, before[len(before) - same_end :]))
    return Edit(begin, end, b"".join(after[same : len(after) - same_end]))


def formatting(document: Document, params: Object, client: Client) -> list[Object] | None:
    made = formatted(document, client)
    if made is None or made == document.snapshot.data:
        return None if made is None else []
    edit = difference(document.snapshot.data, made)
    if not is_sendable(to_text(edit.new)):
        client.show(WARNING, "not formatted: the text isn't UTF-8; save it, and use candesk-format")
        return None
    return edits_of(document, [edit])


# ---- quick fixes


def fix_node(snapshot: Snapshot, it: Object) -> Fix | None:
    """Adds a node to the first list of nodes, or a list before the first message."""
    node = it["node"]
    end = node_list(snapshot.data).end
    if end >= 0:
        return Fix(f"add {node} to BU_", [Edit(end, end, b" " + node.encode())])
    first = first_message(snapshot.data)
    line = b"BU_: " + node.encode() + line_end(snapshot.data)
    return None if first is None else Fix(f"add BU_ with {node}", [Edit(first, first, line)])


def entry_end(data: bytes, begin: int) -> int:
    """Where an entry ends that begins at an offset: after its semicolon."""
    for kind, start, piece in tools.pieces(data[begin:]):
        if kind == "plain" and b";" in piece:
            return begin + start + piece.index(b";") + 1
    return len(data)


def fix_entry(snapshot: Snapshot, it: Object) -> Fix:
    """Removes an entry, with its line if nothing else is on it."""
    data, begin = snapshot.data, it["at"][0]["from"]
    end = entry_end(data, begin)
    line = data.rfind(b"\n", 0, begin) + 1
    after = re.compile(rb"[ \t]*(?P<end>\r?\n|\r|\Z)?").match(data, end)
    assert after
    if not data[line:begin].strip() and after["end"] is not None:
        begin = line
    if after["end"] is None or begin == line:
        end = after.end()
    return Fix(f"remove {lsp_diagnostics.key_of(it)}", [Edit(begin, end, b"")])


def fix_value(snapshot: Snapshot, it: Object) -> Fix | None:
    """Removes a second description of a value."""
    begin, end = it["at"][0]["from"], it["at"][0]["to"]
    found = STRING_AFTER.match(snapshot.data, end)
    return Fix(f"remove the second description of {it['value']}", [Edit(begin, found.end(), b"")]) if found else None


def fix_identifier(snapshot: Snapshot, it: Object) -> Fix | None:
    """Sets bit 31 of a message ID, also in all entries that name it, if a session does the same."""
    old = it["number"]
    new = old | BIT_31
    known = database(snapshot)
    index = known.index_of(old) if known else None
    if old >> EXTENDED_BITS or index is None:
        return None
    found, data = names(snapshot), snapshot.data
    named = [(name.begin, name.end) for name in found.of(Thing(MESSAGE, "", old))] if found else []
    numbers = [span for span in named if data[span[0] : span[0] + 1].isdigit()] or [(at["from"], at["to"]) for at in it["at"]]
    edits = [Edit(*span, b"%d" % new) for span in numbers]
    try:
        if not is_confirmed(data, edits, f"renumber {index} {new}"):
            return None
    except RequestError:
        return None
    kept = [Edit(begin, end, b"%d" % new) for _, begin, end in kept_numbers(data, old)]
    return Fix(f"set bit 31 of {old}: the extended identifier 0x{old:08X}", edits + kept)


FIXES: dict[int, Callable[[Snapshot, Object], Fix | None]] = {
    1: fix_identifier,
    13: fix_node,
    15: fix_value,
    16: fix_entry,
    17: fix_entry,
    18: fix_entry,
}


def is_within(at: Object, begin: int, end: int) -> bool:
    return bool(at["from"] <= end and begin <= at["to"])


def is_fixed(snapshot: Snapshot, fix: Fix, it: Object) -> bool:
    """Whether a text after a fix is valid and has fewer diagnostics of the code."""
    answer = ask(CHECK, edited(snapshot.data, fix.edits))
    before, after = (sum(other["code"] == it["code"] for other in of.objects()) for of in (snapshot.answer(CHECK), answer))
    return not answer.errors and after < before


def code_action(document: Document, params: Object, client: Client) -> list[Object]:
    """The quick fixes of the diagnostics in a range."""
    snapshot, only = document.snapshot, params["context"].get("only")
    answer = snapshot.answer(CHECK)
    if answer.status == BAD_WORDS or only and not any(QUICK_FIX == it or QUICK_FIX.startswith(f"{it}.") for it in only):
        return []
    begin, end = (document.text.offset(params["range"][it]) for it in ("start", "end"))
    objects = (it for it in answer.objects() if it["severity"] != "error" and it["code"] in FIXES)
    made: list[Object] = []
    for it in itertools.islice((it for it in objects if is_within(it["at"][0], begin, end)), MAX_FIXES):
        fix = FIXES[it["code"]](snapshot, it)
        if fix and is_fixed(snapshot, fix, it):
            diagnostic = lsp_diagnostics.diagnostic_of(it, document.text, document.uri, client.has_related)
            changes = {document.uri: edits_of(document, fix.edits)}
            made.append({"title": fix.title, "kind": QUICK_FIX, "diagnostics": [diagnostic], "edit": {"changes": changes}})
    return made
