"""The contents of `check --json`'s objects, in the words of `check`."""

from __future__ import annotations

import json
from typing import Any, Final

Object = dict[str, Any]
OBJECTS: Final = {"node": "BU_", "message": "BO_", "signal": "SG_", "environment_variable": "EV_"}


class Wrong(Exception):
    """An object that isn't one of a diagnostic."""


def _quoted(item: Object) -> bytes:
    """The name of an attribute as it is written; the line ends in it are blanks in a line."""
    name: bytes = bytes.fromhex(item["name_hex"]) if "name_hex" in item else item["name"].encode()
    return b'"' + name.replace(b"\n", b" ").replace(b"\r", b" ") + b'"'


def _target(item: Object) -> str:
    """What a comment or an attribute is for; nothing if it is for the whole database."""
    if "signal" in item:
        return f" SG_ {item['number']} {item['signal']}"
    if "number" in item:
        return f" BO_ {item['number']}"
    return f" BU_ {item['node']}" if "node" in item else ""


def _key(item: Object) -> bytes:
    """The key of an entry."""
    entry: str = item["entry"]
    match entry:
        case "VAL_TABLE_":
            return f"{entry} {item['name']}".encode()
        case "VAL_" | "SIG_VALTYPE_" | "SG_MUL_VAL_":
            return f"{entry} {item['number']} {item['signal']}".encode()
        case "CM_":
            return f"{entry}{_target(item)}".encode()
    kind = f" {OBJECTS[item['object']]}" if "object" in item else ""
    return f"{entry}{kind} ".encode() + _quoted(item) + _target(item).encode()


def _subject(item: Object) -> bytes:
    if "entry" in item:
        return _key(item)
    head = f"{item['number']} {item['message']}"
    if "signal" in item:
        head += f".{item['signal']}"
    if "other" in item:
        head += f" {item['message']}.{item['other']}"
    return (head + "".join(f" {item[it]}" for it in ("node", "value") if it in item)).encode()


def line_of(item: Object) -> bytes:
    """The line that `check` writes for the diagnostic."""
    return f"{item['code']} {item['word']} ".encode() + _subject(item)


def marked(item: Object, text: bytes) -> list[bytes]:
    """The bytes that it is about, with their lines checked."""
    parts = []
    for at in item["at"]:
        begin, end = at["from"], at["to"]
        if not 0 <= begin < end <= len(text) or at["line"] != 1 + text.count(b"\n", 0, begin):
            raise Wrong(f"{at} of {item}")
        parts.append(text[begin:end])
    return parts


def read(output: bytes) -> list[Object]:
    """The objects of an output, one on each line."""
    return [json.loads(line) for line in output.decode().split("\n")[:-1]]
