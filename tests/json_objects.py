"""The contents of `decode --json`'s objects, in the words of `decode`, and the rows of `decode --csv` for them."""

from __future__ import annotations

import csv
import io
import json
import re
from decimal import Decimal
from typing import Any

# a stamp, an interface, an identifier, the frame, and what follows it
FRAME = re.compile(rb"\(([^ \t]*)\)[ \t]+([^ \t]+)[ \t]+([0-9A-Fa-f]+)#([^ \t]*)(?:[ \t]+(.*))?", re.DOTALL)


class Wrong(Exception):
    """An object that differs from its line."""


def members_once(pairs: list[tuple[str, Any]]) -> dict[str, Any]:
    """An object in which each key occurs once."""
    found = dict(pairs)
    if len(found) != len(pairs):
        raise Wrong(f"a key twice: {[key for key, _ in pairs]}")
    return found


def read(text: bytes) -> dict[str, Any]:
    """The object of a line, its numbers exact."""
    item: dict[str, Any] = json.loads(text.decode("utf-8"), parse_float=Decimal, object_pairs_hook=members_once)
    return item


def bytes_of(item: dict[str, Any], name: str) -> bytes:
    """The bytes of a text that the object has."""
    if f"{name}_hex" in item:
        return bytes.fromhex(item[f"{name}_hex"])
    text: str = item[name]
    return text.encode()


def number(value: int | Decimal) -> bytes:
    return format(value, "f").encode() if isinstance(value, Decimal) else b"%d" % value


def on_a_line(text: bytes) -> bytes:
    """A text as `decode` writes it, with blanks for CR and LF."""
    return text.replace(b"\r", b" ").replace(b"\n", b" ")


def signal_text(name: str, signal: dict[str, Any]) -> bytes:
    """`Speed: 20.5 km/h`"""
    if "refused" in signal:
        return b"%s: ?%s" % (name.encode(), signal["refused"].encode())
    if "name" in signal:
        return b"%s: %s" % (name.encode(), on_a_line(bytes_of(signal, "name")))
    unit = b" " + on_a_line(bytes_of(signal, "unit")) if "unit" in signal else b""
    return b"%s: %s%s" % (name.encode(), number(signal["value"]), unit)


def group_text(item: dict[str, Any]) -> bytes:
    """`[p6 s49]`, of a J1939 message."""
    if "j1939" not in item:
        return b""
    group = item["j1939"]
    destination = b" d%d" % group["destination"] if "destination" in group else b""
    return b"[p%d s%d%s]" % (group["priority"], group["source"], destination)


def decoded_text(item: dict[str, Any]) -> bytes:
    """The text after `::`."""
    cause: str | None = item.get("not_decoded")
    if cause == "wrong size":
        return b"Wrong data size: %d instead of %d bytes" % (len(item["data"]) // 2, item["size"])
    if cause == "unknown id":
        return b"Unknown frame id %d (0x%x)" % (item["id"], item["id"])
    if cause is not None:
        return cause.capitalize().encode()
    signals = [signal_text(name, signal) for name, signal in item["signals"].items()]
    return b"%s%s(%s)" % (item["message"].encode(), group_text(item), b", ".join(signals))


def kind_of(identifier: bytes, frame: bytes) -> str:
    """The kind of a frame, by its word."""
    if len(identifier) == 8 and int(identifier, 16) & 0x20000000:
        return "error"
    return {b"R": "remote", b"#": "fd"}.get(frame[:1], "data")


def group_of(identifier: int) -> dict[str, int]:
    """The fields of a J1939 identifier."""
    form, specific = identifier >> 16 & 0xFF, identifier >> 8 & 0xFF
    group = {"pgn": (identifier >> 24 & 3) << 16 | form << 8 | (specific if form >= 240 else 0)}
    group |= {"priority": identifier >> 26 & 7, "source": identifier & 0xFF}
    return group if form >= 240 else group | {"destination": specific}


def decoded(item: dict[str, Any], body: bytes) -> bytes:
    """The decoded line for a line of a log, from its object."""
    if "line" in item:
        return bytes_of(item, "line")
    found = FRAME.fullmatch(body)
    if found is None:
        raise Wrong(f"a frame of {body!r}")
    stamp, interface, identifier, frame, rest = found.groups()
    identifier_number = int(identifier, 16) & 0x1FFFFFFF
    kind = kind_of(identifier, frame)
    values = [number(item["time"]), bytes_of(item, "interface"), item["id"], bytes_of(item, "rest") if "rest" in item else b""]
    wanted = [re.sub(rb"^0+(?=\d)", b"", stamp), interface, identifier_number, rest or b""]
    values += [item["extended"], item["kind"], "data" in item]
    wanted += [len(identifier) == 8, kind, kind in ("data", "fd")]
    if values != wanted:
        raise Wrong(f"{values} of {body!r}")
    data = bytes.fromhex(item["data"]) if "data" in item else None
    if data is not None and data != bytes.fromhex(re.sub(rb"^#.|\.", b"", frame.split(b"_")[0]).decode()):
        raise Wrong(f"{data!r} of {body!r}")
    if "j1939" in item and item["j1939"] != group_of(identifier_number):
        raise Wrong(f"{item['j1939']} of {body!r}")
    if "number" in item and "j1939" not in item and item["number"] != identifier_number | item["extended"] << 31:
        raise Wrong(f"message {item['number']} of {body!r}")
    return body + b" :: " + decoded_text(item)


# ---- rows of CSV

HEADER = ["time", "interface", "id", "message", "signal", "value", "unit", "name"]


def rows_of(item: dict[str, Any]) -> list[list[str]]:
    """The rows of an object's signals."""
    rows = []
    for name, signal in item.get("signals", {}).items():
        value = f"?{signal['refused']}" if "refused" in signal else number(signal["value"]).decode()
        came = [number(item["time"]).decode(), item["interface"], str(item["id"])]
        rows.append([*came, item["message"], name, value, signal.get("unit", ""), signal.get("name", "")])
    return rows


def rows_in(text: bytes) -> list[list[str]]:
    """The rows of a text of CSV, with the names of the columns."""
    return list(csv.reader(io.StringIO(text.decode("utf-8"), newline="")))
