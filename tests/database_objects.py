"""The contents of `dump --json`'s objects, in the words of `dump` and of `print`."""

from __future__ import annotations

import json
from collections.abc import Iterator
from typing import Any

from json_objects import bytes_of, members_once

Item = dict[str, Any]


class Number(str):
    """A number as it is written."""


def read(text: bytes) -> Item:
    """The object of a line, its numbers as they are written."""
    item: Item = json.loads(text.decode("utf-8"), parse_float=Number, parse_int=Number, object_pairs_hook=members_once)
    return item


def objects(text: bytes) -> tuple[list[Item], Item]:
    """The messages, and the object of everything else."""
    *messages, rest = [read(line) for line in text.split(b"\n")[:-1]]
    return messages, rest


# ---- `dump`


def cell(places: list[int]) -> str:
    """What the diagram has at a bit: nothing, the index of its signal, or that it has several."""
    return "." if not places else str(places[0]) if len(places) == 1 else "*"


def grid(size: int, positions: list[set[int]]) -> Iterator[str]:
    for byte in range(size):
        cells = [cell([k for k, bits in enumerate(positions) if 8 * byte + bit in bits]) for bit in reversed(range(8))]
        yield f"{byte:4}:" + "".join(f"{text:>4}" for text in cells)


def place_of(signal: Item) -> str:
    """`0|16@1+`"""
    order = {"intel": "1", "motorola": "0"}[signal["order"]]
    return f"{signal['start']}|{signal['length']}@{order}{'-' if signal['signed'] else '+'}"


def legend(index: int, name: str, signal: Item) -> str:
    refused = "" if signal["refused"] is None else f" ?{signal['refused']}"
    if signal["chain"] is None:
        return f"{index:4} {name} {place_of(signal)}{refused} never"
    links = [f" when {link['switch']} " + ",".join("-".join(ends) for ends in link["ranges"]) for link in signal["chain"]]
    return f"{index:4} {name} {place_of(signal)}{refused}" + "".join(links)


def picture(message: Item) -> Iterator[str]:
    yield f"Message {message['name']} {message['number']} {message['size']}"
    signals = message["signals"]
    yield from grid(int(message["size"]), [{int(bit) for bit in signal["positions"]} for signal in signals.values()])
    for index, (name, signal) in enumerate(signals.items()):
        yield legend(index, name, signal)


def pictures(messages: list[Item]) -> bytes:
    """What `dump` draws of the messages."""
    return "".join(f"{line}\n" for message in messages for line in picture(message)).encode()


# ---- `print`


def text_in(item: Item, key: str) -> bytes:
    return b'"%s"' % bytes_of(item, key)


def entries(item: Item) -> bytes:
    return b"".join(b" %s %s" % (entry["value"].encode(), text_in(entry, "name")) for entry in item["values"])


def signal_line(name: str, signal: Item) -> bytes:
    tag = "" if signal["tag"] is None else f" {signal['tag']}"
    numbers = f"({signal['factor']},{signal['offset']}) [{signal['minimum']}|{signal['maximum']}]"
    front = f" SG_ {name}{tag} : {place_of(signal)} {numbers} ".encode()
    receivers = " " + ",".join(signal["receivers"]) if signal["receivers"] else ""
    return front + text_in(signal, "unit") + f"{receivers}\n".encode()


def message_lines(message: Item) -> bytes:
    head = f"BO_ {message['number']} {message['name']}: {message['size']} {message['sender']}\n".encode()
    return head + b"".join(signal_line(name, signal) for name, signal in message["signals"].items())


def front(messages: list[Item], rest: Item) -> bytes:
    """What `print` prints up to the last message."""
    timing = rest["bit_timing"]
    lines = [
        b"VERSION " + text_in(rest, "version"),
        b"NS_ :",
        *(f"\t{symbol}".encode() for symbol in rest["symbols"]),
        b"BS_:" if timing is None else "BS_: {} : {} , {}".format(*timing).encode(),
        " ".join(["BU_:", *rest["nodes"]]).encode(),
        *(b"VAL_TABLE_ %s%s ;" % (table["name"].encode(), entries(table)) for table in rest["value_tables"]),
    ]
    return b"".join(line + b"\n" for line in lines) + b"".join(message_lines(message) for message in messages)


def target_of(item: Item) -> bytes:
    """What a statement of the rest speaks of."""
    if "node" in item:
        return f" BU_ {item['node']}".encode()
    if "signal" in item:
        return f" SG_ {item['message']} {item['signal']}".encode()
    return f" BO_ {item['message']}".encode() if "message" in item else b""


def attribute(item: Item, target: bytes) -> bytes:
    value = item["value"]
    value_text = value.encode() if isinstance(value, Number) else text_in(item, "value")
    return b"BA_ %s%s %s;\n" % (text_in(item, "name"), target, value_text)


def remarks(item: Item, target: bytes) -> Iterator[bytes]:
    """The statements of a message's or a signal's comment and attributes."""
    if item["comment"] is not None:
        yield b"CM_%s %s;\n" % (target, text_in(item, "comment"))
    yield from (attribute(one, target) for one in item["attributes"])


def definition(item: Item) -> bytes:
    objects_of = {"node": "BU_ ", "message": "BO_ ", "signal": "SG_ ", "environment_variable": "EV_ ", None: ""}
    limits = f" {item['minimum']} {item['maximum']}" if "minimum" in item else ""
    form = f" {item['type']}{limits}".encode()
    if item["type"] == "ENUM":
        form += b" " + b",".join(text_in(one, "text") for one in item["values"])
    return b"BA_DEF_ %s%s%s;\n" % (objects_of[item["object"]].encode(), text_in(item, "name"), form)


def statements(messages: list[Item], rest: Item) -> Iterator[bytes]:
    """Statements after the messages, in any order."""
    for message in messages:
        number = message["number"]
        yield from remarks(message, f" BO_ {number}".encode())
        for name, signal in message["signals"].items():
            yield from remarks(signal, f" SG_ {number} {name}".encode())
            if signal["values"]:
                yield b"VAL_ %s %s%s ;\n" % (number.encode(), name.encode(), entries(signal))
    yield from (b"CM_%s %s;\n" % (target_of(one), text_in(one, "comment")) for one in rest["comments"])
    yield from (definition(one) for one in rest["definitions"])
    yield from (attribute(one, target_of(one)) for one in rest["attributes"])
    yield from (b"VAL_ %s %s%s ;\n" % (one["message"].encode(), one["signal"].encode(), entries(one)) for one in rest["values"])
    yield from (f"SIG_VALTYPE_ {one['message']} {one['signal']} : {one['type']};\n".encode() for one in rest["value_types"])
    for one in rest["multiplexing"]:
        ranges = ", ".join("-".join(ends) for ends in one["ranges"])
        yield f"SG_MUL_VAL_ {one['message']} {one['signal']} {one['switch']} {ranges};\n".encode()
    yield from (bytes_of(one, "text") + b"\n" for one in rest["kept"])
