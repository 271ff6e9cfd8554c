"""The database of a text, from the objects of `candesk dump --json`, and descriptions of its messages and signals."""

from __future__ import annotations

import re
from dataclasses import dataclass
from typing import Any

import candesk_tools as tools
from lsp_program import DIAGRAMS, OBJECTS, Answer, Snapshot

Object = dict[str, Any]

# no node, as a sender or a receiver
NOBODY = "Vector__XXX"
# how many value descriptions are shown
MAX_DESCRIPTIONS = 40
# below this PDU format (PDU1) the next byte of a J1939 identifier is the destination, and not part of the PGN
FIRST_BROADCAST = 240


@dataclass(frozen=True)
class Database:
    """Messages in the order of the text, and everything else."""

    messages: list[Object]
    rest: Object

    def numbered(self, number: int) -> list[Object]:
        return [it for it in self.messages if it["number"] == number]

    def index_of(self, number: int, signal: str | None = None) -> int | None:
        """The index of the first message with an ID, and with a signal if one is given."""
        numbered = (it for it in enumerate(self.messages) if it[1]["number"] == number)
        return next((at for at, it in numbered if signal is None or signal in it["signals"]), None)


def database_of(answer: Answer) -> Database | None:
    """The database in an answer; None if the text was rejected."""
    if answer.status:
        return None
    *messages, rest = answer.objects()
    return Database(messages, rest)


def database(snapshot: Snapshot) -> Database | None:
    found: Database | None = snapshot.value("database", lambda: database_of(snapshot.answer(OBJECTS)))
    return found


def diagrams(snapshot: Snapshot) -> list[str]:
    """The layout diagram of each message."""

    def made() -> list[str]:
        parts = re.split(rb"^(?=Message )", snapshot.answer(DIAGRAMS).out, flags=re.MULTILINE)
        return [tools.shown(it).rstrip("\n") for it in parts[1:]]

    found: list[str] = snapshot.value("diagrams", made)
    return found


# ---- descriptions


def j1939_line(identifier: int) -> str:
    """The J1939 fields of a 29-bit identifier."""
    pdu_format, pdu_specific = identifier >> 16 & 0xFF, identifier >> 8 & 0xFF
    pgn = identifier >> 8 & 0x3FFFF
    pgn = pgn & ~0xFF if pdu_format < FIRST_BROADCAST else pgn
    return (
        f"J1939: priority 0x{identifier >> 26:X}, PDU format 0x{pdu_format:02X}, PDU specific 0x{pdu_specific:02X}, "
        f"source address 0x{identifier & 0xFF:02X}, PGN 0x{pgn:04X}"
    )


def length_of(message: Object) -> str:
    return tools.counted(message["size"], "byte")


def message_lines(message: Object) -> list[str]:
    """The description of a message."""
    identifier = message["id"]
    kind = "no identifier" if identifier is None else f"0x{identifier:03X}"
    if message["extended"]:
        kind = f"extended 0x{identifier:08X}"
    lines = [f"{message['name']} {message['number']} ({kind}), {length_of(message)}, from {message['sender']}"]
    if message["extended"] and identifier is not None:
        lines.append(j1939_line(identifier))
    return [*lines, *comment_lines(message)]


def comment_lines(it: Object) -> list[str]:
    return [it["comment"]] if it["comment"] else []


def offset_words(offset: str) -> str:
    return "" if offset == "0" else f" - {offset[1:]}" if offset.startswith("-") else f" + {offset}"


def signal_lines(message: Object, name: str) -> list[str]:
    """The description of a signal: its message, exact scale, receivers, when it is present, and its value descriptions."""
    it = message["signals"][name]
    kind = f"{tools.counted(it['length'], 'bit')} from {it['start']}, {it['order']}, {'signed' if it['signed'] else 'unsigned'}"
    unit = f" {it['unit']}" if it["unit"] else ""
    lines = [
        f"{message['name']}.{name}: {kind}",
        f"value = {it['factor']} * raw{offset_words(str(it['offset']))}{unit}, limits [{it['minimum']}|{it['maximum']}]",
        f"received by {', '.join(it['receivers'])}",
    ]
    if it["refused"]:
        lines.append(f"not decoded: ?{it['refused']}")
    if it["chain"] is None:
        lines.append("never present")
    for parent in it["chain"] or []:
        ranges = ",".join(f"{first}-{last}" for first, last in parent["ranges"])
        lines.append(f"present if {parent['switch']} is {ranges}")
    described = [f"{value['value']} \"{value['name']}\"" for value in it["values"]]
    hidden = len(described) - MAX_DESCRIPTIONS
    more = [f"and {hidden} more"] if hidden > 0 else []
    return [*lines, *comment_lines(it), *described[:MAX_DESCRIPTIONS], *more]
