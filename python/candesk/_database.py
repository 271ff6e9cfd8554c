"""A database as objects, as `candesk dump --json` writes it."""

from __future__ import annotations

import contextlib
import json
import os
import re
import threading
from collections.abc import Iterable, Iterator, Mapping, Sequence
from dataclasses import dataclass, field
from decimal import Decimal
from typing import TYPE_CHECKING, Any, NamedTuple, Union

from . import _program
from ._bits import Number, bits_of, float_of, raw_of
from ._decoding import DecodedLine, Decoder, Value
from ._errors import DecodeError, UnknownMessage, UnknownSignal
from ._logs import Source

if TYPE_CHECKING:
    import pandas

ByteOrder = str
# the value of an attribute
Attribute = Union[int, Decimal, str]
BYTE_ORDERS = {"intel": "little_endian", "motorola": "big_endian"}
# the sender or receiver of a message that has none
NOBODY = "Vector__XXX"
MAX_STANDARD_ID = 0x7FF
# the most bytes of a classic frame, and of one of CAN FD
CLASSIC_BYTES, FD_BYTES = 8, 64


class Multiplexor(NamedTuple):
    """A multiplexor of a signal: the signal is present if the multiplexor's raw value is in one of these ranges, ends included."""

    signal: str
    ranges: tuple[tuple[int, int], ...]


class Finding(NamedTuple):
    """A line of `candesk check`: a code with its word, and its subject."""

    code: int
    word: str
    subject: str


@dataclass(frozen=True)
class Signal:
    """A signal of a message. Numbers are exact: `int`, or `Decimal` if they have a fraction or an exponent."""

    name: str
    start: int
    length: int
    byte_order: ByteOrder
    is_signed: bool
    scale: Number
    offset: Number
    minimum: Number
    maximum: Number
    unit: str | None
    choices: Mapping[int, str] | None
    comment: str | None
    receivers: Sequence[str]
    attributes: Mapping[str, Attribute]
    # the bits in a frame, least significant first: bit p % 8 of byte p // 8
    positions: tuple[int, ...]
    # why the program decodes no value of it: outside, float, long or scale
    refused: str | None
    # its multiplexer indicator (`M`, `m5`, `m5M`), and its multiplexing chain, lowest first; None if it is never present
    indicator: str | None
    chain: tuple[Multiplexor, ...] | None

    @property
    def is_float(self) -> bool:
        """Whether it is a float by `SIG_VALTYPE_`."""
        return self.refused == "float"

    @property
    def is_multiplexer(self) -> bool:
        return self.indicator is not None and self.indicator.endswith("M")

    @property
    def multiplexer_signal(self) -> str | None:
        return self.chain[0].signal if self.chain else None

    @property
    def multiplexer_ranges(self) -> tuple[tuple[int, int], ...] | None:
        return self.chain[0].ranges if self.chain else None

    def raw(self, data: bytes) -> int | None:
        """The raw value in the bytes of a frame, or None if not all of its bits are there."""
        return raw_of(bits_of(data), len(data), self.positions, self.is_signed)

    def float_value(self, data: bytes) -> float | None:
        """The value of a float in the bytes of a frame: IEEE 754 of 32 or 64 bits. None if not all of its bits are there."""
        if not self.is_float:
            return None
        return float_of(bits_of(data), len(data), self.positions, self.scale, self.offset)


@dataclass(frozen=True)
class Message:
    """A message of a database."""

    name: str
    # the message ID as in BO_, with bit 31 for an extended identifier
    number: int
    # the identifier without flags; None if the message ID means none
    frame_id: int | None
    is_extended_frame: bool
    length: int
    sender: str
    signals: Sequence[Signal]
    comment: str | None
    attributes: Mapping[str, Attribute]
    # the PGN of a J1939 message
    pgn: int | None
    cycle_time: Number | None
    database: Database = field(repr=False, compare=False)
    # the index among the messages of the database, from 0
    index: int = field(repr=False)

    @property
    def senders(self) -> list[str]:
        return [] if self.sender == NOBODY else [self.sender]

    @property
    def protocol(self) -> str | None:
        return None if self.pgn is None else "j1939"

    def is_multiplexed(self) -> bool:
        return any(it.is_multiplexer for it in self.signals)

    def get_signal_by_name(self, name: str) -> Signal:
        for it in self.signals:
            if it.name == name:
                return it
        raise UnknownSignal(f"message {self.name} has no signal {name}")

    def layout(self) -> str:
        """The layout diagram that `candesk dump` draws."""
        return self.database.layout(self)

    def decode(self, data: bytes, decode_choices: bool = True, scaling: bool = True, allow_truncated: bool = False,
               exact: bool = False) -> dict[str, Value]:
        """As `Database.decode_message` of this message."""
        return self.database.decode_message(self.name, data, decode_choices, scaling, allow_truncated, exact, message=self)


def _attributes(members: list[dict[str, Any]]) -> dict[str, Attribute]:
    return {it["name"]: it["value"] for it in members}


def _signal(name: str, members: dict[str, Any]) -> Signal:
    chain = members["chain"]
    levels = None if chain is None else tuple(
        Multiplexor(it["switch"], tuple((low, high) for low, high in it["ranges"])) for it in chain
    )
    # (of several descriptions of one value the first is shown)
    choices = {int(it["value"]): it["name"] for it in reversed(members["values"])}
    return Signal(
        name=name, start=members["start"], length=members["length"], byte_order=BYTE_ORDERS[members["order"]],
        is_signed=members["signed"], scale=members["factor"], offset=members["offset"], minimum=members["minimum"],
        maximum=members["maximum"], unit=members["unit"] or None, choices=dict(sorted(choices.items())) or None,
        comment=members["comment"], receivers=[it for it in members["receivers"] if it != NOBODY],
        attributes=_attributes(members["attributes"]), positions=tuple(members["positions"]), refused=members["refused"],
        indicator=members["tag"], chain=levels,
    )


class Database:
    """A database that was read from a file. It keeps programs running, which `close` ends, or the end of a `with` block."""

    def __init__(self, path: str | os.PathLike[str]) -> None:
        self.path = os.fspath(path)
        # (a text may contain what Python takes for a line end, but no line feed)
        lines = _program.answer(self.path, ["dump", "--json"]).decode().removesuffix("\n").split("\n")
        rest = json.loads(lines[-1], parse_float=Decimal)
        self.version: str = rest["version"]
        self.nodes: list[str] = rest["nodes"]
        # everything outside messages: comments, attributes, entries for objects that don't exist, and statements kept verbatim
        self.rest: dict[str, Any] = rest
        self.comment: str | None = next((it["comment"] for it in rest["comments"] if it.keys() <= {"comment", "comment_hex"}), None)
        defaults = _attributes(rest["defaults"])
        self.messages: list[Message] = [
            self._message(index, json.loads(line, parse_float=Decimal), defaults) for index, line in enumerate(lines[:-1])
        ]
        self._by_name = {it.name: it for it in reversed(self.messages)}
        self._by_number = {it.number: it for it in reversed(self.messages)}
        self._by_id = {(it.frame_id, it.is_extended_frame): it for it in reversed(self.messages)}
        self._decoders: dict[bool, Decoder] = {}
        self._lock = threading.Lock()

    def _message(self, index: int, members: dict[str, Any], defaults: Mapping[str, Attribute]) -> Message:
        attributes = _attributes(members["attributes"])
        cycle_time = attributes.get("GenMsgCycleTime", defaults.get("GenMsgCycleTime"))
        return Message(
            name=members["name"], number=members["number"], frame_id=members["id"], is_extended_frame=bool(members["extended"]),
            length=members["size"], sender=members["sender"],
            signals=[_signal(name, it) for name, it in members["signals"].items()], comment=members["comment"],
            attributes=attributes, pgn=members["pgn"], cycle_time=None if isinstance(cycle_time, str) else cycle_time,
            database=self, index=index,
        )

    def __enter__(self) -> Database:
        return self

    def __exit__(self, *_: object) -> None:
        self.close()

    def __del__(self) -> None:
        # (a database whose text was rejected has nothing to close)
        with contextlib.suppress(AttributeError):
            self.close()

    def __repr__(self) -> str:
        return f"candesk.load({self.path!r})"

    def close(self) -> None:
        """Ends the programs that are kept running. The next call starts one again."""
        with self._lock:
            for it in self._decoders.values():
                it.close()
            self._decoders.clear()

    # ---- messages

    def get_message_by_name(self, name: str) -> Message:
        """The message with a name; the first, if several have it."""
        try:
            return self._by_name[name]
        except KeyError:
            raise UnknownMessage(f"{self.path} has no message {name}") from None

    def get_message_by_frame_id(self, frame_id: int, extended: bool | None = None) -> Message:
        """The message with exactly this identifier. If `extended` isn't given, a standard identifier is preferred."""
        for is_extended in (False, True) if extended is None else (extended,):
            found = self._by_id.get((frame_id, is_extended))
            if found:
                return found
        raise UnknownMessage(f"{self.path} has no message with the identifier {frame_id:#x}")

    # ---- decoding

    def decode_message(self, frame_id_or_name: int | str, data: bytes, decode_choices: bool = True, scaling: bool = True,
                       allow_truncated: bool = False, exact: bool = False, *, extended: bool | None = None,
                       message: Message | None = None) -> dict[str, Value]:
        """The signals that a frame shows, by their names.

        A value is the text of its value description if it has one and `decode_choices` is true; else a number, an `int` if it is
        whole, or the nearest `float`, or with `exact` the `Decimal`. Without `scaling` it is the raw value. A signal that isn't
        decoded, since it is outside the data, has over 64 bits or too many digits, is None.

        Raises `UnknownMessage` if no message has the identifier or name, and `DecodeError` if the data is shorter than the
        message, except with `allow_truncated`, which decodes the signals that are there.
        """
        if message is None and isinstance(frame_id_or_name, str):
            message = self.get_message_by_name(frame_id_or_name)
        identifier = self._identifier(frame_id_or_name, extended, message)
        if len(data) > FD_BYTES:
            raise DecodeError(f"a frame has at most {FD_BYTES} bytes, and this one {len(data)}")
        mark = "#" if len(data) <= CLASSIC_BYTES else "##0"
        decoded = self._ask(f"(0.0) can {identifier}{mark}{data.hex()}".encode(), allow_truncated)
        if decoded.message is None:
            raise UnknownMessage(f"{self.path} has no message with the identifier {identifier}")
        if decoded.not_decoded:
            raise DecodeError(f"{decoded.message.name} needs {decoded.size} bytes, and there are {len(data)}: allow_truncated=True "
                              "decodes what is there")
        return decoded.values(decode_choices=decode_choices, scaling=scaling, exact=exact)

    def _identifier(self, frame_id_or_name: int | str, extended: bool | None, message: Message | None) -> str:
        """The identifier of a frame, as in a log."""
        if message is None:
            assert isinstance(frame_id_or_name, int)
            found = self._by_id.get((frame_id_or_name, False)) or self._by_id.get((frame_id_or_name, True))
            is_extended = frame_id_or_name > MAX_STANDARD_ID or bool(found and found.is_extended_frame)
            return _spelled(frame_id_or_name, is_extended if extended is None else extended)
        if message.frame_id is None:
            raise UnknownMessage(f"no frame has the ID {message.number} of message {message.name}")
        if self._by_number[message.number] is not message:
            raise UnknownMessage(f"frames of {message.number} go to {self._by_number[message.number].name}, not to {message.name}")
        return _spelled(message.frame_id, message.is_extended_frame)

    def _ask(self, line: bytes, short: bool) -> DecodedLine:
        """One line decoded, by a program that is kept running."""
        with self._lock:
            decoder = self._decoders.get(short)
            if decoder is None:
                decoder = self._decoders[short] = Decoder(self.path, short=short)
            try:
                text = decoder.ask(line)
            except BaseException:
                self._decoders.pop(short).close()
                raise
        return DecodedLine(text, self._by_number)

    def decode(self, source: Source, *, short: bool = False) -> Iterator[DecodedLine]:
        """Each line of a log, or each frame of python-can, decoded, in order and one for one.

        `source` is a path of a log as `candump -L` writes it, or of any log that python-can reads (BLF, ASC, TRC and so on); or
        lines as `bytes` or `str`, or python-can's `Message`s, as they come. A program runs for them, and is fed by a thread.
        """
        with Decoder(self.path, short=short) as decoder:
            for text in decoder.answers(source):
                yield DecodedLine(text, self._by_number)

    def frame(self, source: Source, message: str | int | None = None, signals: Iterable[str] | None = None, *,
              exact: bool = False, choices: bool = False, short: bool = False) -> pandas.DataFrame:
        """A `pandas.DataFrame` of a log, with a row for each frame of a message, indexed by time in seconds.

        `message` is a name or an identifier; without it all messages are taken, and columns are named `Message.Signal`. `signals`
        chooses columns. Values are floats, or with `exact` `Decimal`s, and so is the index; with `choices` a value that has a
        description is its text. The cell of a signal that a frame doesn't show is NaN, or None.
        """
        from ._frames import frame_of

        return frame_of(self, source, message, signals, exact, choices, short)

    # ---- other reports of the program

    def check(self) -> list[Finding]:
        """The findings of `candesk check` for the database."""
        text = _program.answer(self.path, ["check"], findings=True).decode(errors="backslashreplace")
        return [Finding(int(code), word, subject) for code, word, subject in
                ((it.split(" ", 2) + [""])[:3] for it in text.split("\n") if it)]

    def layout(self, message: Message | str) -> str:
        """The layout diagram of a message, as `candesk dump` draws it."""
        found = self.get_message_by_name(message) if isinstance(message, str) else message
        drawn = _program.answer(self.path, ["dump"]).decode()
        return re.split(r"^(?=Message )", drawn, flags=re.MULTILINE)[found.index + 1]


def _spelled(identifier: int, is_extended: bool) -> str:
    return f"{identifier:08X}" if is_extended else f"{identifier:03X}"


def load(path: str | os.PathLike[str]) -> Database:
    """Reads a database. Raises `Rejected` if it isn't valid, with the line of its first error."""
    return Database(path)
