"""Lines of a log, decoded by a program that is kept running."""

from __future__ import annotations

import json
import subprocess
import threading
from collections.abc import Iterator, Mapping
from decimal import Decimal
from typing import TYPE_CHECKING, Any, NamedTuple, NoReturn, Union

from . import _program
from ._bits import Number, bits_of, float_of, raw_of
from ._logs import Source, pieces_of

if TYPE_CHECKING:
    from ._database import Message

# the value of a signal: a number, the text of a value description, or None if it isn't decoded
Value = Union[int, float, Decimal, str, None]
CHUNK = 1 << 16


class J1939(NamedTuple):
    """The fields of a J1939 identifier. The destination is None from PDU format 240 on."""

    pgn: int
    priority: int
    source: int
    destination: int | None


class Reading(NamedTuple):
    """A signal in a frame: its exact value, its unit, and the text of its value description; or why it isn't decoded."""

    value: Number | None
    unit: str | None
    name: str | None
    refused: str | None


class DecodedLine:
    """A line of a log, with its frame decoded. A line that is no frame has only `line`."""

    __slots__ = ("_members", "message")

    def __init__(self, text: bytes, by_number: Mapping[int, Message]) -> None:
        self._members: dict[str, Any] = json.loads(text, parse_float=Decimal)
        number = self._members.get("number")
        # the message of the frame, or None
        self.message: Message | None = None if number is None else by_number.get(number)

    def __repr__(self) -> str:
        return f"DecodedLine({self._members!r})"

    @property
    def time(self) -> Decimal | None:
        """The time in seconds, exactly as in the log."""
        time = self._members.get("time")
        return None if time is None else Decimal(time)

    @property
    def interface(self) -> str | None:
        return self._members.get("interface")

    @property
    def id(self) -> int | None:
        """The identifier without flags."""
        return self._members.get("id")

    @property
    def extended(self) -> bool:
        """Whether the identifier is extended (29 bits)."""
        return self._members.get("extended", False)

    @property
    def kind(self) -> str | None:
        """`data`, `fd`, `remote` or `error`."""
        return self._members.get("kind")

    @property
    def data(self) -> bytes:
        return bytes.fromhex(self._members.get("data", ""))

    @property
    def j1939(self) -> J1939 | None:
        fields = self._members.get("j1939")
        return None if fields is None else J1939(fields["pgn"], fields["priority"], fields["source"], fields.get("destination"))

    @property
    def readings(self) -> dict[str, Reading]:
        """The signals that the frame shows, by their names, in order."""
        return {name: _reading(it) for name, it in self._members.get("signals", {}).items()}

    @property
    def not_decoded(self) -> str | None:
        """`error frame`, `remote frame`, `unknown id` or `wrong size`."""
        return self._members.get("not_decoded")

    @property
    def size(self) -> int | None:
        """The length of the message in bytes, if the length of the frame is wrong."""
        return self._members.get("size")

    @property
    def rest(self) -> str | None:
        """The rest of the line after the frame."""
        return self._members.get("rest")

    @property
    def line(self) -> str | None:
        """The line, if it is no frame."""
        return self._members.get("line")

    def values(self, *, decode_choices: bool = True, scaling: bool = True, exact: bool = False) -> dict[str, Value]:
        """The values of the signals that the frame shows, by their names; see `Database.decode_message`."""
        if not self.message:
            return {}
        signals = {it.name: it for it in self.message.signals}
        bits, length = bits_of(self.data), len(self.data)
        shown: dict[str, Value] = {}
        for name, it in self.readings.items():
            signal = signals[name]
            if it.refused == "float":
                shown[name] = float_of(bits, length, signal.positions, signal.scale, signal.offset)
            elif it.name is not None and decode_choices:
                shown[name] = it.name
            elif not scaling:
                shown[name] = None if it.refused else raw_of(bits, length, signal.positions, signal.is_signed)
            elif isinstance(it.value, Decimal) and not exact:
                shown[name] = float(it.value)
            else:
                shown[name] = it.value
        return shown


def _reading(members: dict[str, Any]) -> Reading:
    return Reading(members.get("value"), members.get("unit"), members.get("name"), members.get("refused"))


class Decoder:
    """A running `candesk decode --json`: lines go in, and objects come out, in order and one for one."""

    def __init__(self, path: str, *, short: bool = False) -> None:
        self.path = path
        with open(path, "rb"):
            pass
        words = [_program.checked_program(), "decode", "--json", *(["--short"] if short else []), "--", path]
        # (in its own process session, an interrupt of a terminal doesn't end it)
        self.running = subprocess.Popen(
            words, start_new_session=True, stdin=subprocess.PIPE, stdout=subprocess.PIPE, stderr=subprocess.PIPE
        )
        assert self.running.stdin and self.running.stdout and self.running.stderr
        self._lines, self._answers, self._errors = self.running.stdin, self.running.stdout, self.running.stderr
        # how many lines were answered, and the error of reading the source
        self._count = 0
        self._failure: BaseException | None = None

    def __enter__(self) -> Decoder:
        return self

    def __exit__(self, *_: object) -> None:
        self.close()

    def close(self) -> None:
        self.running.kill()
        self.running.wait()
        for it in (self._answers, self._errors):
            it.close()
        try:
            self._lines.close()
        except OSError:
            pass

    def _raise_end(self) -> NoReturn:
        try:
            self._lines.close()
        except OSError:
            pass
        errors = self._errors.read()
        _program.raise_failure(self.path, self.running.wait(), errors, self._count)

    def ask(self, line: bytes) -> bytes:
        """The object of one line, which has no line feed."""
        try:
            self._lines.write(line + b"\n")
            self._lines.flush()
        except OSError:
            self._raise_end()
        answer: bytes = self._answers.readline()
        if not answer.endswith(b"\n"):
            self._raise_end()
        self._count += 1
        return answer

    def answers(self, source: Source) -> Iterator[bytes]:
        """The objects of all lines of a source, which a thread reads. After them the program has ended."""
        threading.Thread(target=self._feed, args=(source,), daemon=True).start()
        for answer in self._answers:
            if not answer.endswith(b"\n"):
                break
            self._count += 1
            yield answer
        if self._failure:
            raise self._failure
        if self.running.wait():
            self._raise_end()

    def _feed(self, source: Source) -> None:
        try:
            for piece in pieces_of(source):
                self._lines.write(piece)
                # (a live frame is answered at once)
                if len(piece) < CHUNK:
                    self._lines.flush()
        except (BrokenPipeError, ValueError):
            pass
        except BaseException as error:  # noqa: BLE001  (`answers` raises it again)
            self._failure = error
        finally:
            try:
                self._lines.close()
            except OSError:
                pass
