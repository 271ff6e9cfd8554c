"""Rows of decoded frames: the signals that a frame shows, each with its value, unit and value description.

`Decoded` runs `candesk decode` over a log. It yields rows of `--csv` in pieces, which are written as they come, and frames of
`--json`, for tables with a column for each signal. Floats, which the program leaves out, are decoded here from the bits that the
program names. `Plain` splits decoded lines at their commas, without a database.
"""

from __future__ import annotations

import contextlib
import json
import math
import os
import queue
import re
import subprocess
import threading
from collections.abc import Iterator
from decimal import Decimal
from typing import IO, Any, NamedTuple

import candesk_tools as tools
import csv_pieces


class Reading(NamedTuple):
    """A signal that is shown: its name, value, unit and value description."""

    signal: str
    value: str
    unit: str
    name: str | None


class Row(NamedTuple):
    """A decoded frame: the index of its message, and its signals."""

    time: str
    interface: str
    identifier: str
    message_index: int
    readings: list[Reading]


# a line with a frame, and a decoded line
FRAME = re.compile(rb"\(\d+\.\d{1,9}\)[ \t]+[^ \t]+[ \t]+[^ \t#]+#")
PLAIN = re.compile(r"\((\d+\.\d{1,9})\)[ \t]+([^ \t]+)[ \t]+([^ \t#]+)#\S*(?:[ \t].*?)? :: (\w+)(?:\[[^\]]*\])?\((.*)\)")
PLAIN_PIECE = re.compile(r"(\w+): (.*)")
DECIMAL = re.compile(r"(-?\d+(?:\.\d+)?)(?: (.*))?")
# the most bytes of a line of a log, and a longer line
MAX_BYTES = 4096
LONG = re.compile(rb"[^\n]{%d}" % (MAX_BYTES + 1))
# how many bytes are read at once, and how many such chunks of a log may wait for each program
CHUNK = 1 << 16
MAX_WAITING = 16
JSON, CSV = "--json", "--csv"


class Feed:
    """Feeds a log to programs, each through its own thread and queue, and counts its lines. It waits only while all queues are
    full, so no program holds up another."""

    def __init__(self, source: IO[bytes], name: str, sinks: list[IO[bytes]]) -> None:
        self.name = name
        self.queues: list[queue.SimpleQueue[bytes]] = [queue.SimpleQueue() for _ in sinks]
        self.not_full = threading.Condition()
        self.fault: OSError | None = None
        # how many lines were read, whether one has a frame, the bytes of one that hasn't ended, and the first that is too long
        self.lines, self.has_frames, self.last = 0, False, b""
        self.long_line: int | None = None
        self.progress = tools.Progress(source)
        for sink, waiting in zip(sinks, self.queues):
            threading.Thread(target=self.feed, args=(waiting, sink), daemon=True).start()
        # (a descriptor of its own, since the caller may close the source)
        threading.Thread(target=self.read, args=(os.dup(source.fileno()),), daemon=True).start()

    def read(self, number: int) -> None:
        try:
            for chunk in iter(lambda: os.read(number, CHUNK), b""):
                with self.not_full:
                    self.not_full.wait_for(lambda: min(it.qsize() for it in self.queues) < MAX_WAITING)
                self.count(chunk)
                for waiting in self.queues:
                    waiting.put(chunk)
        except OSError as error:
            error.filename = self.name
            self.fault = error
        for waiting in self.queues:
            waiting.put(b"")

    def count(self, chunk: bytes) -> None:
        self.progress.show(len(chunk))
        chunk = self.last + chunk
        self.has_frames = self.has_frames or FRAME.search(chunk) is not None
        # (a line of that length covers a whole stretch of half that length)
        half = MAX_BYTES // 2
        may_be_long = self.long_line is None and any(chunk.find(b"\n", at, at + half) < 0 for at in range(0, len(chunk), half))
        found = LONG.search(chunk) if may_be_long and len(chunk) > MAX_BYTES else None
        if found:
            self.long_line = self.lines + chunk.count(b"\n", 0, found.start()) + 1
        self.lines += chunk.count(b"\n")
        self.last = chunk[chunk.rfind(b"\n") + 1 :] if self.long_line is None else b""

    def feed(self, waiting: queue.SimpleQueue[bytes], sink: IO[bytes]) -> None:
        """Feeds a program from its queue. Once the program has ended, its chunks are dropped, so that no other one has to wait."""
        is_open = True
        for chunk in iter(waiting.get, b""):
            try:
                if is_open:
                    sink.write(chunk)
                    sink.flush()
            except OSError:
                is_open = False
            with self.not_full:
                self.not_full.notify()
        with contextlib.suppress(OSError):
            sink.close()

    def end(self) -> None:
        """Reports, once all is decoded, why the log ended early, or that no line has a frame."""
        self.progress.end()
        if self.fault:
            raise self.fault
        lines = self.lines + (self.last != b"")
        if lines and not self.has_frames:
            found = "its one line isn't a frame" if lines == 1 else f"0 of {lines:,} lines are frames"
            tools.report(f"{self.name}: {found}: is this ASC, or candump without -L?")


class Decoded:
    """A log, decoded by a database."""

    names_and_numbers = True

    def __init__(self, database: str, short: bool, log: IO[bytes], name: str) -> None:
        self.database = tools.database(database)
        self.messages = [
            tools.Message(it.index, it.number, it.name, [signal.name for signal in it.signals]) for it in self.database.messages
        ]
        self.by_number = {it.number: it for it in reversed(self.database.messages)}
        self.signals = {it.index: {signal.name: signal for signal in it.signals} for it in self.database.messages}
        self.units = {
            (it.index, signal.name): signal.unit or "" for it in self.database.messages for signal in it.signals
        }
        self.has_floats = any(signal.is_float for it in self.database.messages for signal in it.signals)
        self.short, self.log, self.name = short, log, name
        self.only: int | None = None
        self.is_live = not os.path.isfile(f"/proc/self/fd/{log.fileno()}")
        self.programs: list[subprocess.Popen[bytes]] = []

    def __enter__(self) -> Decoded:
        return self

    def __exit__(self, *_: object) -> None:
        with tools.uninterrupted():
            for it in self.programs:
                it.kill()
                it.wait()

    def start(self, *forms: str) -> list[IO[bytes]]:
        """Starts decoding the log, into all these forms at once. Returns the output of each."""
        for form in forms:
            words = [tools.program(), "decode", *(["--short"] if self.short else []), form, "--", self.database.path]
            with tools.uninterrupted():
                self.programs.append(
                    subprocess.Popen(words, stdin=subprocess.PIPE, stdout=subprocess.PIPE, stderr=subprocess.PIPE, bufsize=-1)
                )
        self.feed = Feed(self.log, self.name, [it.stdin for it in self.programs if it.stdin])
        return [it.stdout for it in self.programs if it.stdout]

    # ---- frames

    def objects(self) -> Iterator[bytes]:
        """The JSON object of each line."""
        (answers,) = self.start(JSON)
        yield from answers
        self.check_end()

    def __iter__(self) -> Iterator[Row]:
        # (a quote within a string follows a backslash, so no string can contain this)
        mark = b'"number":' if self.only is None else b'"number":%d,' % (self.messages[self.only].number or 0)
        for line in self.objects():
            if mark in line and b'"signals":' in line:
                row = self.row(line)
                if self.only is None or row.message_index == self.only:
                    yield row

    def row(self, line: bytes) -> Row:
        """The row of a frame, from its JSON object. Numbers with a point keep their digits."""
        frame = json.loads(line, parse_float=str)
        message = self.by_number[frame["number"]]
        readings = [self.reading(name, it, message.index, frame["data"]) for name, it in frame["signals"].items()]
        identifier = f"{frame['id']:08X}" if frame["extended"] else f"{frame['id']:03X}"
        return Row(frame["time"], frame["interface"], identifier, message.index, readings)

    def reading(self, name: str, shown: dict[str, Any], index: int, data: str) -> Reading:
        refused = shown.get("refused")
        if refused == "float":
            value = self.signals[index][name].float_value(bytes.fromhex(data))
            return Reading(name, spelled(value), self.units[index, name], None)
        return Reading(name, str(shown["value"]) if refused is None else f"?{refused}", shown.get("unit", ""), shown.get("name"))

    # ---- rows of CSV

    def rows(self) -> Iterator[bytes]:
        """The rows of `--csv` in pieces, as the program writes them, header included. If the database has floats, a piece is whole
        rows."""
        answers = self.start(CSV, JSON) if self.has_floats else self.start(CSV)
        pieces: Iterator[bytes] = iter(lambda: os.read(answers[0].fileno(), CHUNK), b"")
        if self.has_floats:
            floats = self.read_floats(answers[1])
            pieces = (csv_pieces.with_floats(it, floats) for it in csv_pieces.whole_rows(pieces))
        yield from pieces
        self.check_end()

    def read_floats(self, answers: IO[bytes]) -> Iterator[Reading]:
        """All floats of a log, in order. A thread reads the output, so that the program never waits."""
        waiting: queue.SimpleQueue[Reading | None] = queue.SimpleQueue()

        def read() -> None:
            try:
                for it in self.floats(answers):
                    waiting.put(it)
            finally:
                waiting.put(None)

        threading.Thread(target=read, daemon=True).start()
        return iter(waiting.get, None)

    def floats(self, answers: IO[bytes]) -> Iterator[Reading]:
        """All floats of a log, in order."""
        mark, kept = b'"refused":"float"', b""
        for chunk in iter(lambda: os.read(answers.fileno(), CHUNK), b""):
            whole, _, kept = (kept + chunk).rpartition(b"\n")
            for line in whole.split(b"\n") if mark in whole else ():
                if mark in line:
                    row = self.row(line)
                    yield from (it for it in row.readings if self.signals[row.message_index][it.signal].is_float)

    def check_end(self) -> None:
        """Raises a fault with a program's message if it failed; otherwise ends the feed."""
        for it in self.programs:
            assert it.stdout and it.stderr
            status, errors = it.wait(), it.stderr.read()
            message = tools.error_message(errors) if status else ""
            if message == tools.LONG_LINE:
                raise tools.Fault(f"{self.name}: line {self.feed.long_line}: {message}", tools.status_of(status))
            if status:
                raise tools.Fault(f"{self.database.path}: {message}", tools.status_of(status))
        self.feed.end()


def spelled(value: float | None) -> str:
    """A float in a table: the shortest decimal that is this double, or `nan`, `inf`, `-inf`; `?float`, as the program writes, if
    the frame doesn't have all its bits."""
    if value is None:
        return "?float"
    return f"{Decimal(repr(value)):f}".removesuffix(".0") if math.isfinite(value) else repr(value)


class Plain:
    """The rows of decoded lines, on the assumption that no unit or value description has a comma."""

    names_and_numbers = False

    def __init__(self, log: IO[bytes], name: str) -> None:
        self.log, self.name = log, name
        self.only: int | None = None
        self.is_live = not os.path.isfile(f"/proc/self/fd/{log.fileno()}")
        self.messages: list[tools.Message] = []
        self.units: dict[tuple[int, str], str] = {}
        self.indexes: dict[str, int] = {}

    def __enter__(self) -> Plain:
        return self

    def __exit__(self, *_: object) -> None:
        pass

    def __iter__(self) -> Iterator[Row]:
        for at, line in enumerate(tools.lines_of(self.log, self.name), 1):
            found = PLAIN.fullmatch(tools.shown(line.rstrip(b"\r\n")))
            if found:
                readings = [self.reading(it, at) for it in found[5].split(", ")] if found[5] else []
                index = self.indexes.setdefault(found[4], len(self.indexes))
                if index == len(self.messages):
                    self.messages.append(tools.Message(index, None, found[4], []))
                self.add_signals(self.messages[index], [it.signal for it in readings], at)
                yield Row(found[1], found[2], found[3], index, readings)

    def reading(self, piece: str, at: int) -> Reading:
        found = PLAIN_PIECE.fullmatch(piece)
        if not found or ": " in found[2]:
            raise tools.Fault(f"line {at}: a name or unit has a comma or a colon in it: give --database FILE", tools.REJECTED)
        decimal = DECIMAL.fullmatch(found[2])
        if decimal:
            return Reading(found[1], decimal[1], decimal[2] or "", None)
        if re.fullmatch(r"\?(outside|float|long|scale)", found[2]):
            return Reading(found[1], found[2], "", None)
        return Reading(found[1], "", "", found[2])

    def add_signals(self, message: tools.Message, names: list[str], at: int) -> None:
        """Adds the signals of a line to those known of its message."""
        if len(set(names)) < len(names):
            raise tools.Fault(f"line {at}: a signal occurs twice: give --database FILE", tools.REJECTED)
        message.signals.extend(it for it in names if it not in message.signals)
