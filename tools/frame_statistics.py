"""Counts and gaps of frames, and the load of a bus, from the objects of `candesk decode --json`."""

from __future__ import annotations

import argparse
import json
import sys
from decimal import Decimal
from typing import IO, NamedTuple

import candesk_tools as tools
import csv_pieces
from decoded_rows import Decoded

COLUMNS = ("count", "min", "mean", "max", "cycle", "late", "interface", "identifier", "message")
# these first columns are numbers, which are aligned to the right
NUMBERS = 6
# times are whole nanoseconds
SECOND = 10**9
CYCLE_UNIT = SECOND // 1000
# the bits from SOF to the pause after a frame, without data, and how many of them can need stuff bits: standard and extended
CLASSIC = {False: (47, 34), True: (67, 54)}
# of CAN FD: the bits at the bitrate; those at the data bitrate without data and CRC; the CRC, its stuff count and fixed stuff bits
FD_ARBITRATION, FD_DATA = {False: 29, True: 48}, 6
FD_CRC = {False: 17 + 4 + 6, True: 21 + 4 + 7}
FD_SHORT = 16


class Key(NamedTuple):
    interface: str
    id: int
    extended: bool
    is_error: bool


class Frames:
    """The frames of an interface and an identifier."""

    def __init__(self, message: str, cycle: int | None, first: int) -> None:
        # the name of the message, or why there is none
        self.message, self.cycle = message, cycle
        self.count, self.first, self.last = 0, first, first
        self.least: int | None = None
        self.greatest: int | None = None
        self.late = 0

    def put(self, time: int, limit: float | None) -> None:
        """Counts a frame; it is late if its gap is over a limit."""
        if self.count:
            gap = time - self.last
            self.least = gap if self.least is None else min(self.least, gap)
            self.greatest = gap if self.greatest is None else max(self.greatest, gap)
            self.late += limit is not None and gap > limit
        self.count += 1
        self.last = time

    @property
    def mean(self) -> Decimal | None:
        return Decimal(self.last - self.first) / (self.count - 1) if self.count > 1 else None


class Bus:
    """The frames of an interface: when the first and last came, and how many seconds all took at least and at most."""

    def __init__(self, first: int) -> None:
        self.first = self.last = first
        self.least = self.most = Decimal(0)

    def put(self, time: int, least: Decimal, most: Decimal) -> None:
        self.first, self.last = min(self.first, time), max(self.last, time)
        self.least += least
        self.most += most


def nanoseconds(digits: str) -> int:
    whole, _, fraction = digits.partition(".")
    return int(whole) * SECOND + int(fraction.ljust(9, "0"))


def seconds(time: int | Decimal | None) -> str:
    return "" if time is None else f"{Decimal(time) / SECOND:.6f}"


def times_of(kind: str, extended: bool, length: int, bitrate: int, data_bitrate: int) -> tuple[Decimal, Decimal]:
    """How many seconds a frame takes, without stuff bits and with as many as there can be."""
    if kind == "fd":
        data = FD_DATA + 8 * length + FD_CRC[length > FD_SHORT]
        arbitration = FD_ARBITRATION[extended]
        stuffed = (arbitration - 10) // 4, (FD_DATA + 8 * length) // 4
        least = Decimal(arbitration) / bitrate + Decimal(data) / data_bitrate
        return least, least + Decimal(stuffed[0]) / bitrate + Decimal(stuffed[1]) / data_bitrate
    bits, stuffable = CLASSIC[extended]
    return Decimal(bits + 8 * length) / bitrate, Decimal(bits + 8 * length + (stuffable + 8 * length - 1) // 4) / bitrate


class Statistics:
    """The frames of a log, by interface and identifier, and by interface."""

    def __init__(self, source: Decoded, options: argparse.Namespace) -> None:
        self.options, self.lines = options, 0
        self.frames: dict[Key, Frames] = {}
        self.buses: dict[str, Bus] = {}
        self.cycles = {it.number: it.cycle_time for it in reversed(source.database.messages)}
        for line in source.objects():
            if line.startswith(b'{"time":'):
                self.put(json.loads(line, parse_float=str))
            else:
                self.lines += 1

    def put(self, frame: dict[str, object]) -> None:
        kind, data, interface = str(frame["kind"]), str(frame.get("data", "")), str(frame["interface"])
        key = Key(interface, int(str(frame["id"])), frame["extended"] is True, kind == "error")
        time = nanoseconds(str(frame["time"]))
        frames = self.frames.get(key)
        if frames is None:
            cycle = self.cycles.get(int(str(frame.get("number", -1))))
            length = int(cycle * CYCLE_UNIT) if cycle and cycle > 0 else None
            frames = self.frames[key] = Frames(str(frame.get("message") or frame.get("not_decoded")), length, time)
        frames.put(time, None if frames.cycle is None else frames.cycle * self.options.late)
        if self.options.bitrate and kind != "error":
            bus = self.buses.setdefault(interface, Bus(time))
            bitrate = self.options.bitrate
            bus.put(time, *times_of(kind, key.extended, len(data) // 2, bitrate, self.options.data_bitrate or bitrate))

    def rows(self) -> list[list[str]]:
        rows = []
        for key, frames in sorted(self.frames.items()):
            identifier = f"{key.id:08X}" if key.extended else f"{key.id:03X}"
            late = "" if frames.cycle is None else str(frames.late)
            times = [seconds(it) for it in (frames.least, frames.mean, frames.greatest, frames.cycle)]
            rows.append([str(frames.count), *times, late, key.interface, identifier, frames.message])
        return rows

    def loads(self) -> list[str]:
        lines = []
        for interface, bus in sorted(self.buses.items()):
            lasted = Decimal(bus.last - bus.first) / SECOND
            if lasted:
                least, most = (100 * it / lasted for it in (bus.least, bus.most))
                lines.append(f"{interface}: load {least:.1f} to {most:.1f} % of {self.options.bitrate:,} bits a second")
        return lines


def aligned(rows: list[list[str]]) -> list[str]:
    """Rows in aligned columns, numbers at the right. An empty cell is a dash."""
    shown = [list(COLUMNS), *([cell or "-" for cell in row] for row in rows)]
    widths = [max(len(row[at]) for row in shown) for at in range(len(COLUMNS))]
    return ["  ".join(cell.rjust(width) if at < NUMBERS else cell.ljust(width)
                      for at, (cell, width) in enumerate(zip(row, widths))).rstrip() for row in shown]


def report(options: argparse.Namespace, log: IO[bytes], name: str) -> None:
    with Decoded(options.database, False, log, name) as source:
        found = Statistics(source, options)
    if options.format == "csv":
        text = "".join(csv_pieces.row_text(row) for row in ([*COLUMNS], *found.rows()))
        for load in found.loads():
            tools.report(load)
    else:
        lines = [*aligned(found.rows()), *found.loads()]
        if found.lines:
            lines.append(f"{tools.counted(found.lines, 'line')} without a frame")
        text = "".join(it + "\n" for it in lines)
    sys.stdout.buffer.write(text.encode())
    sys.stdout.buffer.flush()
