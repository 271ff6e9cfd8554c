"""pandas tables of logs."""

from __future__ import annotations

import json
import warnings
from collections.abc import Iterable
from decimal import Decimal
from typing import TYPE_CHECKING, Any

from ._bits import bits_of, float_of
from ._decoding import Decoder
from ._errors import PackageMissing
from ._logs import Source

if TYPE_CHECKING:
    import pandas

    from ._database import Database, Message, Signal


class _Columns:
    """The columns of a table, to which frames are added."""

    def __init__(self, message: Message | None, wanted: set[str] | None, exact: bool, choices: bool) -> None:
        self.message, self.wanted, self.exact, self.choices = message, wanted, exact, choices
        self.times: list[Any] = []
        self.cells: dict[str, dict[int, Any]] = {}
        if message:
            for it in message.signals:
                if wanted is None or it.name in wanted:
                    self.cells[it.name] = {}

    def put(self, members: dict[str, Any], message: Message, signals: dict[str, Signal]) -> None:
        """Adds the row of a frame. In a table of all messages, a frame without a wanted column has no row."""
        row, is_row = len(self.times), self.message is not None
        for name, it in members["signals"].items():
            column = name if self.message else f"{message.name}.{name}"
            if self.wanted is None or column in self.wanted:
                self.cells.setdefault(column, {})[row] = self.cell(it, members, signals[name])
                is_row = True
        if is_row:
            self.times.append(members["time"])

    def cell(self, shown: dict[str, Any], members: dict[str, Any], signal: Signal) -> Any:
        if shown.get("refused") == "float":
            data = bytes.fromhex(members["data"])
            return float_of(bits_of(data), len(data), signal.positions, signal.scale, signal.offset)
        if self.choices and "name" in shown:
            return shown["name"]
        return shown.get("value")

    def table(self) -> pandas.DataFrame:
        import pandas

        count = len(self.times)
        index = pandas.Index(self.times, name="time", dtype=object if self.exact else float)
        columns = {}
        for name, cells in self.cells.items():
            values = [cells.get(row) for row in range(count)] if len(cells) < count else list(cells.values())
            is_plain = not self.exact and not any(isinstance(it, str) for it in values)
            columns[name] = pandas.Series(values, index=index, dtype=float if is_plain else object)
        return pandas.DataFrame(columns, index=index)


def frame_of(database: Database, source: Source, message: str | int | None, signals: Iterable[str] | None, exact: bool,
             choices: bool, short: bool) -> pandas.DataFrame:
    """See `Database.frame`."""
    try:
        import pandas  # noqa: F401
    except ImportError as error:
        raise PackageMissing("a table needs pandas (Debian's python3-pandas)") from error
    only = None
    if message is not None:
        only = database.get_message_by_name(message) if isinstance(message, str) else database.get_message_by_frame_id(message)
    wanted = None if signals is None else set(signals)
    if only and wanted is not None:
        for name in wanted:
            only.get_signal_by_name(name)
    columns = _Columns(only, wanted, exact, choices)
    by_number = {it.number: it for it in reversed(database.messages)}
    by_name = {number: {signal.name: signal for signal in it.signals} for number, it in by_number.items()}
    # (no string of an object can contain this: a quote in a string follows a backslash)
    mark = b'"number":%d' % only.number if only else b'"number":'
    lines = frames = 0
    with Decoder(database.path, short=short) as decoder:
        for line in decoder.answers(source):
            lines += 1
            frames += line.startswith(b'{"time":')
            if mark not in line or b'"signals":' not in line:
                continue
            members = json.loads(line, parse_float=Decimal if exact else float)
            if only is None or members["number"] == only.number:
                columns.put(members, by_number[members["number"]], by_name[members["number"]])
    if lines and not frames:
        warnings.warn(f"0 of {lines:,} lines are frames: is this ASC, or candump without -L?", stacklevel=3)
    return columns.table()
