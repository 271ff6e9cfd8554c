"""Tables of decoded frames: wide for one message, a wide one for each message, or long; as CSV, JSON Lines or Parquet. Texts are
UTF-8, and values keep their exact digits."""

from __future__ import annotations

import argparse
import contextlib
import fnmatch
import io
import json
import os
import sys
from collections.abc import Iterable, Sequence
from typing import Any, BinaryIO, Union

import candesk_tools as tools
import csv_pieces
import parquet_tables
from decoded_rows import DECIMAL, Decoded, Plain, Row

Source = Union[Decoded, Plain]

BEFORE = ["time", "interface", "identifier"]
# the columns of a long table: as the program writes them, and of plain lines, which don't distinguish extended identifiers
LONG = ["time", "interface", "id", "message", "signal", "value", "unit", "name"]
PLAIN_LONG = ["time", "interface", "identifier", "message", "signal", "value", "unit", "name"]
CSV, LINES, PARQUET = "csv", "jsonl", "parquet"
FORMATS = (CSV, LINES, PARQUET)
# columns of text, even if a value has digits alone
TEXTS = frozenset(("interface", "identifier", "message", "signal", "unit", "name"))
# how many rows of a folder's tables are collected before they are written
MAX_WAITING = 20000


def member(column: str, cell: str) -> str:
    """A member of a JSON object: a number as its digits, an empty cell as null."""
    is_number = column not in TEXTS and (column == "time" or DECIMAL.fullmatch(cell) is not None)
    value = cell if is_number and cell else json.dumps(cell, ensure_ascii=False) if cell else "null"
    return f"{json.dumps(column, ensure_ascii=False)}:{value}"


class Table:
    """A table on a stream of bytes. The rows put so far are written when it ends, even by an exception."""

    def __init__(self, stream: BinaryIO, form: str, is_live: bool = False) -> None:
        self.stream, self.form, self.is_live = stream, form, is_live
        self.columns: Sequence[str] = ()
        self.parquet = parquet_tables.Writer(stream) if form == PARQUET else None
        self.text = io.TextIOWrapper(stream, encoding="utf-8", newline="", write_through=is_live) if form != PARQUET else None

    def __enter__(self) -> Table:
        return self

    def __exit__(self, kind: object, *_: object) -> None:
        if self.parquet:
            if not kind:
                self.parquet.end()
            return
        assert self.text
        with contextlib.suppress(OSError) if kind else contextlib.nullcontext():
            self.text.flush()
        with contextlib.suppress(OSError):
            self.text.detach()

    def head(self, columns: Sequence[str]) -> None:
        """Writes the header: the names of the columns. Call it once, before the first row."""
        self.columns = columns
        if self.parquet:
            self.parquet.head(columns, TEXTS)
        elif self.form == CSV:
            self.write(csv_pieces.row_text(columns))

    def put(self, row: Sequence[str]) -> None:
        if self.parquet:
            self.parquet.put(row)
        elif self.form == CSV:
            self.write(csv_pieces.row_text(row))
        else:
            self.write("{" + ",".join(map(member, self.columns, row)) + "}\n")

    def write(self, text: str) -> None:
        assert self.text
        self.text.write(text)
        if self.is_live:
            self.text.flush()


class Choice:
    """The signals of a table, by globs of `MESSAGE.SIGNAL`, or of `MESSAGE` for all its signals; all signals without a glob."""

    def __init__(self, globs: Iterable[str]) -> None:
        self.globs = [it if "." in it else it + ".*" for it in globs]

    def has(self, message: str, signal: str) -> bool:
        return not self.globs or any(fnmatch.fnmatchcase(f"{message}.{signal}", it) for it in self.globs)

    def of(self, message: tools.Message) -> list[str]:
        """The chosen signals of a message."""
        return [it for it in message.signals if self.has(message.name, it)]


def write(source: Source, options: argparse.Namespace) -> None:
    choice = Choice(options.only)
    if choice.globs and isinstance(source, Decoded) and not any(map(choice.of, source.messages)):
        raise tools.Fault(f"the database has no signal like {' or '.join(options.only)}", tools.REJECTED)
    if options.long:
        write_long(source, options, choice)
    elif options.message is not None:
        write_message(source, options, choice)
    else:
        write_folder(source, options, choice)


def write_long(source: Source, options: argparse.Namespace, choice: Choice) -> None:
    if isinstance(source, Plain):
        write_plain_long(source, options, choice)
    elif options.format == CSV:
        write_pieces(source, choice)
    else:
        with Table(sys.stdout.buffer, options.format, source.is_live) as table:
            table.head(LONG)
            for row in csv_pieces.rows_of(source.rows()):
                if choice.has(row[csv_pieces.MESSAGE], row[csv_pieces.SIGNAL]):
                    table.put(row)


def write_pieces(source: Decoded, choice: Choice) -> None:
    """Writes the rows as the program does."""
    pieces = source.rows()
    if choice.globs:
        wanted = {(message.name, it) for message in source.messages for it in choice.of(message)}
        wanted.add((LONG[csv_pieces.MESSAGE], LONG[csv_pieces.SIGNAL]))
        pieces = map(csv_pieces.Only(wanted), csv_pieces.whole_rows(pieces))
    out = sys.stdout.buffer
    for it in pieces:
        out.write(it)
        if source.is_live:
            out.flush()
    out.flush()


def write_plain_long(source: Plain, options: argparse.Namespace, choice: Choice) -> None:
    with Table(sys.stdout.buffer, options.format, source.is_live) as table:
        table.head(PLAIN_LONG)
        for row in source:
            message = source.messages[row.message_index].name
            for it in row.readings:
                if choice.has(message, it.signal):
                    table.put([row.time, row.interface, row.identifier, message, it.signal, it.value, it.unit, it.name or ""])


def header_of(source: Source, message: tools.Message, options: argparse.Namespace, choice: Choice) -> list[str]:
    """The columns of a message's table, with units in brackets if they are asked for."""
    columns = []
    for name in choice.of(message):
        unit = source.units.get((message.index, name), "") if options.units else ""
        columns.append(f"{name} [{unit}]" if unit else name)
    return [*BEFORE, *columns]


def cells_of(source: Source, row: Row, message: tools.Message, options: argparse.Namespace, choice: Choice) -> list[str]:
    """A row of a message's table. A signal that isn't shown has an empty cell."""
    cells: dict[str, str] = {}
    for it in row.readings:
        shows_name = it.name is not None and (options.names or not source.names_and_numbers)
        cells[it.signal] = it.name if shows_name and it.name is not None else it.value
    return [row.time, row.interface, row.identifier, *(cells.get(name, "") for name in choice.of(message))]


def chosen(source: Source, given: str) -> tools.Message:
    """The message with a name, or with an ID as in `BO_`; bit 31 of a 29-bit identifier may be left out."""
    number: int | None
    try:
        number = int(given, 0)
    except ValueError:
        number = None
    found = [it for it in source.messages if it.name == given or it.number == number is not None]
    if not found and number is not None:
        found = [it for it in source.messages if it.number == number | 1 << 31]
    if not found:
        raise tools.Fault(f"the database has no message {given}", tools.REJECTED)
    if len(found) > 1:
        ids = ", ".join(str(it.number) for it in found)
        raise tools.Fault(f"{given} is the name of several messages: give one of the IDs {ids}", tools.REJECTED)
    return found[0]


def write_message(source: Source, options: argparse.Namespace, choice: Choice) -> None:
    if not source.names_and_numbers:
        write_plain_message(source, options, choice)
        return
    message = chosen(source, options.message)
    source.only = message.index
    with Table(sys.stdout.buffer, options.format, source.is_live) as table:
        table.head(header_of(source, message, options, choice))
        for row in source:
            table.put(cells_of(source, row, message, options, choice))


def write_plain_message(source: Source, options: argparse.Namespace, choice: Choice) -> None:
    """Writes the table of a message of plain lines. (Its columns are known only after its last line.)"""
    rows = [it for it in source if source.messages[it.message_index].name == options.message]
    if not rows:
        raise tools.Fault(f"there is no line of a message {options.message}", tools.REJECTED)
    message = source.messages[rows[0].message_index]
    with Table(sys.stdout.buffer, options.format) as table:
        table.head(header_of(source, message, options, choice))
        for row in rows:
            table.put(cells_of(source, row, message, options, choice))


def write_folder(source: Source, options: argparse.Namespace, choice: Choice) -> None:
    """Writes a table for each message in the log. All are renamed into the folder at the end, when they are complete."""
    os.makedirs(options.folder, exist_ok=True)
    with tools.Folder(prefix=".candesk-", dir=options.folder) as folder:
        waiting: dict[int, list[Row]] = {}
        count, indexes = 0, set()
        for row in source:
            if choice.globs and not choice.of(source.messages[row.message_index]):
                continue
            waiting.setdefault(row.message_index, []).append(row)
            indexes.add(row.message_index)
            count += 1
            if count % MAX_WAITING == 0:
                append(source, options, choice, folder, waiting)
                waiting = {}
        append(source, options, choice, folder, waiting)
        names = names_of(source, indexes, options.format)
        for index in sorted(indexes):
            with tools.replacing(os.path.join(options.folder, names[index])) as file:
                put_whole(source, options, choice, index, os.path.join(folder, str(index)), file)


def append(source: Source, options: argparse.Namespace, choice: Choice, folder: str, waiting: dict[int, list[Row]]) -> None:
    """Appends rows to files in a temporary folder, one line of JSON each."""
    for index, rows in waiting.items():
        with tools.naming(options.folder), open(os.path.join(folder, str(index)), "a", encoding="utf-8") as file:
            for row in rows:
                cells = cells_of(source, row, source.messages[index], options, choice)
                file.write(json.dumps(cells, ensure_ascii=False) + "\n")


def put_whole(source: Source, options: argparse.Namespace, choice: Choice, index: int, rows: str, file: BinaryIO) -> None:
    """Writes the table of the rows in a file. (With plain lines, a message's later columns are known only now.)"""
    columns = header_of(source, source.messages[index], options, choice)
    with Table(file, options.format) as table, open(rows, encoding="utf-8") as made:
        table.head(columns)
        for line in made:
            row: list[Any] = json.loads(line)
            table.put(row + [""] * (len(columns) - len(row)))


def names_of(source: Source, indexes: set[int], form: str) -> dict[int, str]:
    """The file name of each message's table; it includes the message ID if several messages share a name."""
    count: dict[str, int] = {}
    for it in source.messages:
        count[it.name] = count.get(it.name, 0) + 1
    named = {}
    for index in indexes:
        it = source.messages[index]
        named[index] = f"{it.name}.{form}" if count[it.name] == 1 else f"{it.name}.{it.number}.{form}"
    return named
