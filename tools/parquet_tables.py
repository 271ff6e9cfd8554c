"""Tables as Parquet, by pyarrow: texts are strings and numbers doubles. A column with any text is a string column."""

from __future__ import annotations

from collections.abc import Sequence
from typing import Any, BinaryIO

import candesk_tools as tools


def need() -> None:
    """Raises a fault if pyarrow isn't installed."""
    tools.need_package("pyarrow", "pip install pyarrow")


def number(cell: str) -> float | None:
    """A cell as a double, or None if it isn't a number."""
    try:
        return float(cell)
    except ValueError:
        return None


class Writer:
    """A Parquet file. It is written at its end, when it is known which columns have texts."""

    def __init__(self, stream: BinaryIO) -> None:
        self.stream = stream
        self.names: Sequence[str] = ()
        self.texts: frozenset[str] = frozenset()
        self.cells: list[list[str]] = []

    def head(self, names: Sequence[str], texts: frozenset[str]) -> None:
        self.names, self.texts = names, texts
        self.cells = [[] for _ in names]

    def put(self, row: Sequence[str]) -> None:
        for column, cell in zip(self.cells, row):
            column.append(cell)

    def column(self, name: str, cells: list[str]) -> list[Any]:
        """The values of a column. Values that the program doesn't decode, such as `?long`, and empty cells are null."""
        if name not in self.texts:
            numbers = [number(it) for it in cells]
            if all(number is not None or not cell or cell.startswith("?") for number, cell in zip(numbers, cells)):
                return numbers
        return [it or None for it in cells]

    def end(self) -> None:
        import pyarrow
        import pyarrow.parquet

        columns = {name: self.column(name, cells) for name, cells in zip(self.names, self.cells)}
        arrays = {
            name: pyarrow.array(it, type=pyarrow.string() if any(isinstance(cell, str) for cell in it) else pyarrow.float64())
            for name, it in columns.items()
        }
        pyarrow.parquet.write_table(pyarrow.table(arrays), self.stream)
