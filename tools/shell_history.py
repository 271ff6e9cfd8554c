"""The history of a prompt, in the format of prompt_toolkit, for lines of any bytes. (Its own history accepts UTF-8 only, but a
statement of a database may have any encoding, and its bytes come as surrogates.)"""

from __future__ import annotations

import datetime
from collections.abc import Iterable

from prompt_toolkit.history import FileHistory

ENCODING, ERRORS = "utf-8", "surrogateescape"


class ByteHistory(FileHistory):  # type: ignore[misc]
    """A history in which each line keeps its bytes."""

    def load_history_strings(self) -> Iterable[str]:
        """The lines that were typed, the latest first. A line of the file that begins with + is such a line, or a part of one."""
        found: list[str] = []
        parts: list[str] = []
        try:
            with open(self.filename, encoding=ENCODING, errors=ERRORS, newline="\n") as file:
                for line in file:
                    if line.startswith("+"):
                        parts.append(line[1:])
                    elif parts:
                        found.append("".join(parts)[:-1])
                        parts = []
        except FileNotFoundError:
            pass
        if parts:
            found.append("".join(parts)[:-1])
        return reversed(found)

    def store_string(self, string: str) -> None:
        lines = "".join(f"+{it}\n" for it in string.split("\n"))
        with open(self.filename, "a", encoding=ENCODING, errors=ERRORS, newline="\n") as file:
            file.write(f"\n# {datetime.datetime.now()}\n{lines}")
