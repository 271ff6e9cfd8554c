"""The session of a shell: that of the Python package, with its exceptions turned into faults of a tool."""

from __future__ import annotations

import os
from typing import NoReturn

import candesk_tools as tools  # (it finds the package)

import candesk


class Session(candesk.SessionTalk):
    """A session on a file, with the lines that it keeps."""

    def __init__(self, path: str, is_short: bool = False, keep: int | None = None) -> None:
        os.environ["CANDESK"] = tools.program()
        with tools.as_faults():
            super().__init__(path, short=is_short, keep=keep)

    def raise_end(self) -> NoReturn:
        with tools.as_faults():
            super().raise_end()

    def ask(self, command: bytes) -> tuple[bytes, list[bytes]]:
        try:
            return super().ask(command)
        except ValueError as error:
            raise tools.Fault(str(error), tools.REJECTED) from error
