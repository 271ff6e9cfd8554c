#!/usr/bin/env python3
"""tables.py [LINES]: the speed of tables of a log, by candesk-table, by the Python package and by canmatrix, in one run.

The log is LINES lines (1,000,000 by default) of examples/drive.log, repeated, with the database of a car. For each way it prints
the lines per second of wall-clock time; canmatrix decodes a hundredth of the lines. If pandas or canmatrix isn't installed, its
rows are left out. Nothing else should run on the machine.
"""

from __future__ import annotations

import importlib.util
import itertools
import logging
import os
import subprocess
import sys
import tempfile
import time
from collections.abc import Callable

sys.dont_write_bytecode = True
ROOT = os.path.dirname(os.path.dirname(os.path.realpath(__file__)))
sys.path.insert(0, os.path.join(ROOT, "python"))

import candesk  # noqa: E402

os.environ.setdefault("CANDESK", os.path.join(ROOT, "candesk"))

CAR, DRIVE = (os.path.join(ROOT, "examples", it) for it in ("car.dbc", "drive.log"))
LINES = 1_000_000
# how many lines there are for each that canmatrix decodes, since it takes so much longer
CANMATRIX_DIVISOR = 100


def measure(what: str, lines: int, call: Callable[[], object]) -> None:
    began = time.perf_counter()
    call()
    print(f"{what:45}{lines / (time.perf_counter() - began):12,.0f} lines a second", flush=True)


def table(log: str, *words: str) -> None:
    words = (os.path.join(ROOT, "tools", "candesk-table"), "--database", CAR, *words, log)
    subprocess.run(words, stdout=subprocess.DEVNULL, check=True)


def by_canmatrix(lines: list[bytes]) -> None:
    import canmatrix.formats

    logging.disable(logging.CRITICAL)
    (matrix,) = canmatrix.formats.loadp(CAR).values()
    for line in lines:
        identifier, _, data = line.split()[2].partition(b"#")
        frame = matrix.frame_by_id(canmatrix.ArbitrationId(int(identifier, 16), extended=len(identifier) > 3))
        for signal in frame.decode(bytes.fromhex(data.decode())).values():
            str(signal.phys_value)


def main(words: list[str]) -> int:
    count = int(words[0]) if words else LINES
    with open(DRIVE, "rb") as file:
        lines = list(itertools.islice(itertools.cycle(file.read().splitlines(keepends=True)), count))
    with tempfile.NamedTemporaryFile(suffix=".log") as log, candesk.load(CAR) as db:
        log.writelines(lines)
        log.flush()
        measure("candesk-table --long", count, lambda: table(log.name, "--long"))
        measure("candesk-table --long --only 'Eng*'", count, lambda: table(log.name, "--long", "--only", "Eng*"))
        measure("candesk-table --message EngineSpeed", count, lambda: table(log.name, "--message", "EngineSpeed"))
        measure("the package: db.decode", count, lambda: sum(1 for _ in db.decode(log.name)))
        if importlib.util.find_spec("pandas"):
            measure("the package: db.frame, one message", count, lambda: db.frame(log.name, message="EngineSpeed"))
    if importlib.util.find_spec("canmatrix"):
        measure("canmatrix: Frame.decode", count // CANMATRIX_DIVISOR, lambda: by_canmatrix(lines[: count // CANMATRIX_DIVISOR]))
    return 0


if __name__ == "__main__":
    sys.exit(main(sys.argv[1:]))
