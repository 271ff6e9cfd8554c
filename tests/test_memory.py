#!/usr/bin/env python3
"""The most memory that the program takes for texts of many kinds.

Each row is a text. `check`, `print`, `dump`, also with `--json` and `--at`, `decode` of an empty log, with `--json` and `--csv`
too, and `session` without a command are run on it, and the most memory of each run, less that of a run on the smallest database,
is reported by the bytes of the text. A row fails if a command takes over 30 times the text, or over 60 times if statements are as
short as they can be. A session keeps the diagnostics and the layout diagrams, so its memory is reported and has no bound here; nor
has that of the diagrams and objects in `UNBOUND`.
"""

from __future__ import annotations

import os
import sys
from collections.abc import Callable
from typing import ClassVar, Final

sys.dont_write_bytecode = True
sys.path.insert(0, os.path.dirname(os.path.realpath(__file__)))

from test_support import DONE, HAS_DIAGNOSTICS, ROOT, ProgramCase, cases, compile_c, main, put, run  # noqa: E402

COMMANDS = ["check", "print", "dump", "dump --json", "dump --at", "decode", "decode --json", "decode --csv", "session"]
# how many times its bytes a text may take, and one whose statements have four to ten bytes each
BOUND = 30
BOUND_OF_SHORT = 60
HEAD = 'VERSION ""\nNS_ :\nBS_:\nBU_: E\n'
# a message with one signal of one bit
BIT = HEAD + 'BO_ 1 M: 8 E\n SG_ S : 0|1@1+ (1,0) [0|1] "" E\n'


def message(signals: list[tuple[str, str]], number: int = 1) -> str:
    """A message of these signals, each with what follows its name, as `: 0|8@1+`."""
    lines = [f"BO_ {number} M{number}: 8 E"] + [f' SG_ {name} {rest} (1,0) [0|255] "" E' for name, rest in signals]
    return "\n".join(lines) + "\n"


def messages() -> str:
    """Messages of four signals, with nodes, units and bounds as real databases have them."""
    text = 'VERSION ""\nNS_ :\nBS_:\nBU_: A B C\n'
    for number in range(8_000):
        text += f"BO_ {number} Message{number}: 8 A\n"
        for index in range(4):
            text += f' SG_ Signal{index} : {16 * index}|16@1+ (0.1,0) [0|6553.5] "km/h" B,C\n'
    return text


def same_bits(number: int) -> str:
    """A message of as many signals as one may have, all on one byte."""
    return message([(f"S{i}", ": 0|8@1+") for i in range(999)], number)


def chain(count: int, ranges: int) -> str:
    """Signals on one byte, each under the one before by as many ranges."""
    text = HEAD + message([("S0", "M : 0|8@1+")] + [(f"S{i}", "m0M : 0|8@1+") for i in range(1, count)])
    values = ", ".join(f"{3 * i}-{3 * i + 1}" for i in range(ranges))
    return text + "".join(f"SG_MUL_VAL_ 1 S{i} S{i - 1} {values};\n" for i in range(1, count))


def receivers(letters: int, count: int) -> str:
    """A signal with a long name and many receivers."""
    names = ",".join(f"R{i}" for i in range(count))
    return HEAD + f'BO_ 1 M: 8 E\n SG_ {"N" * letters} : 0|8@1+ (1,0) [0|255] "" {names}\n'


def values_of_messages(count: int) -> str:
    """Messages with one identifier, whose signal has one entry with many values."""
    text = HEAD + "".join(f'BO_ 1 M{i}: 8 E\n SG_ A : 0|32@1+ (1,0) [0|0] "" E\n' for i in range(count))
    return text + "VAL_ 1 A " + " ".join(f'{i} "v"' for i in range(4 * count)) + " ;\n"


def ranges_of_messages(count: int) -> str:
    """Messages with one identifier, whose signal has one entry with many ranges."""
    signals = ' SG_ S M : 0|32@1+ (1,0) [0|0] "" E\n SG_ A m0 : 32|8@1+ (1,0) [0|0] "" E\n'
    text = HEAD + "".join(f"BO_ 1 M{i}: 8 E\n{signals}" for i in range(count))
    return text + "SG_MUL_VAL_ 1 A S " + ", ".join(f"{2 * i}-{2 * i}" for i in range(4 * count)) + ";\n"


# ---- rows: a name, and what makes the text

Row = tuple[str, Callable[[], str]]

LONG_CHAIN = "a chain of 999 switches, 64 ranges each"
LONG_NAME = "a name of 20,000 letters and as many receivers"

ROWS: Final[list[Row]] = [
    ("8,000 messages of four signals", messages),
    ("20,000 comments", lambda: BIT + "".join(f'CM_ BO_ 1 "Comment {i}, which says what it says.";\n' for i in range(20_000))),
    ("20,000 kept statements", lambda: HEAD + "".join(f'BA_DEF_REL_ BU_SG_REL_ "T{i}" INT 0 65535;\n' for i in range(20_000))),
    ("20,000 attributes", lambda: BIT + 'BA_DEF_ SG_ "A" INT 0 9;\nBA_DEF_DEF_ "A" 1;\n' + 'BA_ "A" SG_ 1 S 3;\n' * 20_000),
    ("20,000 named values of one signal", lambda: BIT + "VAL_ 1 S " + " ".join(f'{i} "v{i}"' for i in range(20_000)) + " ;\n"),
    ("20,000 ranges of one row", lambda: chain(2, 20_000)),
    (LONG_NAME, lambda: receivers(20_000, 20_000)),
    (LONG_CHAIN, lambda: chain(999, 64)),
    ("4 messages of 999 signals on the same bits", lambda: HEAD + "".join(same_bits(number) for number in range(4))),
    ("2,000 messages of one number, 8,000 named values", lambda: values_of_messages(2_000)),
    ("2,000 messages of one number, 8,000 ranges", lambda: ranges_of_messages(2_000)),
    ("4,000 messages of 1,785 bytes", lambda: HEAD + "".join(f"BO_ {i} M{i}: 1785 E\n" for i in range(4_000))),
]

# as short as statements can be, and just over a power of two of them, where lists have the most spare room
SHORT: Final[list[Row]] = [
    ("messages of one signal, short", lambda: HEAD + "".join(f'BO_ {i} A:8 E\nSG_ A:0|1@1+(1,0)[0|0]""\n' for i in range(32_769))),
    ("named values, short", lambda: BIT + "VAL_ 1 S " + '1""' * 131_073 + ";\n"),
    ("comments, short", lambda: BIT + 'CM_"";' * 65_537 + "\n"),
    ("attributes, short", lambda: BIT + 'BA_DEF_ "A" INT;\nBA_DEF_DEF_ "A" 1;\n' + 'BA_"A"1;' * 65_537 + "\n"),
    ("kept statements, short", lambda: HEAD + "EV_;" * 65_537 + "\n"),
    ("tokens of a kept statement, short", lambda: HEAD + "EV_" + " 1" * 131_073 + ";\n"),
    ("nodes, short", lambda: "BU_:" + " A" * 131_073 + "\n"),
]

# A layout diagram is made whole, so that whole ones are written if memory runs out, and shows each signal with all multiplexors
# above it. So is an object. All lines of locations are made before the first is written, and that of a receiver has the names of
# its signal and its message.
UNBOUND = {(LONG_CHAIN, "dump"), (LONG_CHAIN, "dump --json"), (LONG_NAME, "dump --at")}


# ---- measuring


class MemoryCase(ProgramCase):
    """Measures runs of the program."""

    runner: ClassVar[str]
    least: ClassVar[dict[str, int]]

    @classmethod
    def setUpClass(cls) -> None:
        super().setUpClass()
        cls.runner = os.path.join(cls.folder, "peak_memory")
        compile_c(["-O1", "-o", cls.runner, f"{ROOT}/tests/peak_memory.c"])
        path = put(cls.folder, "least.dbc", HEAD.encode())
        cls.least = {command: cls.most(command, path) or 0 for command in COMMANDS}
        rejected = [command for command, most in cls.least.items() if not most]
        if rejected:
            raise AssertionError(f"{rejected} reject the smallest database")

    @classmethod
    def most(cls, command: str, path: str) -> int | None:
        """The most memory of a run, in bytes, or None if it is rejected."""
        status, kilobytes = run([cls.runner, cls.program, *command.split(), path])[1].split()
        return 1024 * int(kilobytes) if int(status) in (DONE, HAS_DIAGNOSTICS) else None

    def check_memory(self, name: str, text: str, bound: int) -> None:
        """Reports what a text takes, and checks each command that has a bound."""
        path = put(self.folder, "a.dbc", text.encode())
        reported = []
        for command in COMMANDS:
            most = self.most(command, path)
            if most is None:
                self.check(f"{name}, {command}", "it is rejected")
                continue
            times = max(most - self.least[command], 0) / len(text)
            reported.append(f"{command} {times:.1f}")
            if command != "session" and (name, command) not in UNBOUND:
                self.check_true(f"{name}, {command}", times <= bound, f"{times:.1f} times the text, over {bound}")
        print(f"{name}, {len(text) / 1_000:.0f} KB, times: {', '.join(reported)}", flush=True)


@cases(ROWS)
class Memory(MemoryCase):
    def row(self, name: str, make: Callable[[], str]) -> None:
        self.check_memory(name, make(), BOUND)


@cases(SHORT)
class ShortStatements(MemoryCase):
    def row(self, name: str, make: Callable[[], str]) -> None:
        self.check_memory(name, make(), BOUND_OF_SHORT)


if __name__ == "__main__":
    main()
