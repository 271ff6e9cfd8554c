#!/usr/bin/env python3
"""The differences that candesk-diff finds."""

from __future__ import annotations

import os
import sys

sys.dont_write_bytecode = True
sys.path.insert(0, os.path.dirname(os.path.realpath(__file__)))

from test_support import main  # noqa: E402
from tool_runs import ToolCase, example, read, tool, written  # noqa: E402


class Differences(ToolCase):
    def test_differences(self) -> None:
        old = read(example("car.dbc"))
        new = old.replace(b"BO_ 769 Lights: 1", b"BO_ 769 Lamps: 2").replace(b"SG_ Main", b"SG_ High")
        new = new.replace(b"(0.25,0)", b"(0.5,0)")
        new = new.replace(b"BO_ 513 Brake", b"BO_ 515 Brake").replace(b" SG_ Boot : 4|2@1+ (1,0) [0|3] \"\" Dash\n", b"")
        new = new.replace(b"SG_ Belt m1 :", b"SG_ Belt m2 :").replace(b'VAL_ 768 Lock 0 "open"', b'VAL_ 768 Lock 2 "half" 0 "shut"')
        new = new.replace(b"BU_: Engine ", b"BU_: ").replace(b"BO_ 514 Steering", b"BO_ 1000 Extra: 8 Body\n\nBO_ 514 Steering")
        paths = written(self.folder, "old.dbc", old), written(self.folder, "new.dbc", new)
        got = tool("candesk-diff", *paths)
        wanted = (
            "~ signal EngineSpeed.Speed: factor 0.25 -> 0.5",
            "~ message Brake 515: number 513 -> 515",
            "+ message Extra 1000",
            "- signal Doors.Boot",
            '~ signal Doors.Lock: value 0 "open" -> "shut", value 2 "half" added',
            '~ message Lamps 769: name "Lights" -> "Lamps", length 1 -> 2',
            '~ signal Seat.Belt: multiplexer indicator "m1" -> "m2", multiplexing Who 1-1 -> Who 2-2',
            '- node "Engine"',
        )
        lines = got.out.decode().splitlines()
        missing = set(wanted) - set(lines)
        self.check_true("differences", got.status == 1 and not got.errors and not missing, (missing, lines))
        renamed = [it for it in lines if it.startswith('~ signal Lamps.High: name "Main" -> "High"')]
        self.check_true("differences: a signal of another name", len(renamed) == 1, lines)

    def test_none(self) -> None:
        same = tool("candesk-diff", "--log", example("car.log"), example("car.dbc"), example("car.print"))
        self.check_true("differences: none", same == (0, b"", b""), same)

    def test_decoded_lines(self) -> None:
        """Lines of a log that the two databases decode differently."""
        scaled = written(self.folder, "scaled.dbc", read(example("car.dbc")).replace(b"(0.05,-0.025)", b"(0.05,0)"))
        got = tool("candesk-diff", "--log", example("car.log"), example("car.dbc"), scaled)
        log = read(example("car.log")).splitlines()
        wanted_lines = [b"~ signal Charge.Current: offset -0.025 -> 0"]
        for at, before, after in ((16, b"-0.075", b"-0.05"), (17, b"-0.025", b"0")):
            energy = b"123.456789" if at == 16 else b"0"
            wanted_lines += [b"line %d" % at]
            for mark, it in ((b"< ", before), (b"> ", after)):
                wanted_lines.append(mark + log[at - 1] + b" :: Charge(Energy: %s kWh, Current: %s A)" % (energy, it))
        self.check_true("differences: lines", got.status == 1 and got.out.splitlines() == wanted_lines, (got, wanted_lines))

    def test_faults(self) -> None:
        bad = written(self.folder, "bad.dbc", b"BO_ x\n")
        paths = example("car.dbc"), example("car.print")
        for what, words, output in (
            ("a rejected database", (paths[0], bad), b"bad.dbc: line 1: 2 Statement"),
            ("no file", (paths[0], "no.dbc"), b"no such file"),
            ("no log", ("--log", "no.log", *paths), b"no.log"), ("words", (paths[0],), b"NEW"),
        ):
            got = tool("candesk-diff", *words)
            self.check_true(f"differences: {what}", got.status == 2 and got.errors.count(b"\n") == 1 and output in got.errors, got)


if __name__ == "__main__":
    main()
