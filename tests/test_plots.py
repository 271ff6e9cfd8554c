#!/usr/bin/env python3
"""The plots that candesk-plot draws."""

from __future__ import annotations

import os
import sys

sys.dont_write_bytecode = True
sys.path.insert(0, os.path.dirname(os.path.realpath(__file__)))

from test_support import main  # noqa: E402
from tool_runs import ToolCase, example, has_package, is_fault, read, tool  # noqa: E402


class Plots(ToolCase):
    def test_pictures(self) -> None:
        if not has_package("matplotlib"):
            self.skipTest("matplotlib isn't at hand")
        table = tool("candesk-table", "--database", example("car.dbc"), "--long", example("drive.log"))[1]
        signals = ("EngineSpeed.Speed", "WheelSpeeds.Front", "Lights.Indicator")
        for name, begins in (("a.svg", b"<?xml"), ("a.png", b"\x89PNG")):
            path = os.path.join(self.folder, name)
            got = tool("candesk-plot", "--output", path, *signals, given=table)
            self.check_true("picture " + name, got == (0, b"", b"") and read(path).startswith(begins), got)
        first, path = read(os.path.join(self.folder, "a.svg")), os.path.join(self.folder, "b.svg")
        tool("candesk-plot", "--output", path, *signals, given=table)
        self.check_true("the same table gives the same picture", read(path) == first)
        os.unlink(path)
        got = tool("candesk-plot", "--output", path, "Position.Latitude", given=table)
        is_reported = is_fault(got, 1, b"no number of Position.Latitude")
        self.check_true("picture of no values", is_reported and not os.path.exists(path), got)
        got = tool("candesk-plot", "--output", path, "A.B", given=b"time,signal\n")
        self.check_true("picture of another table", is_fault(got, 1, b"no table"), got)
        self.check_true("picture of another kind", is_fault(tool("candesk-plot", "--output", "a.jpg", "A.B"), 2, b".png or .svg"))


if __name__ == "__main__":
    main()
