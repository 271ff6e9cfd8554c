#!/usr/bin/env python3
"""What candesk-stats counts."""

from __future__ import annotations

import os
import re
import sys

sys.dont_write_bytecode = True
sys.path.insert(0, os.path.dirname(os.path.realpath(__file__)))

from test_support import main  # noqa: E402
from tool_runs import ToolCase, is_fault, tool, written  # noqa: E402


COUNTED = """\
count       min      mean       max     cycle  late  interface  identifier  message
    3  0.090000  0.110000  0.130000  0.100000     0  can0       123         Wheel
    1         -         -         -         -     -  can0       00000123    unknown id
    2  0.200000  0.200000  0.200000  0.100000     1  can1       123         Wheel
can0: load 0.2 to 0.3 % of 500,000 bits a second
can1: load 0.1 to 0.2 % of 500,000 bits a second
1 line without a frame
"""


TIMED = b'BU_: Ecu\nBO_ 291 Wheel: 2 Ecu\n SG_ S : 0|8@1+ (1,0) [0|0] "" Ecu\nBA_DEF_ BO_ "GenMsgCycleTime" INT 0 1000;\n'
TIMED += b'BA_DEF_DEF_ "GenMsgCycleTime" 100;\n'


class Statistics(ToolCase):
    def test_statistics(self) -> None:
        database = written(self.folder, "timed.dbc", TIMED)
        log = b"(1.00) can0 123#0A01\n(1.09) can0 123#0A01\n(1.22) can0 123#0A01\n(1.1) can1 123#0A01\n(1.3) can1 123#0A01\n"
        log += b"(1.2) can0 00000123#00\nengine off\n"
        got = tool("candesk-stats", "--bitrate", "500000", database, given=log)
        self.check_true("statistics", got == (0, COUNTED.encode(), b""), got)
        got = tool("candesk-stats", "--format", "csv", "--late", "1.2", database, written(self.folder, "a.log", log))
        row = b"3,0.090000,0.110000,0.130000,0.100000,1,can0,123,Wheel\n"
        self.check_true("statistics: CSV, and another bound", got.status == 0 and got.out.splitlines(keepends=True)[1] == row, got)
        # a standard frame of 8 bytes has 47 + 64 bits, and at most (34 + 64 - 1) / 4 stuff bits; an extended one 67 + 64, and 29
        full = b"".join(b"(%d.%03d) can0 123#%s\n" % (at // 1000, at % 1000, b"00" * 8) for at in range(1001))
        got = tool("candesk-stats", "--bitrate", "250000", database, given=full)
        self.check_true("statistics: load", b"can0: load 44.4 to 54.1 % of 250,000 bits a second\n" in got.out, got.out[-200:])
        got = tool("candesk-stats", "--bitrate", "250000", database, given=full.replace(b"123#", b"00000123#"))
        self.check_true("statistics: load of extended frames", b"load 52.5 to 64.1 %" in got.out, got.out[-200:])
        fd = full.replace(b"#", b"##1")
        loads = []
        for more in ((), ("--data-bitrate", "2000000")):
            got = tool("candesk-stats", "--bitrate", "250000", *more, database, given=fd)
            loads += [float(it) for it in re.findall(rb"load ([0-9.]+) to", got.out)]
        self.check_true("statistics: load of CAN FD", len(loads) == 2 and loads[1] < 20 < 45 < loads[0] < 60, loads)
        got = tool("candesk-stats", database, given=b"no frame\n")
        self.check_true("statistics: no frames", got.status == 0 and b"its one line isn't a frame" in got.errors, got)
        got = tool("candesk-stats", "--data-bitrate", "1", database)
        self.check_true("statistics: words", is_fault(got, 2, b"goes with --bitrate"))
        got = tool("candesk-stats", os.path.join(self.folder, "no"), given=b"")
        self.check_true("statistics: no database", is_fault(got, 3, b"no such file"), got)
        long_line = tool("candesk-stats", database, given=log + b"x" * 5000 + b"\n")
        self.check_true("statistics: a long line", is_fault(long_line, 3, b"standard input: line 8: 40 LongLine"), long_line)


if __name__ == "__main__":
    main()
