#!/usr/bin/env python3
"""The tables that candesk-table makes."""

from __future__ import annotations

import contextlib
import os
import random
import re
import subprocess
import sys
import time
from collections.abc import Iterable

sys.dont_write_bytecode = True
sys.path.insert(0, os.path.dirname(os.path.realpath(__file__)))

from test_support import cases, main  # noqa: E402
from tool_runs import (  # noqa: E402
    LONGEST_LINE, PATIENCE, TOOLS, ToolCase, example, has_package, is_fault, outputs_in, ran, read, rows_of, tool, written,
)
from tool_texts import HOSTILE, HOSTILE_LOG, LATIN  # noqa: E402


# what random units and names are made of
PARTS: tuple[bytes, ...] = (b", A: 1", b": ", b" :: ", b"N0(A: 1)", b"V1(A: n41)", b"(", b"?float", b"n41", b"5 km", rb"\"")
PARTS += (b"\n", b"\r", b"\xff", b"a", b"-1.5", b"//", b";", b" SG_ A : 0|8@1+", b"\nBO_ 9 X: 8 E\n", b"VAL_ 1 A 1 ")
PARTS += (b"[p6 s0]", b'\\\\"', b",", b"\n\n")


def texts_by(rows: list[dict[str, str]]) -> list[str]:
    """The signals of each frame as a decoded line has them, by the rows of a long table."""
    signals_by_frame: dict[tuple[str, str], list[str]] = {}
    for it in rows:
        shown = re.sub("[\r\n]", " ", it["name"] or it["value"] + (" " + it["unit"] if it["unit"] else ""))
        signals_by_frame.setdefault((it["time"], it["message"]), []).append("%s: %s" % (it["signal"], shown))
    return ["%s (%s)" % (time + " " + message, ", ".join(signals)) for (time, message), signals in signals_by_frame.items()]


def text_lines(decoded: Iterable[tuple[str, str]], messages: list[str]) -> list[str]:
    """The same of decoded lines, which end in what one of these messages shows; the message is after the last ` :: ` that the
    log itself hasn't."""
    found_lines = []
    for body, line in decoded:
        shown = line[len(body) + 4 :]
        found = re.match(r"(\w+)(\[[^\]]*\])?\((.+)\)$", shown, re.DOTALL)
        if len(line) > len(body) and found and found[1] in messages:
            found_lines.append("%s (%s)" % (body[1 : body.index(")")] + " " + found[1], found[3]))
    return found_lines


def random_text(chance: random.Random) -> bytes:
    """A text made of what a decoded line, a database or a table has of its own; it isn't empty, and ends in no backslash."""
    return b"".join(chance.choice(PARTS) for _ in range(chance.randrange(1, 5))) + chance.choice((b".", b"1", b")", b" "))


def random_database(chance: random.Random) -> tuple[bytes, bytes]:
    """A database and a log of its frames, in which units, names, and what is after a frame read like what they aren't."""
    messages, rows, lines = [], [], []
    for number in range(1, 5):
        messages.append(b"BO_ %d %s%d: 4 E\n" % (number, chance.choice((b"N", b"V", b"M")), number - 1))
        for name in chance.sample((b"A", b"B", b"n41", b"N0", b"V1"), chance.randrange(5)):
            bits = (chance.randrange(20), chance.randrange(1, 9), chance.choice((b"0+", b"0-", b"1+", b"1-")))
            messages.append(b' SG_ %s : %d|%d@%s (0.5,-7) [0|0] "%s" E\n' % (name, *bits, random_text(chance)))
            entries = b"".join(b'%d "%s" ' % (it, random_text(chance)) for it in range(-2, chance.randrange(5)))
            rows.append(b"VAL_ %d %s %s;\n" % (number, name, entries))
    for at in range(60):
        data = bytes(chance.choice((0, 1, 2, 3, 255)) for _ in range(chance.choice((2, 4))))
        trailing = chance.choice((b"", b" ", b" :: ")) + random_text(chance) if chance.random() < 0.4 else b""
        before = random_text(chance) if chance.random() < 0.2 else b""
        lines.append(b"%s(%d.0) can0 %03d#%s %s" % (before, at, chance.randrange(1, 6), data.hex().encode(), trailing))
    # (a line of the log has none of the bytes at which Python cuts lines)
    log = b"".join(it.translate(None, b"\r\n\f\v\x1c\x1d\x1e\x85") + b"\n" for it in lines)
    return b"BU_: E\n" + b"".join(messages + rows), log


class TableCase(ToolCase):
    def check_exact(self, what: str, database: str, log: str, *options: str) -> None:
        """Checks that a long table has of each frame what its decoded line has, and the same of lines that were decoded before."""
        decoded = ran([self.program, "decode", *options, database], read(log))[1]
        table = tool("candesk-table", "--database", database, *options, "--long", log)
        bodies = read(log).decode("latin-1").splitlines()
        names = re.findall(r"^BO_ \d+ (\w+)", read(database).decode("latin-1"), re.MULTILINE)
        # (the program leaves floats out; the example's one is 50)
        lines = decoded.decode("latin-1").replace("Latitude: ?float", "Latitude: 50 deg").split("\n")
        wanted = text_lines(zip(bodies, lines), names)
        got = texts_by(rows_of(table[1]))
        self.check_true(what + ": as decoded", table[0] == 0 and wanted and got == wanted, (table[2], got, wanted))
        again = tool("candesk-table", "--database", database, *options, "--long", given=decoded)
        self.check_true(what + ": of decoded lines", again == table, again)


@cases(
    [(name, *options) for name in ("car", "lorry") for options in ((), ("--short",))],
    lambda name, *options: " ".join((name, *options)),
)
class Examples(TableCase):
    def row(self, name: str, *options: str) -> None:
        words = " ".join((name, *options))
        self.check_exact("table of " + words, example(name + ".dbc"), example(name + ".log"), *options)


@cases(range(12), lambda seed: f"seed {seed}")
class RandomTexts(TableCase):
    def row(self, seed: int) -> None:
        database, log = random_database(random.Random(seed))
        paths = (written(self.folder, "random.dbc", database), written(self.folder, "random.log", log))
        self.check_exact("table of random texts %d" % seed, *paths, *(("--short",) if seed % 2 else ()))



class Tables(TableCase):
    def test_hostile_names(self) -> None:
        """Units and names that read like what a decoded line has of its own."""
        database = written(self.folder, "hostile.dbc", HOSTILE.replace(rb"\377\376", b"\xff\xfe"))
        log = written(self.folder, "hostile.log", HOSTILE_LOG)
        self.check_exact("table of hostile names", database, log, "--short")
        rows = rows_of(tool("candesk-table", "--database", database, "--long", log)[1])
        first = [tuple(rows[0][it] for it in ("time", "interface", "id", "message", "signal", "value", "unit", "name"))]
        self.check_true("hostile: a name", first == [("1.0", "can0", "1", "N0", "A", "1", "", "5 km")], first)
        units = {it["signal"]: it["unit"] for it in rows if it["message"] == "N0"}
        is_right = units["C"] == '\\" SG_ D : 0|8@1+\nBO_ 9 F: 1 E' and units["n"] == "km) :: V1(A: n41)"
        self.check_true("hostile: units", is_right, units)
        values = [it["value"] for it in rows if it["signal"] == "B"]
        self.check_true("hostile: exact numbers of named values", values == ["-2", "-2.5", "-1.5", "-0.5"], values)
        names = [it["name"].encode("latin-1") for it in rows if it["message"] == "V1"]
        self.check_true("hostile: names byte for byte", names == [b"A: 1, A: 1", b"V1(A: n41)", b"\xff\xfe", b""], names)

    def test_wide_tables(self) -> None:
        words = ("--database", example("car.dbc"))
        wide = tool("candesk-table", *words, "--message", "Battery", "--units", example("car.log"))
        wanted = (
            b"time,interface,identifier,Pack,Kind,Voltage [V],Heat [degC],Serial\n1700000000.030000,can0,400,2,4,3.816,,\n"
            b"1700000000.032000,can0,400,3,2,,-5,\n1700000000.034000,can0,400,255,,,,197121\n1700000000.036000,can0,400,9,,,,\n"
        )
        self.check_true("a message's table", wide == (0, wanted, b""), wide)
        lock = tool("candesk-table", *words, "--message", "0x300", "--names", example("car.log"))
        self.check_true("names for numbers", lock[1].endswith(b"can0,300,open,3,0,locked\n"), lock)
        target = os.path.join(self.folder, "tables")
        done = tool("candesk-table", *words, "--folder", target, example("car.log"))
        each = outputs_in(target)
        alone = {it: tool("candesk-table", *words, "--message", it.removesuffix(".csv"), example("car.log"))[1] for it in each}
        self.check_true("a table for each message", done[0] == 0 and len(each) == 14 and each == alone, (done, sorted(each)))
        plain = tool("candesk-table", "--plain", "--folder", target + "2", given=read(example("car.decode")))
        self.check_true("a table for each message of plain lines", plain[0] == 0 and len(os.listdir(target + "2")) == 14, plain)
        messages = b'BO_ 1 A: 1 E\n SG_ S : 0|8@1+ (1,0) [0|0] "" E\nBO_ 2 A: 1 E\n SG_ S : 0|8@1+ (2,0) [0|0] "" E\n'
        shared = written(self.folder, "shared.dbc", messages)
        log = b"(1.0) can0 001#05\n(2.0) can0 002#05\n"
        got = tool("candesk-table", "--database", shared, "--message", "A", given=log)
        self.check_true("two messages of a name", is_fault(got, 1, b"give one of the IDs 1, 2"), got)
        second = tool("candesk-table", "--database", shared, "--message", "2", given=log)
        self.check_true("one of them by number", second[1] == b"time,interface,identifier,S\n2.0,can0,002,10\n", second)
        tool("candesk-table", "--database", shared, "--folder", target + "3", given=log)
        self.check_true("files of both", sorted(os.listdir(target + "3")) == ["A.1.csv", "A.2.csv"], os.listdir(target + "3"))

    def test_choices(self) -> None:
        """Signals by globs, and other formats."""
        car = ("--database", example("car.dbc"))
        log = example("car.log")
        every = tool("candesk-table", *car, "--long", log).out.splitlines(keepends=True)
        for globs, is_wanted in (
            (["Doors"], lambda row: b",Doors," in row),
            (["D*.L*", "Wheel*.Rear"], lambda row: b",Doors,L" in row or b",Rear," in row),
            (["*.?e*t"], lambda row: any(it in row for it in (b",Left,", b",Heat,", b",Belt,", b",Weight,"))),
        ):
            words = [word for it in globs for word in ("--only", it)]
            got = tool("candesk-table", *car, "--long", *words, log)
            self.check_true(f"table: only {globs}", got == (0, every[0] + b"".join(filter(is_wanted, every[1:])), b""), got)
        got = tool("candesk-table", *car, "--message", "Doors", "--only", "*.L*", log)
        self.check_true("table: only some columns", got.out.splitlines()[0] == b"time,interface,identifier,Left,Lock", got)
        got = tool("candesk-table", *car, "--long", "--only", "None*", log)
        self.check_true("table: none of these", is_fault(got, 1, b"no signal like None*"), got)
        got = tool("candesk-table", *car, "--long", "--format", "jsonl", "--only", "Doors.Lock", "--only", "Trailer.Tilt", log)
        wanted = b'{"time":1700000000.020000,"interface":"can0","id":768,"message":"Doors","signal":"Lock","value":1,"unit":null,'
        wanted += b'"name":"locked"}\n{"time":1700000000.044000,"interface":"can0","id":1536,"message":"Trailer","signal":"Tilt",'
        wanted += b'"value":"?outside","unit":null,"name":null}\n'
        self.check_true("table: lines of JSON", got == (0, wanted, b""), got)
        got = tool("candesk-table", *car, "--message", "Battery", "--format", "jsonl", "--only", "*.[PVH]*", log)
        wanted = b'{"time":1700000000.030000,"interface":"can0","identifier":"400","Pack":2,"Voltage":3.816,"Heat":null}'
        self.check_true("table: lines of JSON of a message", got.out.splitlines()[0] == wanted, got)

    def test_floats_and_latin_1(self) -> None:
        """Floats, and texts that aren't UTF-8."""
        every = tool("candesk-table", "--database", example("car.dbc"), "--long", example("car.log"))
        head = every.out.splitlines(keepends=True)[0]
        database = written(self.folder, "latin.dbc", LATIN)
        frames = b"(1.0) can0 00000001#01000048C2000000\n(2.0) can0 00000001#020000C07F000000\n"
        got = tool("candesk-table", "--database", database, "--long", given=frames)
        rows = "1.0,can0,1,M,T,1,,kühl\n1.0,can0,1,M,F,-24,\"µV, b\",\n2.0,can0,1,M,T,2,°C,\n2.0,can0,1,M,F,nan,\"µV, b\",\n"
        self.check_true("table: floats and texts of Latin-1", got == (0, head + rows.encode(), b""), got)
        got = tool("candesk-table", "--database", database, "--message", "0x1", "--units", given=frames)
        rows = "time,interface,identifier,T [°C],\"F [µV, b]\"\n1.0,can0,00000001,1,-24\n2.0,can0,00000001,2,nan\n"
        self.check_true("table: an identifier of 29 bits without its flag", got == (0, rows.encode(), b""), got)

    def test_no_frames_and_no_pyarrow(self) -> None:
        car, log = ("--database", example("car.dbc")), example("car.log")
        got = tool("candesk-table", *car, "--long", given=b"date Mon\nbegin\n")
        self.check_true("table: no frames", is_fault(got, 0, b"standard input: 0 of 2 lines are frames: is this ASC, or"), got)
        if has_package("pyarrow"):
            with self.subTest("table: no pyarrow"):
                self.skipTest("pyarrow is at hand")
        else:
            got = tool("candesk-table", *car, "--long", "--format", "parquet", log)
            self.check_true("table: no pyarrow", is_fault(got, 3, b"needs the Python package pyarrow (pip install pyarrow)"), got)

    def test_logged_ways(self) -> None:
        """Frames whose data is followed by an R or T, or by a blank and anything, have their rows with --plain too."""
        for trailing in (b" R", b" T", b"\tR", b" R :: note", b" "):
            log = b"".join(it + (trailing if b"#" in it else b"") + b"\n" for it in read(example("car.log")).splitlines())
            decoded = ran([self.program, "decode", example("car.dbc")], log)[1]
            got = tool("candesk-table", "--plain", "--long", given=decoded)
            wanted = tool("candesk-table", "--plain", "--long", given=read(example("car.decode")))
            count = read(example("car.decode")).count(b"(1")
            self.check_true("table: plain lines with %r" % trailing, got == wanted and got[1].count(b"\n") > count, got)
        got = tool("candesk-table", "--plain", "--long", given=b"(1.0) can0 1#00 T :: A(B: 1) :: A(B: 2)\n")
        self.check_true("table: plain lines of decoded lines", is_fault(got, 1, b"line 1"), got)

    def test_long_lines(self) -> None:
        """A line that is too long is reported with the log and the line; the rows before it are written."""
        words = ("--database", example("car.dbc"), "--long")
        good = read(example("car.log"))
        for what, count, long_line in (("of NUL bytes", 1, b"\0" * 6000), ("late in a log", 700, b"x" * (LONGEST_LINE + 1))):
            log = written(self.folder, "long.log", good * count + long_line + b"\n" + good)
            line = (good * count).count(b"\n") + 1
            got = tool("candesk-table", *words, log)
            rows = tool("candesk-table", *words, given=good * count)[1]
            is_reported = is_fault(got, 3, b"candesk-table: %s: line %d: 40 LongLine\n" % (log.encode(), line))
            self.check_true("table: a long line " + what, is_reported and got[1] == rows, (got[0], got[2], len(got[1]), len(rows)))
            got = tool("candesk-table", *words, given=read(log))
            is_reported = is_fault(got, 3, b": standard input: line %d: 40 " % line)
            self.check_true("table: one on standard input " + what, is_reported, got[2])
        got = tool("candesk-table", *words, given=good + b"x" * LONGEST_LINE)
        self.check_true("table: the longest line", got[0] == 0, got[2])

    def test_live_table(self) -> None:
        """A row is there before the next line of the log is."""
        words = [os.path.join(TOOLS, "candesk-table"), "--database", example("wheel.dbc"), "--message", "Wheel"]
        with subprocess.Popen(words, stdin=subprocess.PIPE, stdout=subprocess.PIPE) as live:
            assert live.stdin and live.stdout
            rows = [live.stdout.readline()]
            for line in (b"(1.5) can0 123#0A01\n", b"(2.5) can0 123#0B01\n"):
                live.stdin.write(line)
                live.stdin.flush()
                rows.append(live.stdout.readline())
            live.stdin.close()
        wanted = [b"time,interface,identifier,Speed\n", b"1.5,can0,123,537\n", b"2.5,can0,123,539\n"]
        self.check_true("a live table", rows == wanted and live.returncode == 0, rows)

    def test_progress(self) -> None:
        """On a terminal it is shown how far a table is, and taken away at the end."""
        mine, its = os.openpty()
        words = [os.path.join(TOOLS, "candesk-table"), "--database", example("car.dbc"), "--long"]
        log = read(example("drive.log"))
        with open(os.path.join(self.folder, "table"), "wb") as table:
            with subprocess.Popen(words, stdin=subprocess.PIPE, stdout=table, stderr=its) as running:
                assert running.stdin
                running.stdin.write(log)
                running.stdin.flush()
                # (what is shown comes with what is read half a second later)
                time.sleep(2)
                running.stdin.write(log)
                running.stdin.close()
                status = running.wait(PATIENCE)
        os.close(its)
        shown = b""
        # (a terminal hands out what is written to it piece by piece, and fails once nothing more can come)
        with contextlib.suppress(OSError):
            while piece := os.read(mine, LONGEST_LINE):
                shown += piece
        os.close(mine)
        is_shown = re.fullmatch(rb"\rcandesk-table: 0 MB\r +\r", shown)
        self.check_true("table: progress on a terminal", status == 0 and is_shown, shown)

    def test_table_faults(self) -> None:
        bad = written(self.folder, "bad.dbc", b"BO_ x\n")
        got = tool("candesk-table", "--database", bad, "--long", given=b"")
        self.check_true("table: a refused database", is_fault(got, 1, b"bad.dbc: line 1: 2 Statement"), got)
        got = tool("candesk-table", "--database", example("no.dbc"), "--long", given=b"")
        self.check_true("table: no database", is_fault(got, 3, b"no such file"), got)
        got = tool("candesk-table", "--database", example("car.dbc"), "--long", example("no.log"))
        self.check_true("table: no log", is_fault(got, 3, b"no.log"), got)
        got = tool("candesk-table", "--long", given=b"")
        self.check_true("table: words", is_fault(got, 2, b"--database FILE, or --plain"), got)
        got = tool("candesk-table", "--database", example("car.dbc"), "--long", given=b"(1.0) can0 301#0E\n" + b"x" * 5000 + b"\n")
        self.check_true("table: a long line", is_fault(got, 3, b"40 LongLine") and got[1].count(b"\n") == 4, got)
        got = tool("candesk-table", "--plain", "--long", given=b"(1.0) can0 1#00 :: A(B: x, y)\n")
        self.check_true("table: a comma in plain lines", is_fault(got, 1, b"line 1"), got)
        none = os.path.join(self.folder, "none")
        got = tool("candesk-table", "--database", example("car.dbc"), "--long", given=b"", CANDESK=none)
        self.check_true("table: no program", is_fault(got, 3, b"there is no candesk"), got)
        words = [os.path.join(TOOLS, "candesk-table"), "--database", example("car.dbc"), "--long"]
        log = written(self.folder, "long.log", read(example("car.log")) * 2000)
        for name in ("candesk-table", "candesk-format", "candesk-shell"):
            given = {
                "candesk-table": ("--database", example("car.dbc"), "--long"), "candesk-format": ("--check", example("car.dbc")),
            }
            line = [os.path.join(TOOLS, name), *given.get(name, (example("car.dbc"),))]
            got = ran(["bash", "-c", '"$@" > /dev/full', "bash", *line], b"list\n")
            self.check_true(name + ": a full device", is_fault(got, 3, b"standard output: No space left"), got)
        done = ran(["bash", "-c", '"$@" | head -n 2; echo ${PIPESTATUS[0]}', "bash", *words, log])
        self.check_true("table: a closed pipe", done[2] == b"" and done[1].endswith(b"\n3\n"), done)


if __name__ == "__main__":
    main()
