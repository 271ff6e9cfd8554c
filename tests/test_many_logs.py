#!/usr/bin/env python3
"""Many logs decoded at once, by GNU parallel and by Dask."""

from __future__ import annotations

import contextlib
import os
import shutil
import signal
import subprocess
import sys
import time

sys.dont_write_bytecode = True
sys.path.insert(0, os.path.dirname(os.path.realpath(__file__)))

from test_support import main  # noqa: E402
from tool_runs import (  # noqa: E402
    PATIENCE, TOOLS, ToolCase, example, executable, has_package, is_fault, outputs_in, ran, read, tool, written,
)


def logs_in(folder: str) -> str:
    """A folder of logs, of which one has no line feed at its end and one is empty."""
    logs = os.path.join(folder, "logs")
    os.mkdir(logs)
    written(logs, "a.log", read(example("car.log")) * 200)
    written(logs, "b.log", read(example("drive.log")).rstrip(b"\n"))
    written(logs, "c d'e.log", read(example("car.log")).replace(b"\n", b"\r\n"))
    written(logs, "empty.log", b"")
    written(logs, "notes.txt", b"none")
    return logs


def descendants(number: int) -> dict[int, bytes]:
    """The processes below one, with their words."""
    above, words = {}, {}
    for it in filter(str.isdecimal, os.listdir("/proc")):
        with contextlib.suppress(OSError):
            above[int(it)] = int(read("/proc/%s/stat" % it).rpartition(b")")[2].split()[1])
            words[int(it)] = read("/proc/%s/cmdline" % it)
    found = {number}
    while True:
        more = {it for it, parent in above.items() if parent in found} - found
        if not more:
            return {it: words[it] for it in found - {number}}
        found |= more


def listening(numbers: set[int]) -> set[str]:
    """The addresses on which processes listen, as /proc writes them."""
    sockets = {}
    for kind in ("tcp", "tcp6"):
        for line in read("/proc/net/" + kind).decode().splitlines()[1:]:
            words = line.split()
            if words[3] == "0A":
                sockets["socket:[%s]" % words[9]] = words[1].partition(":")[0]
    found = set()
    for number in numbers:
        with contextlib.suppress(OSError):
            found |= {sockets.get(os.readlink(it)) for it in (entry.path for entry in os.scandir("/proc/%d/fd" % number))}
    return {it for it in found if it}


def kill_worker(running: subprocess.Popen[bytes]) -> set[str]:
    """Kills a worker of Dask while it decodes a block, by its number. On which addresses all of them listened; none where there was
    no such worker."""
    end = time.monotonic() + 30
    while time.monotonic() < end and running.poll() is None:
        below = descendants(running.pid)
        for number, words in below.items():
            if b"spawn_main" in words and any(b"sleep" in it for it in descendants(number).values()):
                addresses = listening({running.pid, *below})
                os.kill(number, signal.SIGKILL)
                return addresses
        time.sleep(0.05)
    return set()


class ManyLogs(ToolCase):
    def decoded_of(self, logs: str) -> dict[str, bytes]:
        return {
            it.removesuffix(".log") + ".decoded": ran([self.program, "decode", example("car.dbc")], read(os.path.join(logs, it)))[1]
            for it in os.listdir(logs)
            if it.endswith(".log")
        }

    def check_many(self, name: str, logs: str, *options: str) -> None:
        """One output a log, byte for byte that of one run; one log in blocks; and a log that is refused leaves no output."""
        wanted = self.decoded_of(logs)
        out = os.path.join(self.folder, name)
        got = tool(name, *options, "--block", "70K", "--output", out, example("car.dbc"), logs)
        self.check_true(name + ": a folder", got[0] == 0 and outputs_in(out) == wanted, (got, sorted(outputs_in(out))))
        one = os.path.join(self.folder, name + "-one")
        bad = written(self.folder, "bad.log", read(example("car.log")) * 50 + b"x" * 5000 + b"\n" + read(example("car.log")))
        got = tool(name, *options, "--block", "7K", "--output", one + "-bad", example("car.dbc"), bad)
        self.check_true(name + ": a long line", is_fault(got, 3, b"bad.log: 40 LongLine") and not outputs_in(one + "-bad"), got)
        # (here the block with that line is done before the one in front of it)
        later = b'#!/bin/bash\n[ "$1" = print ] || { cat > %s/$$; exec < %s/$$; grep -q xxxxx %s/$$ || sleep 1; }\nexec "%s" "$@"\n'
        later %= (*[self.folder.encode()] * 3, self.program.encode())
        early = written(self.folder, "early.log", read(example("car.log")) * 8 + b"x" * 5000 + b"\n" + read(example("car.log")))
        got = tool(name, *options, "--block", "7K", "--output", one + "-bad", example("car.dbc"), early,
                   CANDESK=executable(self.folder, "later", later))
        self.check_true(name + ": a long line before others", is_fault(got, 3, b"early.log: 40 LongLine"), got)
        several = os.path.join(self.folder, name + "-several")
        os.mkdir(several)
        for it in (bad, os.path.join(logs, "b.log")):
            shutil.copy(it, several)
        got = tool(name, *options, example("car.dbc"), several)
        left = {it for it in os.listdir(several) if it != "b.decoded"}
        is_right = is_fault(got, 3, b"bad.log: 40 LongLine") and left == {"bad.log", "b.log"}
        self.check_true(name + ": one of several", is_right, (got, left))
        got = tool(name, example("no.dbc"), logs)
        self.check_true(name + ": no database", is_fault(got, 3, b"no.dbc"), got)
        got = tool(name, example("car.dbc"), os.path.join(self.folder, "none"))
        self.check_true(name + ": no log", is_fault(got, 3, b"no such file"), got)
        self.check_true(name + ": words", is_fault(tool(name, example("car.dbc")), 2, b"LOG"))

    def check_keeping_on(self, name: str, logs: str, *options: str) -> None:
        """With --keep-going each log except those that fail has its output, and each of these is named with its line."""
        several, good = os.path.join(self.folder, name + "-keep"), read(example("car.log"))
        shutil.copytree(logs, several)
        written(several, "bad.log", good * 3 + b"\0" * 5000 + b"\n" + good)
        written(several, "worse.log", b"x" * 4097 + b"\n" + b"y" * 5000)
        written(several, "bad.decoded", b"of before\n")
        out = os.path.join(self.folder, name + "-kept")
        words = (*options, "--block", "1K", "--keep-going", "--output")
        got = tool(name, *words, out, example("car.dbc"), several)
        faults = [b"%s: %s/%s.log: line %d: 40 LongLine" % (name.encode(), several.encode(), log, line) for log, line in
                ((b"bad", good.count(b"\n") * 3 + 1), (b"worse", 1))]
        lines = [it for it in got[2].splitlines() if b" blocks" not in it]
        is_right = got[0] == 3 and lines == faults and outputs_in(out) == self.decoded_of(logs)
        self.check_true(name + ": goes on after a long line", is_right, (got, sorted(outputs_in(out))))
        got = tool(name, *options, "--keep-going", example("car.dbc"), several)
        kept = {it: text for it, text in outputs_in(several).items() if it.endswith(".decoded")}
        wanted = {**self.decoded_of(logs), "bad.decoded": b"of before\n"}
        self.check_true(name + ": next to the logs", got[0] == 3 and kept == wanted, (got, sorted(kept)))
        os.unlink(os.path.join(several, "bad.log"))
        os.unlink(os.path.join(several, "worse.log"))
        os.symlink(os.path.join(self.folder, "none"), os.path.join(several, "link.log"))
        got = tool(name, *words, out, example("car.dbc"), several)
        lines = [it for it in got[2].splitlines() if b" blocks" not in it]
        is_right = got[0] == 3 and lines == [b"%s: %s/link.log: No such file or directory" % (name.encode(), several.encode())]
        self.check_true(name + ": goes on after a log that can't be read", is_right, got)
        os.unlink(os.path.join(several, "link.log"))
        got = tool(name, *words, out, example("car.dbc"), several)
        self.check_true(name + ": --keep-going with nothing that fails", got[0] == 0, got)
        got = tool(name, *words, out, example("no.dbc"), several)
        self.check_true(name + ": --keep-going without a database", is_fault(got, 3, b"no.dbc"), got)
        left = [it for it in (*outputs_in(out), *outputs_in(several)) if it.startswith(".")]
        self.check_true(name + ": --keep-going leaves nothing over", not left, left)


class Parallel(ManyLogs):
    def test_parallel(self) -> None:
        if not shutil.which("parallel"):
            self.skipTest("GNU parallel isn't at hand")
        logs = logs_in(self.folder)
        self.check_many("candesk-decode-many", logs, "--sshlogin", "2/:")
        self.check_keeping_on("candesk-decode-many", logs)
        wanted = self.decoded_of(logs)
        for name in ("a", "b", "c d'e", "empty"):
            out = self.new_folder()
            log = os.path.join(logs, name + ".log")
            got = tool("candesk-decode-many", "--block", "7K", "--output", out, example("car.dbc"), log)
            is_same = got[0] == 0 and outputs_in(out) == {name + ".decoded": wanted[name + ".decoded"]}
            self.check_true("candesk-decode-many: blocks of " + name, is_same, got)


class Dask(ManyLogs):
    def test_dask(self) -> None:
        if not has_package("distributed"):
            self.skipTest("the Python package distributed isn't at hand")
        logs = logs_in(self.folder)
        self.check_many("candesk-decode-dask", logs, "--workers", "2")
        self.check_keeping_on("candesk-decode-dask", logs, "--workers", "2")
        script = b'#!/bin/sh\nif [ "$1" = decode ]; then sleep 0.4; fi\nexec "%s" "$@"\n' % self.program.encode()
        slow = executable(self.folder, "slow", script)
        out = os.path.join(self.folder, "killed")
        words = [os.path.join(TOOLS, "candesk-decode-dask"), "--workers", "2", "--block", "20K"]
        words += ["--output", out, example("car.dbc"), logs]
        env = dict(os.environ, CANDESK=slow)
        with subprocess.Popen(words, stdout=subprocess.PIPE, stderr=subprocess.PIPE, env=env) as running:
            addresses = kill_worker(running)
            output = running.communicate(timeout=PATIENCE)[1]
        is_same = running.returncode == 0 and outputs_in(out) == self.decoded_of(logs)
        self.check_true("candesk-decode-dask: a worker is killed", addresses and is_same, (addresses, running.returncode, output))
        self.check_true("candesk-decode-dask: listens on 127.0.0.1 alone", addresses == {"0100007F"}, addresses)


if __name__ == "__main__":
    main()
