#!/usr/bin/env python3
"""How the tools end: on streams that are closed, with a reader that goes away, by an interrupt, and without memory.

Each such end is a line on standard error, or none, and a status; nothing is left over, and nothing of Python's own is shown.
"""

from __future__ import annotations

import os
import shutil
import signal
import subprocess
import sys
import time

sys.dont_write_bytecode = True
sys.path.insert(0, os.path.dirname(os.path.realpath(__file__)))

from test_support import cases, main  # noqa: E402
from tool_runs import (  # noqa: E402
    PATIENCE, Ran, ToolCase, by_shell, example, executable, has_package, is_fault, outputs_in, path_of, ran, read, tool, written,
)

TOOLS = (
    "candesk-table", "candesk-stats", "candesk-diff", "candesk-format", "candesk-shell", "candesk-plot", "candesk-decode-many",
    "candesk-decode-dask",
)
INTERRUPTED = 130
BAD_OUTPUT, BAD_INPUT = b": standard output: Bad file descriptor\n", b": standard input: Bad file descriptor\n"
# a program that stays, one that has no memory, and one that has none once it decodes
SLOW = b'#!/bin/sh\nexec sleep 3\n'
EMPTY = b'#!/bin/sh\necho "candesk: 90 Memory" >&2\nexit 4\n'
EMPTY_LATER = b'#!/bin/sh\ncase $1 in print | dump | --version) exec "%s" "$@" ;; esac\necho "candesk: 90 Memory" >&2\nexit 4\n'
# how many seconds after its start a tool is interrupted
DELAYS = (0, 0.02, 0.04, 0.06, 0.08, 0.1, 0.15, 0.25, 0.5, 1, 2)
# a Python in which a signal comes as soon as a file or folder of this folder is made
INTERRUPTING = b"""import os, signal
def interrupting(make):
    def made(path, *rest, **named):
        is_new, done = not os.path.exists(path), make(path, *rest, **named)
        if is_new and os.path.dirname(os.path.abspath(path)) == os.environ["INTERRUPTED_FOLDER"]:
            os.kill(os.getpid(), int(os.environ["INTERRUPT"]))
        return done
    return made
os.open, os.mkdir = interrupting(os.open), interrupting(os.mkdir)
"""
# in KiB: how much memory there is for a file that is larger, and the steps in which it is taken away
LITTLE, STEP, STEPS = 400_000, 4_000, 14
LARGE = 4 << 30


def missing(name: str) -> str:
    """What a tool needs that isn't at hand, or nothing."""
    if name == "candesk-decode-many" and not shutil.which("parallel"):
        return "GNU parallel"
    package = {"candesk-plot": "matplotlib", "candesk-decode-dask": "distributed"}.get(name)
    return package if package and not has_package(package) else ""


def words_of(name: str, folder: str) -> list[str]:
    """Words with which a tool has work to do."""
    car, log = example("car.dbc"), example("car.log")
    out = os.path.join(folder, "out")
    return {
        "candesk-table": ["--database", car, "--long", log],
        "candesk-stats": [car, log],
        "candesk-diff": ["--log", log, car, example("car.print")],
        "candesk-format": ["--check", car],
        "candesk-shell": [car],
        "candesk-plot": ["--output", out + ".svg", "EngineSpeed.Speed"],
        "candesk-decode-many": ["--output", out, car, log],
        "candesk-decode-dask": ["--workers", "1", "--output", out, car, log],
    }[name]


def is_quiet(got: Ran, *statuses: int) -> bool:
    return got.status in statuses and got.errors.count(b"\n") <= 1 and b"Traceback" not in got.errors


def interrupted(words: list[str], delay: float, is_group: bool, **environment: str) -> Ran:
    """What a tool ends with that is interrupted, by itself or as a terminal does it; its standard input stays open."""
    env = dict(os.environ, LC_ALL="C.UTF-8", **environment)
    streams = {"stdin": subprocess.PIPE, "stdout": subprocess.PIPE, "stderr": subprocess.PIPE}
    with subprocess.Popen(words, env=env, start_new_session=True, **streams) as running:  # type: ignore[call-overload]
        time.sleep(delay)
        (os.killpg if is_group else os.kill)(running.pid, signal.SIGINT)
        status = running.wait(PATIENCE)
        return Ran(status, running.stdout.read(), running.stderr.read())


def still_running(text: str) -> list[str]:
    """The processes that have a text in their words, after they had a moment to end."""
    end = time.monotonic() + 5
    while True:
        found = []
        for it in filter(str.isdecimal, os.listdir("/proc")):
            try:
                words = read(f"/proc/{it}/cmdline").replace(b"\0", b" ").decode(errors="replace")
            except OSError:
                continue
            if text in words:
                found.append(words)
        if not found or time.monotonic() > end:
            return found
        time.sleep(0.1)


class Streams(ToolCase):
    def test_streams(self) -> None:
        car, log = example("car.dbc"), example("car.log")
        for name in TOOLS:
            got = by_shell('"$@" >&-', path_of(name), "--help")
            self.check_true(f"{name}: --help without standard output", is_fault(got, 3, name.encode() + BAD_OUTPUT), got)
            got = by_shell('"$@" 2>&-', path_of(name), "--fly")
            self.check_true(f"{name}: bad words without standard error", got == (2, b"", b""), got)
            got = by_shell('"$@" <&- >&- 2>&-', path_of(name))
            self.check_true(f"{name}: no words and no streams", got == (2, b"", b""), got)
        for words in (["candesk-table", "--database", car, "--long", log], ["candesk-format", "--check", car],
                      ["candesk-table", "--plain", "--long", example("car.decode")], ["candesk-shell", car]):
            got = by_shell('"$@" >&-', path_of(words[0]), *words[1:], given=b"list\n")
            is_reported = is_fault(got, 3, words[0].encode() + BAD_OUTPUT)
            self.check_true(f"{' '.join(words[:2])}: without standard output", is_reported, got)
        for words in (
            ["candesk-table", "--database", car, "--long"], ["candesk-table", "--plain", "--long"], ["candesk-shell", car],
        ):
            got = by_shell('"$@" <&-', path_of(words[0]), *words[1:])
            is_reported = is_fault(got, 3, words[0].encode() + BAD_INPUT)
            self.check_true(f"{' '.join(words[:2])}: without standard input", is_reported, got)
            got = by_shell('"$@" < /', path_of(words[0]), *words[1:])
            is_reported = is_fault(got, 3, b": standard input: Is a dir")
            self.check_true(f"{' '.join(words[:2])}: a folder on standard input", is_reported, got)

    def test_unused_streams(self) -> None:
        """A stream that isn't needed may be closed, and no file takes its place."""
        car, log = example("car.dbc"), example("car.log")
        wanted = tool("candesk-table", "--database", car, "--long", log)
        got = by_shell('"$@" <&- 2>&-', path_of("candesk-table"), "--database", car, "--long", log)
        self.check_true("table: no other streams", got == wanted and got[0] == 0, got)
        for closed in ("<&-", ">&-", "2>&-", "<&- >&- 2>&-"):
            path = written(self.folder, "wheel.dbc", read(example("wheel.dbc")) + b"\n")
            got = by_shell(f'"$@" {closed}', path_of("candesk-format"), path)
            is_right = got == (0, b"", b"") and read(path) == ran([self.program, "print", path]).out
            self.check_true("format: closed " + closed, is_right, (got, read(path)))
            target = os.path.join(self.folder, "tables")
            got = by_shell(f'"$@" {closed}', path_of("candesk-table"), "--database", car, "--folder", target, log)
            self.check_true("table: a folder, closed " + closed, got == (0, b"", b"") and len(outputs_in(target)) == 14, got)
        got = by_shell('"$@" 2>&-', path_of("candesk-table"), "--database", car, "--long", os.path.join(self.folder, "none"))
        self.check_true("table: a fault without standard error", got == (3, b"", b""), got)
        got = by_shell('"$@" 2>&-', path_of("candesk-shell"), car, given=b"fly\nshow lines\n")
        self.check_true("shell: a refusal without standard error", got == (1, b"", b""), got)
        for name in ("candesk-decode-many", "candesk-decode-dask"):
            if not missing(name):
                got = by_shell('"$@" <&- >&- 2>&-', path_of(name), *words_of(name, self.folder))
                out = outputs_in(os.path.join(self.folder, "out"))
                is_right = got == (0, b"", b"") and out == {"car.decoded": read(example("car.decode"))}
                self.check_true(name + ": no streams", is_right, got)

    def test_readers_that_go(self) -> None:
        many = written(self.folder, "many.log", read(example("car.log")) * 1000)
        paths = [shutil.copy(example("car.dbc"), os.path.join(self.folder, f"{at:03}{'x' * 200}.dbc")) for at in range(20)]
        for words, given in (
            (["candesk-table", "--database", example("car.dbc"), "--long", many], b""),
            (["candesk-table", "--database", example("car.dbc"), "--message", "Brake", many], b""),
            (["candesk-table", "--plain", "--long"], ran([self.program, "decode", example("car.dbc")], read(many)).out),
            (["candesk-format", "--check", *paths], b""),
            (["candesk-shell", example("car.dbc")], b"print\n" * 200),
        ):
            got = by_shell('"$@" | head -n 1 >/dev/null; exit ${PIPESTATUS[0]}', path_of(words[0]), *words[1:], given=given)
            self.check_true(f"{' '.join(words[:2])}: a reader that goes", is_quiet(got, 3, 1, 0) and not got.errors, got)
        none = os.path.join(self.folder, "none")
        got = by_shell('"$@" 2>&1 | true; exit ${PIPESTATUS[0]}', path_of("candesk-format"), none, none, none)
        self.check_true("format: a reader of faults that goes", got == (3, b"", b""), got)
        for name in TOOLS:
            got = by_shell('"$@" | true; exit ${PIPESTATUS[0]}', path_of(name), "--help")
            self.check_true(name + ": a reader of --help that goes", got.status in (0, 3) and not got.errors, got)


@cases(TOOLS)
class Interrupts(ToolCase):
    def row(self, name: str) -> None:
        if missing(name):
            self.skipTest(f"{missing(name)} isn't at hand")
        self.check_interrupts(name)
        if "decode" in name:
            self.check_interrupted_decoding(name)

    def check_interrupts(self, name: str) -> None:
        """Whenever it comes, an interrupt ends in one line, or in none where the tool hasn't begun; nothing is left over."""
        temporary, work = self.new_folder(), self.new_folder()
        slow = executable(work, "slow", SLOW)
        words = [path_of(name), *words_of(name, work)]
        reads_input = name in ("candesk-table", "candesk-stats", "candesk-shell")
        if reads_input and words[-1] == example("car.log"):
            words.pop()
        environment = {"TMPDIR": temporary, **({} if reads_input else {"CANDESK": slow})}
        line, faults, lines = name.encode() + b": interrupted\n", [], 0
        for delay in DELAYS:
            for is_group in (False, True):
                got = interrupted(words, delay, is_group, **environment)
                lines += got.errors == line
                if (got.status, got.errors) not in ((INTERRUPTED, line), (-signal.SIGINT, b"")):
                    faults.append((delay, is_group, got))
        self.check_true(name + ": interrupted", not faults and lines > 2, faults or lines)
        left = still_running(work), os.listdir(temporary), [it for it in os.listdir(work) if it.startswith(".")]
        self.check_true(name + ": interrupted, nothing is left", left == ([], [], []), left)

    def check_interrupted_decoding(self, name: str) -> None:
        """Interrupted while it decodes, a tool leaves no output, and ends its jobs. (A program that a worker of Dask ran ends by
        itself, as the worker that fed it is gone, but this one here doesn't read.)"""
        work = self.new_folder()
        later = b'#!/bin/sh\ncase $1 in print | dump | --version) exec "%s" "$@" ;; esac\nexec sleep 40.%d\n'
        slow = executable(work, "slow", later % (self.program.encode(), os.getpid()))
        for is_group in (False, True):
            got = interrupted([path_of(name), *words_of(name, work)], 4 if name.endswith("dask") else 1, is_group, CANDESK=slow)
            is_right = (got.status, got.errors) == (INTERRUPTED, name.encode() + b": interrupted\n")
            self.check_true(f"{name}: interrupted while it decodes, {is_group}", is_right, got)
            left = [] if name.endswith("dask") else still_running(f"sleep 40.{os.getpid()}")
            self.check_true(f"{name}: its jobs end, {is_group}", not left and not outputs_in(os.path.join(work, "out")), left)


class InterruptedMaking(ToolCase):
    def test_interrupted_making(self) -> None:
        """A file or folder that a tool is making as an interrupt or a request to end comes isn't left over."""
        database, log, elsewhere = example("wheel.dbc"), example("car.log"), self.new_folder()
        # (where temporary files may be is found by making one)
        known = b"import tempfile\ntempfile.tempdir = os.environ['TMPDIR']\n"
        for temporary, python, words in (
            (elsewhere, b"", ["candesk-table", "--database", database, "--folder", ".", log]),
            ("", b"", ["candesk-format", "--check", "wheel.dbc"]),
            ("", known, ["candesk-format", "--check", "wheel.dbc"]),
            (elsewhere, b"", ["candesk-format", "wheel.dbc"]),
        ):
            for number in (signal.SIGINT, signal.SIGTERM):
                work, modules = self.new_folder(), self.new_folder()
                written(work, "wheel.dbc", read(database) + b"\n")
                written(modules, "sitecustomize.py", INTERRUPTING + python)
                line = f'cd "{work}" && exec "$@"'
                got = by_shell(line, path_of(words[0]), *words[1:], TMPDIR=temporary or work, PYTHONPATH=modules,
                               INTERRUPTED_FOLDER=work, INTERRUPT=f"{number:d}")
                reported = words[0].encode() + b": interrupted\n" if number == signal.SIGINT else b""
                is_right = got == (128 + number, b"", reported) and os.listdir(work) == ["wheel.dbc"]
                what = f"{words[0]} {words[-2] if len(words) > 2 else 'in place'}: {number.name} as it makes a file"
                self.check_true(what, is_right, (got, os.listdir(work)))


class Memory(ToolCase):
    def test_program_without_memory(self) -> None:
        empty = executable(self.folder, "empty", EMPTY)
        later = executable(self.folder, "later", EMPTY_LATER % self.program.encode())
        for name in TOOLS:
            if name == "candesk-plot" or missing(name):
                continue
            words = words_of(name, self.folder)
            for program in (empty,) if name == "candesk-format" else (empty, later):
                got = tool(name, *words, CANDESK=program)
                self.check_true(f"{name}: {os.path.basename(program)} memory", is_fault(got, 4, b": 90 Memory\n"), got)
                if "--output" in words:
                    got = tool(name, "--keep-going", *words, CANDESK=program)
                    got = got._replace(errors=got.errors.removeprefix(b"1 of 1 blocks\n"))
                    is_reported = is_fault(got, 4, b": 90 Memory\n")
                    self.check_true(f"{name}: {os.path.basename(program)} memory, going on", is_reported, got)

    def test_large_files(self) -> None:
        """A file that is larger than what memory there is."""
        large = written(self.folder, "large.dbc", b"")
        os.truncate(large, LARGE)
        for words in (["candesk-format", large], ["candesk-shell", large], ["candesk-table", "--plain", "--long", large]):
            got = by_shell(f'ulimit -v {LITTLE}; exec "$@"', path_of(words[0]), *words[1:])
            self.check_true(f"{words[0]}: a large file", is_fault(got, 4, words[0].encode() + b": out of memory\n"), got)
        os.unlink(large)


@cases(TOOLS)
class LittleMemory(ToolCase):
    def row(self, name: str) -> None:
        """From less than Python needs to start upward, a tool ends as it should, or in one line."""
        faults, ends = [], set()
        for at in range(STEPS):
            limit = (1 + at) * STEP
            got = by_shell(f'ulimit -v {limit}; exec "$@"', path_of(name), *words_of(name, self.folder), given=b"list\n")
            ends.add(got.status)
            if not is_quiet(got, 0, 1, 3, 4) or got.status in (3, 4) and not got.errors:
                faults.append((limit, got))
        self.check_true(name + ": little memory", not faults and 4 in ends, (ends, faults))


if __name__ == "__main__":
    main()
