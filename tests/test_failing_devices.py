#!/usr/bin/env python3
"""Runs of the program on failing devices: reads and writes that fail at call number 1, 2, 3 and so on, or move a byte a call,
files that are cut while they are read, and files and streams that can't be read or written at all.

What is written has to be a beginning of the right text, and what was read before a read failed has to be answered whole; the status
is 3, and the fault line is on standard error. What is right is written below by hand. With the program of candesk_probe it is seen
too which commands a session has done then. It needs a C compiler, as cc.
"""

from __future__ import annotations

import os
import shutil
import subprocess
import sys
import threading
from collections.abc import Callable
from typing import IO, ClassVar, Final

sys.dont_write_bytecode = True
sys.path.insert(0, os.path.dirname(os.path.realpath(__file__)))

from test_support import DEVICE, DONE, EMPTY, FRAMES, REFUSED, SHARED, SHARED_FAULTS, TWO_BYTES, USAGE  # noqa: E402
from test_support import Ended, Preloaded, ProgramCase, cases, decoded, main, program_of_tests  # noqa: E402
from test_support import put, run, script, shown  # noqa: E402

CANNOT_READ = (DEVICE, b"", b"candesk: cannot read file\n")
WRITE_FAILED = (DEVICE, b"candesk: 42 Write\n")
# a user that may read nothing of others
NOBODY = 65534

# what is printed and drawn of two messages of one number
PRINTED = EMPTY + SHARED
PICTURE = b"Message %s 291 1\n   0:   0   0   0   0   0   0   0   0\n   0 S 0|8@1+\n"
DRAWN = PICTURE % b"A" + PICTURE % b"B"
SIGNAL = (
    b'{"start":0,"length":8,"order":"intel","signed":false,"factor":%s,"offset":0,"minimum":0,"maximum":0,"unit":"","receivers":[],'
    b'"tag":null,"positions":[0,1,2,3,4,5,6,7],"refused":null,"chain":[],"values":[{"value":1,"name":"one"}],"comment":null,'
    b'"attributes":[]}'
)
MESSAGE = (
    b'{"name":"%s","number":291,"id":291,"extended":false,"size":1,"sender":"Vector__XXX","pgn":null,"comment":null,'
    b'"attributes":[],"signals":{"S":%s}}\n'
)
REST = (
    b'{"version":"","symbols":[],"bit_timing":null,"nodes":[],"value_tables":[],"definitions":[],"defaults":[],"comments":[],'
    b'"attributes":[],"values":[],"value_types":[],"multiplexing":[],"kept":[]}\n'
)
WRITTEN = MESSAGE % (b"A", SIGNAL % b"1") + MESSAGE % (b"B", SIGNAL % b"2") + REST
LOCATED = (
    b'{"number":291,"message":"A","at":[{"line":1,"from":0,"to":9}]}\n'
    b'{"number":291,"message":"A","node":"Vector__XXX","at":[{"line":1,"from":13,"to":24}]}\n'
    b'{"number":291,"message":"A","signal":"S","at":[{"line":2,"from":26,"to":31}]}\n'
    b'{"number":291,"message":"B","at":[{"line":3,"from":56,"to":65}]}\n'
    b'{"number":291,"message":"B","node":"Vector__XXX","at":[{"line":3,"from":69,"to":80}]}\n'
    b'{"number":291,"message":"B","signal":"S","at":[{"line":4,"from":82,"to":87}]}\n'
    b'{"entry":"VAL_","number":291,"signal":"S","at":[{"line":5,"from":112,"to":122}]}\n'
)
PRINTED_SECOND = PRINTED.replace(b'BO_ 291 A: 1 Vector__XXX\n SG_ S : 0|8@1+ (1,0) [0|0] ""\n', b"")

# commands of a session on it, each with its reply
SCRIPT = [
    (b"log (1.0) c 123#2A", b"ok\n"),
    (b"show lines", b"(1.0) c 123#2A :: A(S: 42)\nok\n"),
    (b"frob", b"bad command\n"),
    (b"show diagnostics", SHARED_FAULTS + b"ok\n"),
    (b"remove-message 0", b"ok\n"),
    (b"show lines", b"(1.0) c 123#2A :: B(S: 84)\nok\n"),
    (b"remove-message 1", b"refused 20 NoMessage\n"),
    (b"print", PRINTED_SECOND + b"ok\n"),
]

# the lines of a log with their texts; each line but the last ends in CR LF
LOG = [(line + b"\r", decoded(line, following)) for line, following in FRAMES[:-1]] + [(FRAMES[-1][0], decoded(*FRAMES[-1]))]

# the same lines with their objects
FRAME = b'{"time":1.0,"interface":"c","id":%d,"extended":%s,"kind":"%s",%s}\n'
OBJECTS = [
    FRAME % (291, b"false", b"remote", b'"not_decoded":"remote frame"'),
    FRAME % (128, b"true", b"error", b'"not_decoded":"error frame"'),
    FRAME % (291, b"false", b"fd", b'"data":"AABB","message":"A","number":291,"signals":{"S":{"value":170},"T":{"value":187}}'),
    FRAME % (2047, b"false", b"data", b'"data":"1122334455667788","not_decoded":"unknown id"'),
    b'{"line":"hello"}\n',
    b'{"line":""}\n',
    FRAME % (291, b"false", b"data", b'"data":"0102","message":"A","number":291,"signals":{"S":{"value":1},"T":{"value":2}}'
        b',"rest":"R"'),
]
# and with their rows, after the names of the columns
COLUMNS = b"time,interface,id,message,signal,value,unit,name\n"
ROWS = b"1.0,c,291,A,S,%d,,\n1.0,c,291,A,T,%d,,\n"
LOG_OF_ROWS = [(line, {2: ROWS % (170, 187), 6: ROWS % (1, 2)}.get(at, b"")) for at, (line, _) in enumerate(LOG)]
LOG_OF_OBJECTS = [(line, text) for (line, _), text in zip(LOG, OBJECTS, strict=True)]

# the words, the database, the lines of standard input with what is answered to each, what is written before them, and the status
Line = tuple[bytes, bytes]
RUNS: Final[list[tuple[list[str], bytes, list[Line], bytes, int]]] = [
    (["print"], SHARED, [], PRINTED, DONE),
    (["check"], SHARED, [], SHARED_FAULTS, REFUSED),
    (["dump"], SHARED, [], DRAWN, DONE),
    (["dump", "--json"], SHARED, [], WRITTEN, DONE),
    (["dump", "--at"], SHARED, [], LOCATED, DONE),
    (["decode"], TWO_BYTES, LOG, b"", DONE),
    (["decode", "--short"], TWO_BYTES, LOG, b"", DONE),
    (["decode", "--json"], TWO_BYTES, LOG_OF_OBJECTS, b"", DONE),
    (["decode", "--csv"], TWO_BYTES, LOG_OF_ROWS, COLUMNS, DONE),
    (["session"], SHARED, SCRIPT, b"", DONE),
    (["session", "--short"], SHARED, SCRIPT, b"", DONE),
]

# what a run may have that is unusual: a stream, what is done before it begins, or a user
Stream = IO[bytes] | int | Callable[[], None]


class Run:
    """A command on a database and standard input, with what it has to write."""

    def __init__(
        self, case: DeviceCase, words: list[str], database: bytes, lines: list[Line], output: bytes, status: int
    ) -> None:
        self.case, self.name, self.lines, self.status = case, " ".join(words), lines, status
        self.path, self.database = put(case.folder, "database.dbc", database), database
        self.words = [case.program, *words, self.path]
        self.stdin = b"\n".join(line for line, _ in lines)
        # what is written before a line is read
        self.first = output
        self.output = output + b"".join(text for _, text in lines)

    def end(self, **settings: int | str) -> tuple[bool, Ended]:
        """Whether a device failed, and what the run ended with."""
        put(self.case.folder, "database.dbc", self.database)
        return self.case.preloaded.run(self.words, self.stdin, **settings)

    def answered(self, count: int) -> bytes:
        """What is written if that many bytes of standard input are read, and then no more."""
        return self.first + b"".join(text for _, text in self.lines[: self.stdin[:count].count(b"\n")])

    def check_ample(self, name: str, ended: Ended) -> None:
        self.case.check_equal(f"{self.name}, {name}", ended, (self.status, self.output, b""))

    def fail_each(self, name: str, fault_of: Callable[[int, Ended], str | None], **settings: int | None) -> int:
        """Lets a device fail from each of its calls on, the setting that is None being the call's number. `fault_of` returns what
        is wrong with how a run ended in which the call of this number failed."""
        (numbered,) = (key for key, value in settings.items() if value is None)
        others = {key: value for key, value in settings.items() if value is not None}
        for number in range(1, 100_000):
            reached, ended = self.end(**others, **{numbered: number})
            if not reached:
                self.check_ample(f"{name}, {number - 1} calls", ended)
                return number - 1
            self.case.check(f"{self.name}, {name} {number}", fault_of(number, ended))
        return 0

    def writes(self) -> None:
        """Writes fail, or move nothing."""

        def beginning(_: int, ended: Ended) -> str | None:
            is_one = self.output.startswith(ended[1]) and ended[1] != self.output
            return None if (ended[0], ended[2]) == WRITE_FAILED and is_one else shown(ended)

        def first_bytes(number: int, ended: Ended) -> str | None:
            wanted = (DEVICE, self.output[: number - 1], b"candesk: 42 Write\n")
            return None if ended == wanted else f"{shown(ended)} for {shown(wanted)}"

        count = self.fail_each("write", beginning, FAIL_WRITE=None)
        self.case.check(self.name, None if count else "no write failed")
        self.fail_each("write of nothing", beginning, FAIL_WRITE=None, WRITES_NONE=1)
        count = self.fail_each("write of a byte", first_bytes, FAIL_WRITE=None, BYTE_BY_BYTE=1)
        self.case.check_equal(f"{self.name}, writes of a byte", count, len(self.output))

    def reads(self) -> None:
        """Reads of standard input fail: what was read before is answered whole."""

        def at_once(number: int, ended: Ended) -> str | None:
            wanted = (DEVICE, self.answered(0 if number == 1 else len(self.stdin)), b"candesk: 41 Read\n")
            return None if ended == wanted else f"{shown(ended)} for {shown(wanted)}"

        def by_bytes(number: int, ended: Ended) -> str | None:
            wanted = (DEVICE, self.answered(number - 1), b"candesk: 41 Read\n")
            return None if ended == wanted else f"{shown(ended)} for {shown(wanted)}"

        # (it is read whole, and then the end is read)
        wanted = 2 if self.lines else 0
        self.case.check_equal(f"{self.name}, reads", self.fail_each("read", at_once, FAIL_READ=None), wanted)
        wanted = len(self.stdin) + 1 if self.lines else 0
        count = self.fail_each("read of a byte", by_bytes, FAIL_READ=None, BYTE_BY_BYTE=1)
        self.case.check_equal(f"{self.name}, reads of a byte", count, wanted)

    def file_reads(self) -> None:
        """Reads of FILE fail: nothing is written."""

        def refused(_: int, ended: Ended) -> str | None:
            return None if ended == CANNOT_READ else shown(ended)

        ways: tuple[dict[str, int], ...] = ({}, {"BYTE_BY_BYTE": 1})
        for settings in ways:
            count = self.fail_each("read of FILE", refused, FAIL_FILE=None, **settings)
            self.case.check(f"{self.name}, reads of FILE", None if count else "none failed")

    def cuts(self) -> None:
        """FILE is cut while it is read: what is left of it counts."""
        whole = self.database
        for cut in range(0, len(whole), 3):
            self.cut(cut, cut, CUT_AT=1)
            # (that many bytes are read then)
            read = len(whole) // 2
            self.cut(cut, max(cut, read), CUT_AT=read + 1, BYTE_BY_BYTE=1)
        self.database = whole

    def cut(self, to: int, left: int, **settings: int) -> None:
        whole = self.database
        reached, ended = self.end(CUT_FILE=self.path, CUT_TO=to, **settings)
        self.database = whole[:left]
        _, wanted = self.end(**{key: value for key, value in settings.items() if key == "BYTE_BY_BYTE"})
        self.database = whole
        self.case.check_equal(f"{self.name}, FILE is cut to {to} bytes", (reached, *ended), (True, *wanted))


class DeviceCase(ProgramCase):
    """Runs of the program with a library preloaded, which makes devices fail."""

    preloaded: ClassVar[Preloaded]

    @classmethod
    def setUpClass(cls) -> None:
        super().setUpClass()
        cls.preloaded = Preloaded("fail_device", cls.folder)


@cases(RUNS, lambda words, *_: " ".join(words))
class Devices(DeviceCase):
    def row(self, words: list[str], database: bytes, lines: list[Line], output: bytes, status: int) -> None:
        it = Run(self, words, database, lines, output, status)
        it.check_ample("sound devices", it.end()[1])
        it.check_ample("a byte a call", it.end(BYTE_BY_BYTE=1)[1])
        it.writes()
        it.reads()
        it.file_reads()
        it.cuts()


class HalfLines(DeviceCase):
    def test_a_line_and_a_half(self) -> None:
        """A read fails after a line and the beginning of another."""
        path = put(self.folder, "two_bytes.dbc", TWO_BYTES)
        wanted = (DEVICE, b"(1.0) c 123#0102 :: A(S: 1, T: 2)\n", b"candesk: 41 Read\n")
        words = [self.program, "decode", path]
        self.check_equal("a line and a half", self.preloaded.run(words, b"(1.0) c 123#0102\n(1.0)", FAIL_READ=2)[1], wanted)


class Sessions(DeviceCase):
    def test_what_a_session_has_done(self) -> None:
        """If a write fails a session has done the command whose reply was cut off, if a read fails the whole lines before."""
        probe = program_of_tests("CANDESK_PROBE", script("proving").PROBE)
        path = put(self.folder, "shared.dbc", SHARED)
        commands = b"log (1.0) c 123#2A\nremove-message 0\nprint\n"
        first = commands.index(b"\n") + 1
        rows = [
            ({"FAIL_WRITE": 6}, b"ok\nok", b"42 Write", PRINTED_SECOND, b"(1.0) c 123#2A :: B(S: 84)\n"),
            ({"FAIL_READ": first + 1}, b"ok\n", b"41 Read", PRINTED, b"(1.0) c 123#2A :: A(S: 42)\n"),
        ]
        for settings, written, answer, printed, line in rows:
            words = [probe, "serve", path]
            # (its first call opens the session)
            reached, (_, output, _) = self.preloaded.run(words, commands, IN_CALL=2, BYTE_BY_BYTE=1, **settings)
            reported = output.split(b"begin\n")[2]
            got_written, _, rest = reported.partition(b"end\n")
            got_answer, _, state = rest.partition(b"\n")
            is_right = state.startswith(printed + b"diagnostics\n") and b"\nlines\n(1.0) c 123#2A\n" + line + b"meter " in state
            got = (reached, got_written, got_answer, is_right)
            self.check_equal(f"a session with {settings}", got, (True, written, answer, True))


class Unusable(ProgramCase):
    """Files and streams that can't be read or written, without anything preloaded."""

    def check_outside(self, name: str, words: list[str], wanted: Ended, stdin: bytes | int = b"", **streams: Stream) -> None:
        """Checks a run with these streams; one that isn't given is a pipe of which all is read."""
        self.check_equal(name, run([self.program, *words], stdin, **streams), wanted)

    def test_no_output(self) -> None:
        """Standard output that takes nothing: a full device, a pipe that nobody reads, one that is closed."""
        path = put(self.folder, "shared.dbc", SHARED)
        wanted = (DEVICE, b"", b"candesk: 42 Write\n")
        commands = [[word, path] for word in ("print", "check", "explain", "dump", "decode", "session")]
        for words in (*commands, ["--help"], ["--version"]):
            with open("/dev/full", "wb") as full:
                self.check_outside(f"{words[0]} to a full device", words, wanted, b"show lines\n", stdout=full)
            reading, writing = os.pipe()
            os.close(reading)
            self.check_outside(f"{words[0]} to a pipe that nobody reads", words, wanted, b"show lines\n", stdout=writing)
            os.close(writing)
            closing = {"preexec_fn": lambda: os.close(1)}
            self.check_outside(f"{words[0]} to closed output", words, wanted, b"show lines\n", **closing)

    def test_no_input(self) -> None:
        """Standard input that can't be read: a folder, and one that is closed."""
        path = put(self.folder, "shared.dbc", SHARED)
        for word in ("decode", "session"):
            folder = os.open(self.folder, os.O_RDONLY)
            self.check_outside(f"{word} of a folder", [word, path], (DEVICE, b"", b"candesk: 41 Read\n"), folder)
            os.close(folder)
            wanted = (DEVICE, b"", b"candesk: 41 Read\n")
            self.check_outside(f"{word} of closed input", [word, path], wanted, subprocess.DEVNULL, preexec_fn=lambda: os.close(0))

    def test_no_file(self) -> None:
        """FILE can't be read: a folder, none, and one without leave."""
        for word in ("print", "check", "explain", "dump", "decode", "session"):
            for name, path in (("a folder", self.folder), ("none", "missing"), ("below a file", self.program + "/x")):
                self.check_outside(f"{word}, FILE is {name}", [word, path], CANNOT_READ)
            self.without_leave(word)

    def without_leave(self, word: str) -> None:
        locked = put(self.folder, "locked.dbc", SHARED)
        os.chmod(locked, 0)
        if os.geteuid() == 0:
            self.as_nobody(word, locked)
        elif os.access(locked, os.R_OK):
            self.skip_check(f"{word}, FILE without leave", "a file that this user may not read")
        else:
            self.check_outside(f"{word}, FILE without leave", [word, locked], CANNOT_READ)
        os.remove(locked)

    def as_nobody(self, word: str, locked: str) -> None:
        """Root reads all, so a copy of the program is run as another user, who can reach it and reads what is open to all."""
        os.chmod(self.folder, 0o755)
        copy = shutil.copy(self.program, os.path.join(self.folder, "program"))
        os.chmod(copy, 0o755)
        open_to_all = put(self.folder, "open.dbc", SHARED)
        os.chmod(open_to_all, 0o644)
        try:
            self.check_equal("print as another user", run([copy, "print", open_to_all], user=NOBODY), (DONE, PRINTED, b""))
            self.check_equal(f"{word}, FILE without leave", run([copy, word, locked], user=NOBODY), CANNOT_READ)
        except PermissionError:
            self.skip_check(f"{word}, FILE without leave", "leave for root to run it as another user")

    def test_slow_file(self) -> None:
        """FILE is a pipe, whose text comes in pieces and ends early."""
        path = os.path.join(self.folder, "pipe")
        os.mkfifo(path)
        for text, wanted in (
            (SHARED, (DONE, PRINTED, b"")),
            (SHARED[:11], (REFUSED, b"", b"candesk: line 1: 2 Statement\n")),
            (b"", (DONE, PRINTED[: -len(SHARED)], b"")),
        ):
            writer = threading.Thread(target=write_slowly, args=(path, text))
            writer.start()
            self.check_outside(f"print, FILE is a pipe of {len(text)} bytes", ["print", path], wanted)
            writer.join()

    def test_lost_fault(self) -> None:
        """A fault line that can't be written doesn't change the status."""
        for words, status in ((["frob"], USAGE), (["print", "missing"], DEVICE)):
            with open("/dev/full", "wb") as full:
                self.check_outside(f"{words[0]}, its fault is lost", words, (status, b"", b""), stderr=full)
            closing: dict[str, Stream] = {"stderr": subprocess.DEVNULL, "preexec_fn": lambda: os.close(2)}
            self.check_outside(f"{words[0]}, without standard error", words, (status, b"", b""), b"", **closing)


def write_slowly(path: str, text: bytes) -> None:
    with open(path, "wb", buffering=0) as pipe:
        for at in range(0, len(text), 7):
            pipe.write(text[at : at + 7])


if __name__ == "__main__":
    main()
