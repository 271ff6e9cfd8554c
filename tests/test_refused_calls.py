#!/usr/bin/env python3
"""Each call that takes memory, by itself, with its allocation of number 1, 2, 3 and so on refused, until it makes no more.

The program of the crate candesk_probe marks where a call begins and ends, so that no other allocation counts. Calls are `read`,
`make_plan`, `picture`, `all_faults`, `decode_line`, `Session::open`, `add_line` of three lines, also if the last two are kept and
the oldest goes, and each of the sixteen edits on a session of its own. Each has to return what it returns with ample memory, or
that it is out of memory. After the latter a session returns by reference what it did before, all except its meter, and the same
call once more returns what it does with ample memory; the meter rises by no more than what the call affects. With ample memory
each call has to succeed, and what a session then shows of its lines is worked out by hand: so a call that is always out of memory
fails, which is checked by refusing all allocations of each call.

A streamed log and a served script are tested in the same way. A C compiler is needed, as cc.
"""

from __future__ import annotations

import os
import sys
import tempfile
from collections.abc import Callable
from typing import ClassVar, Final

sys.dont_write_bytecode = True
sys.path.insert(0, os.path.dirname(os.path.realpath(__file__)))

from test_support import EXAMPLE, EXAMPLE_TEXT, FRAMES, GROUP, GROUP_LINE, GROUP_TEXT, TWO_BYTES  # noqa: E402
from test_support import Case, Preloaded, cases, decoded, main, program_of_tests, put, script, shown  # noqa: E402

# how many of FRAMES come before the first data frame
BEFORE_DATA = 2
# a message of few bits, and one that represents a parameter group
DATABASE = EXAMPLE + GROUP
MESSAGES = 2
FIRST = b"(0.000000) vcan0 1F0#804A0F0000000000"
SECOND = GROUP_LINE
LINES = [FIRST, SECOND, b"hello"]
# other texts of the first two lines
IN_KELVIN = EXAMPLE_TEXT.replace(b"255.92 degK", b"592 K")
NO_EXAMPLE = b"Unknown frame id 496 (0x1f0)"
NO_GROUP = b"Unknown frame id 419361073 (0x18fef131)"

SET_MUX = b"set-mux SG_MUL_VAL_ 496 Temperature Enable 0-0;"
SET_VALUES = b'set-values VAL_ 496 Enable 1 "Yes" ;'
SET_TABLE = b'set-table VAL_TABLE_ T 0 "z" ;'
SET_ATTRIBUTE = b'set-attribute BA_ "VFrameFormat" BO_ 2566844672 0;'

# edits that come before, the edit, the texts of the two lines after it, and by how much it may at most raise the meter: plans, and
# as many layout diagrams, by the messages that have one of its identifiers; lines by those whose frames it affects
EDITS: Final[list[tuple[list[bytes], bytes, bytes, bytes, int, int]]] = [
    ([], b"add-message 0 BO_ 2566844721 Own: 8 Vector__XXX", EXAMPLE_TEXT, b"Own()", 1, 1),
    ([], b"remove-message 0", NO_EXAMPLE, GROUP_TEXT, 0, 1),
    ([], b"change-message 0 Other 9 Vector__XXX", b"Wrong data size: 8 instead of 9 bytes", GROUP_TEXT, 1, 1),
    ([], b"renumber 0 497", NO_EXAMPLE, GROUP_TEXT, 1, 1),
    ([], b'add-signal 0 3 SG_ Last : 63|1@1+ (1,0) [0|0] ""', EXAMPLE_TEXT.replace(b")", b", Last: 0)"), GROUP_TEXT, 1, 1),
    ([], b"remove-signal 0 Enable", EXAMPLE_TEXT.replace(b"Enable: Enabled, ", b""), GROUP_TEXT, 1, 1),
    ([], b'change-signal 0 SG_ Temperature : 0|12@0- (1,0) [0|0] "K"', IN_KELVIN, GROUP_TEXT, 1, 1),
    ([], b"rename-signal 0 Enable On", EXAMPLE_TEXT.replace(b"Enable:", b"On:"), GROUP_TEXT, 1, 1),
    ([], SET_MUX, EXAMPLE_TEXT.replace(b", Temperature: 255.92 degK", b""), GROUP_TEXT, 1, 1),
    ([SET_MUX], b"drop-mux 496 Temperature", EXAMPLE_TEXT, GROUP_TEXT, 1, 1),
    ([], SET_VALUES, EXAMPLE_TEXT.replace(b"Enabled", b"Yes"), GROUP_TEXT, 1, 1),
    ([SET_VALUES], b"drop-values 496 Enable", EXAMPLE_TEXT.replace(b"Enabled", b"1 -"), GROUP_TEXT, 1, 1),
    ([], SET_TABLE, EXAMPLE_TEXT, GROUP_TEXT, 0, 0),
    ([SET_TABLE], b"drop-table T", EXAMPLE_TEXT, GROUP_TEXT, 0, 0),
    ([], SET_ATTRIBUTE, EXAMPLE_TEXT, NO_GROUP, 1, 1),
    ([SET_ATTRIBUTE], b'drop-attribute 2566844672 "VFrameFormat"', EXAMPLE_TEXT, NO_GROUP, 1, 1),
]

# lines that are kept if the last two are, and one for which the first of them goes: the last of its identifier and group, one of
# two of an identifier, one of the new line's identifier, and no frame
KEPT = [([SECOND, FIRST], b"hello"), ([FIRST, FIRST], b"hello"), ([FIRST, SECOND], FIRST), ([b"hello", FIRST], SECOND)]
TEXTS = {FIRST: b" :: " + EXAMPLE_TEXT, SECOND: b" :: " + GROUP_TEXT, b"hello": b""}

# the calls that no session makes, what is passed to them, and how often each is made, twice each time
PLAIN: Final = [
    ("read", b"", 1),
    ("open", b"", 1),
    ("plans", b"", MESSAGES),
    ("pictures", b"", MESSAGES),
    ("faults", b"", 1),
    ("decode", b"\n".join(LINES), len(LINES)),
]

# answers of a call out of memory, by its type of fault
OUT_OF_MEMORY = (b"90 Memory", b"refused 90")

BAD_COMMANDS = 100_000

# what a meter counts: plans, layout diagrams and lines
Meter = tuple[int, ...]


class Call:
    """What candesk_probe reports of a call: what is written in it, its answer, the state after it, and the meter, if any."""

    def __init__(self, reported: bytes) -> None:
        self.written, _, rest = reported.partition(b"end\n")
        self.answer, _, state = rest.partition(b"\n")
        at = state.rfind(b"meter ")
        self.state = state[:at] if at >= 0 else state
        self.meter: Meter | None = tuple(map(int, state[at:].split()[1:])) if at >= 0 else None

    def __eq__(self, other: object) -> bool:
        return vars(self) == vars(other)

    def __repr__(self) -> str:
        return f"{shown(self.answer)}, {shown(self.state)}, meter {self.meter}"


# returns what is wrong with all calls that are reported
FaultOfAll = Callable[[list[Call]], str | None]


def calls_of(output: bytes) -> list[Call]:
    """The calls that are reported."""
    return [Call(it) for it in output.split(b"begin\n")[1:]]


def rise(before: Meter, after: Meter) -> Meter:
    return tuple(new - old for old, new in zip(before, after))


def is_within(before: Call, after: Call, most: Meter) -> bool:
    """Whether the meter has risen by no more than this, and not fallen."""
    assert before.meter is not None and after.meter is not None
    return all(0 <= by <= bound for by, bound in zip(rise(before.meter, after.meter), most))


def fault_of_plain(got: list[Call], ample: Call, most: Meter | None) -> str | None:
    """What is wrong with two calls of which the first may have been refused memory."""
    first, second = got
    if second != ample:
        return f"once more it is {second} for {ample}"
    if first == ample:
        return None
    if first.answer not in OUT_OF_MEMORY or first.state:
        return f"{first} for {ample}"
    if first.meter is not None and (most is None or any(by > bound for by, bound in zip(first.meter, most))):
        return f"the meter is {first.meter}"
    return None


def fault_of_command(before: Call, got: list[Call], ample: Call, most: Meter) -> str | None:
    """What is wrong with a command of a session, which may have been refused memory, and with the same once more."""
    first, second = got
    if first == ample:
        return None
    if first.answer not in OUT_OF_MEMORY or first.state != before.state:
        return f"{first} for {ample}"
    if (second.answer, second.state) != (ample.answer, ample.state):
        return f"once more it is {second} for {ample}"
    if not is_within(before, first, most) or not is_within(first, second, most):
        return f"the meter goes from {before.meter} to {first.meter} and {second.meter}"
    return None


def fault_of_success(call: Call, lines: list[bytes] | None = None) -> str | None:
    """What is wrong with a call that has to succeed, and, of a session, with the texts of its lines then."""
    is_right = call.answer == b"ok" and lines in (None, lines_of(call))
    return None if is_right else f"{call}"


def lines_of(call: Call) -> list[bytes]:
    """The lines in a state: each line and its text, one after the other."""
    return call.state.partition(b"\nlines\n")[2].splitlines()


def shown_lines(first: bytes, second: bytes, count: int = len(LINES)) -> list[bytes]:
    texts = [FIRST + b" :: " + first, SECOND + b" :: " + second, b"hello"]
    return [it for both in zip(LINES[:count], texts) for it in both]


class CallCase(Case):
    """Calls with each of their allocations refused."""

    probe: ClassVar[str]
    folder: ClassVar[str]
    preloaded: ClassVar[Preloaded]

    @classmethod
    def setUpClass(cls) -> None:
        cls.probe = program_of_tests("CANDESK_PROBE", script("proving").PROBE)
        folder = tempfile.TemporaryDirectory()
        cls.addClassCleanup(folder.cleanup)
        cls.folder = folder.name
        cls.preloaded = Preloaded("refuse_allocation", cls.folder)

    def made(self, word: str, database: bytes, stdin: bytes, **settings: int | str) -> tuple[bool, bytes]:
        """Whether an allocation was refused, and what was reported."""
        words = [self.probe, word, put(self.folder, "database.dbc", database)]
        reached, (status, output, errors) = self.preloaded.run(words, stdin, **settings)
        if (status, errors) != (0, b""):
            self.check(word, f"status {status}, {shown(errors)}")
        return reached, output

    def check_each(self, name: str, word: str, database: bytes, stdin: bytes, number: int, fault_of: FaultOfAll) -> None:
        """Refuses each allocation of the call of this number in turn. `fault_of` returns what is wrong with what was reported."""
        for allocation in range(1, 100_000):
            reached, output = self.made(word, database, stdin, IN_CALL=number, REFUSE_ALLOCATION=allocation)
            fault = fault_of(calls_of(output))
            self.check(f"{name}, allocation {allocation}", fault)
            if not reached:
                break
        print(f"{name}: {allocation - 1} allocations refused in turn")
        # (a count of none would show nothing)
        self.check(name, "no allocation was counted" if allocation == 1 else None)

    def check_all(self, name: str, word: str, stdin: bytes, number: int, fault_of: Callable[[Call], str | None]) -> None:
        """A call all of whose allocations are refused is always out of memory, which has to be a fault."""
        _, output = self.made(word, DATABASE, stdin, IN_CALL=number, REFUSE_ALLOCATION="all")
        found = fault_of(calls_of(output)[number - 1])
        self.check(name, None if found else "a call that never succeeds passes")

    def check_plain(self, word: str, stdin: bytes, times: int) -> None:
        """A call that no session makes."""
        most = {"plans": (1, 0, 0), "pictures": (0, 1, 0), "decode": (0, 0, 1), "open": (MESSAGES, MESSAGES, 0)}.get(word)
        ample = calls_of(self.made(word, DATABASE, stdin)[1])
        # (the database of others is read first)
        ahead = 0 if word in ("read", "open") else 1
        self.check_equal(f"{word}: calls", len(ample), ahead + 2 * times)
        for at in range(ahead, ahead + 2 * times, 2):
            name = f"{word} {at // 2}"
            self.check(name, fault_of_success(ample[at]))
            self.check_equal(f"{name}, meter", ample[at].meter, most)
            self.check_all(name, word, stdin, at + 1, fault_of_success)
            self.check_each(name, word, DATABASE, stdin, at + 1, lambda calls: fault_of_plain(calls[at : at + 2], ample[at], most))

    def check_command(self, before: list[bytes], command: bytes, wanted: list[bytes], most: Meter, word: str = "session") -> None:
        """A command of a session, on one that has done those before. `wanted` are its lines and texts after it."""
        # (the first call opens the session)
        name, number = f"{word}: {command.decode()}", len(before) + 2
        ample = calls_of(self.made(word, DATABASE, b"\n".join([*before, command]))[1])
        last = ample[-2]
        self.check_equal(f"{name}: answers", [it.answer for it in ample], [b"ok"] * number)
        self.check(name, fault_of_success(ample[-1], wanted))
        meter = f"the meter goes from {last.meter} to {ample[-1].meter}"
        self.check_true(name, is_within(last, ample[-1], most), meter)
        twice = b"\n".join([*before, command, command])
        self.check_all(name, word, twice, number, lambda call: fault_of_success(call, wanted))

        def fault_of(calls: list[Call]) -> str | None:
            if calls[: number - 1] != ample[:-1]:
                return "a call before it differs"
            return fault_of_command(last, calls[number - 1 : number + 1], ample[-1], most)

        self.check_each(name, word, DATABASE, twice, number, fault_of)


ADDED = [b"log " + line for line in LINES]


@cases(PLAIN)
class PlainCalls(CallCase):
    def row(self, word: str, stdin: bytes, times: int) -> None:
        self.check_plain(word, stdin, times)


@cases(list(enumerate(ADDED)), lambda count, line: line)
class AddedLines(CallCase):
    def row(self, count: int, line: bytes) -> None:
        self.check_command(ADDED[:count], line, shown_lines(EXAMPLE_TEXT, GROUP_TEXT, count + 1), (0, 0, 1))


@cases(KEPT, lambda before, line: b" ".join([*before, b"and", line]))
class KeptLines(CallCase):
    def row(self, before: list[bytes], line: bytes) -> None:
        texts = [it for kept in (before[-1], line) for it in (kept, kept + TEXTS[kept])]
        self.check_command([b"log " + it for it in before], b"log " + line, texts, (0, 0, 1), "kept")


@cases(EDITS, lambda before, edit, *_: edit)
class Edits(CallCase):
    def row(self, before: list[bytes], edit: bytes, first: bytes, second: bytes, plans: int, lines: int) -> None:
        self.check_command([*ADDED, *before], edit, shown_lines(first, second), (plans, plans, lines))


def fault_of_stream(calls: list[Call]) -> str | None:
    """What is wrong with a streamed log: texts of whole lines are written, and the line that is out of memory is counted."""
    _, call = calls
    whole = len(call.written.splitlines())
    if call.written != b"".join(STREAMED[:whole]):
        return f"{shown(call.written)} is written"
    wanted = (b"%d" % whole, (0, 0, whole)) if whole == len(FRAMES) else (b"90 Memory", (0, 0, whole + 1))
    return None if (call.answer, call.meter) == wanted else f"{call}"


# a log of all frames, and the texts of its lines
LOG = b"\r\n".join(line for line, _ in FRAMES)
STREAMED = [decoded(*it) for it in FRAMES]


class Streams(CallCase):
    def test_streamed_log(self) -> None:
        calls = calls_of(self.made("stream", TWO_BYTES, LOG)[1])
        self.check("stream", fault_of_stream(calls))
        self.check_equal("stream", calls[1].written, b"".join(STREAMED))
        # the first allocation is for the text of the first line, the next for the table of identifiers, at the first data frame
        for allocation, whole in ((1, 0), (2, BEFORE_DATA)):
            _, call = calls_of(self.made("stream", TWO_BYTES, LOG, IN_CALL=2, REFUSE_ALLOCATION=allocation)[1])
            got = (call.written, call.answer, call.meter)
            wanted = (b"".join(STREAMED[:whole]), b"90 Memory", (0, 0, whole + 1))
            self.check_equal(f"stream, its allocation {allocation}", got, wanted)
        self.check_each("stream", "stream", TWO_BYTES, LOG, 2, fault_of_stream)

    def test_served_script(self) -> None:
        """A long script of bad commands takes memory once, before it is read."""
        commands, replies = b"frob\n" * BAD_COMMANDS, b"bad command\n" * BAD_COMMANDS
        for allocation, wanted in ((1, (True, b"", b"90 Memory")), (2, (False, replies, b"%d" % BAD_COMMANDS))):
            reached, output = self.made("serve", DATABASE, commands, IN_CALL=2, REFUSE_ALLOCATION=allocation)
            _, call = calls_of(output)
            self.check_equal(f"bad commands, allocation {allocation}", (reached, call.written, call.answer), wanted)


if __name__ == "__main__":
    main()
