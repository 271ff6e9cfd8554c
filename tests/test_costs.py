#!/usr/bin/env python3
"""What the program does on an input and on one twice as large.

Each row makes an input of some size and one of twice that size, and counts the instructions of a run on each: by `perf` if it
can count them, else by `valgrind`. A row fails if the larger input takes over 2.3 times as many. What any run takes to start is
counted by a run on the smallest database, and subtracted from both. Rows that are known to cost more are in a list of their own:
they are run and reported as skipped, also if one is within the bound. Other rows count what the lines of a log take in a session or
as objects of JSON or rows of CSV, compared with `decode`: each has a bound of its own. A last row shows that the identifiers of the
rows before do collide if no keys can be drawn: it fails if it is within the bound.
"""

from __future__ import annotations

import os
import random
import re
import shutil
import subprocess
import sys
import tempfile
import unittest
from collections.abc import Callable, Iterable
from typing import ClassVar, Final

sys.dont_write_bytecode = True
sys.path.insert(0, os.path.dirname(os.path.realpath(__file__)))

from test_support import EXAMPLES, ROOT, ProgramCase, cases, compile_c, content, main, put  # noqa: E402

# how many times as many instructions an input of twice the size may take
BOUND = 2.3
HEAD = 'VERSION ""\nNS_ :\nBS_:\nBU_: E\n'
# the seconds after which a run counts as one that hangs
HANGS = 120


class Hangs(Exception):
    """A run that takes longer than any should."""


# ---- inputs: each a command, a database, and what is on standard input


Input = tuple[list[str], str, str]
# what makes an input of a size, and what makes one of its own size
Making = Callable[[int], Input]
Run = Callable[[], Input]
# a signal's name, and what follows it
Signal = tuple[str, str]


def message(signals: list[Signal], number: int = 1, size: int = 8, name: str = "M") -> str:
    """A message of these signals, each with what follows its name, as `: 0|8@1+`."""
    lines = [f"BO_ {number} {name}: {size} E"]
    lines += [f' SG_ {name} {bits} (1,0) [0|0] "" E' for name, bits in signals]
    return "\n".join(lines) + "\n"


def switched(signal: str, switch: str, ranges: list[tuple[int, int]], number: int = 1) -> str:
    """The row that puts a signal under a switch."""
    return f"SG_MUL_VAL_ {number} {signal} {switch} {', '.join(f'{a}-{b}' for a, b in ranges)};\n"


def two_on_a_switch(count: int) -> Input:
    """Two signals on one bit, with ranges that lie between one another's and never meet."""
    text = HEAD + message([("S", "M : 0|8@1+"), ("A", "m0 : 8|8@1+"), ("B", "m0 : 8|8@1+")])
    text += switched("A", "S", [(4 * i, 4 * i + 1) for i in range(count)])
    return ["check"], text + switched("B", "S", [(4 * i + 2, 4 * i + 3) for i in reversed(range(count))]), ""


def many_on_a_switch(count: int, ranges: int) -> Input:
    """Signals on one bit and one switch, each with as many ranges, of which none meet."""
    names = [f"A{i}" for i in range(count)]
    text = HEAD + message([("S", "M : 0|8@1+")] + [(name, "m0 : 8|8@1+") for name in names])
    for index, name in enumerate(names):
        text += switched(name, "S", [(i * count + index, i * count + index) for i in range(ranges)])
    return ["check"], text, ""


def alike_on_a_switch(count: int, ranges: int) -> Input:
    """Signals on one bit and one switch, all with the same ranges."""
    names = [f"A{i}" for i in range(count)]
    text = HEAD + message([("S", "M : 0|8@1+")] + [(name, "m0 : 8|8@1+") for name in names])
    for name in names:
        text += switched(name, "S", [(2 * i, 2 * i) for i in range(ranges)])
    return ["check"], text, ""


def chain(count: int, empty: int) -> str:
    """Signals on one bit, each under the one before, by ranges that hold nothing and one that does."""
    signals = [("S0", "M : 0|8@1+")] + [(f"S{i}", "m1M : 0|8@1+") for i in range(1, count)]
    text = HEAD + message(signals)
    ranges = [(9, 3)] * empty + [(1, 1)]
    for i in range(1, count):
        text += switched(f"S{i}", f"S{i - 1}", ranges)
    return text


def checked_chain(count: int, empty: int) -> Input:
    return ["check"], chain(count, empty), ""


def chain_apart(count: int) -> Input:
    """Signals each under the one before, and each with a bit of its own."""
    signals = [("S0", "M : 0|1@1+")] + [(f"S{i}", f"m1M : {i}|1@1+") for i in range(1, count)]
    text = HEAD + message(signals, size=count // 8 + 1)
    return ["check"], text + "".join(switched(f"S{i}", f"S{i - 1}", [(1, 1)]) for i in range(1, count)), ""


def frames(count: int, data: str = "0102030405060708") -> str:
    return "".join(f"({i}.5) can0 001#{data}\n" for i in range(count))


def chain_in_a_log(count: int, lines: int) -> Input:
    """Lines of a message whose signals are each under the one before."""
    return ["decode"], chain(count, 0), frames(lines, "0101010101010101")


def entries_in_a_log(count: int, lines: int, first: tuple[int, ...] = (0, 1)) -> Input:
    """A row of many named values, of which a log shows the last."""
    text = HEAD + message([("A", ": 0|32@1+")], size=4)
    text += "VAL_ 1 A " + " ".join(f'{i} "v"' for i in (*first, *range(2, count))) + " ;\n"
    return ["decode"], text, frames(lines, (count - 1).to_bytes(4, "little").hex())


def ranges_in_a_log(count: int, lines: int) -> Input:
    """A signal under a switch with many ranges, of which a log shows the last."""
    text = HEAD + message([("S", "M : 0|32@1+"), ("A", "m0 : 32|8@1+")], size=5)
    text += switched("A", "S", [(2 * i, 2 * i) for i in range(count)])
    return ["decode"], text, frames(lines, (2 * count - 2).to_bytes(4, "little").hex() + "07")


def long_log(lines: int) -> Input:
    text = HEAD + message([(f"A{i}", f": {8 * i}|8@1+") for i in range(8)])
    return ["decode"], text, frames(lines)


def many_messages(count: int, command: str) -> Input:
    text = HEAD
    for number in range(count):
        text += message([(f"A{i}", f": {4 * i}|8@1+") for i in range(4)], number, 8, f"M{number}")
    return [command], text, ""


def many_comments(count: int, command: str) -> Input:
    signals = [(f"A{i}", f": {i}|1@1+") for i in range(50)]
    text = HEAD
    for number in range(count // 50):
        text += message(signals, number, 8, f"M{number}")
    for number in range(count // 50):
        text += "".join(f'CM_ SG_ {number} A{i} "what it is";\n' for i in range(50))
    return [command], text, ""


def explained_rows(count: int) -> Input:
    """Messages of a signal with a row of its own, which names a value that the signal never has."""
    text = HEAD
    for number in range(count):
        text += message([("A", ": 0|8@1+")], number, 8, f"M{number}")
    text += "".join(f'VAL_ {number} A 256 "far" ;\n' for number in range(count))
    return ["explain"], text, ""


def many_edits(count: int) -> Input:
    """A session in which one signal's scale is changed again and again, and a few lines are kept."""
    text = HEAD + message([("A", ": 0|8@1+")])
    script = frames(20).replace("(", "log (")
    script += "".join(f'change-signal 0 SG_ A : 0|8@1+ ({i % 9 + 1},0) [0|0] "" E\n' for i in range(count))
    return ["session"], text, script


def signals_of_one_number(count: int, signals: int) -> Input:
    """Messages of one number, each with as many signals, and a value description for each signal. Names are alike except for a
    number in the middle."""
    names = [f"Cell{i:05d}_Voltage" for i in range(signals)]
    text = HEAD + "".join(message([(name, f": {i}|1@1+") for i, name in enumerate(names)], 1, 8, f"M{m}") for m in range(count))
    return ["check"], text + "".join(f'VAL_ 1 {name} 0 "off" ;\n' for name in names for _ in range(count)), ""


def numbers_of_signals(count: int, signals: int) -> Input:
    """Messages of a number each, with as many signals, and a value description for each signal."""
    names = [f"Cell{i:05d}_Voltage" for i in range(signals)]
    text = HEAD + "".join(message([(name, f": {i}|1@1+") for i, name in enumerate(names)], m, 8, f"M{m}") for m in range(count))
    return ["check"], text + "".join(f'VAL_ {m} {name} 0 "off" ;\n' for m in range(count) for name in names), ""


def identifiers_in_a_session(identifiers: list[int], *options: str) -> Input:
    """Lines of a log with these identifiers of 29 bits, one after another."""
    script = "".join(f"log ({at}.5) can0 {it:08X}#01\n" for at, it in enumerate(identifiers))
    return ["session", *options], HEAD + message([("A", ": 0|8@1+")]), script


def colliding(count: int) -> list[int]:
    """Identifiers that are close together in a hash table without keys of its own, if it has two to four places for each."""
    with tempfile.TemporaryDirectory() as folder:
        made = f"{folder}/colliding"
        compile_c(["-O2", "-o", made, f"{ROOT}/tests/colliding.c"])
        ran = subprocess.run([made, str(count), str((2 * count).bit_length())], capture_output=True, text=True, check=True)
    return [int(it, 16) for it in ran.stdout.split()]


def scattered(count: int) -> list[int]:
    """Different identifiers, far apart."""
    return [at * 0x9E3779B1 % (1 << 29) for at in range(count)]


def group_messages(count: int) -> str:
    """Messages of a J1939 group each, with an attribute for each signal before those that make them groups."""
    numbers = [0x98F000FE + (index << 8) for index in range(count)]
    signals = [(f"S{i}", f": {16 * i}|16@1+") for i in range(4)]
    text = HEAD + "".join(message(signals, number, 8, f"M{index}") for index, number in enumerate(numbers))
    text += 'BA_DEF_ SG_ "SPN" INT 0 524287;\nBA_DEF_ BO_ "VFrameFormat" ENUM "StandardCAN","ExtendedCAN","reserved","J1939PG";\n'
    text += 'BA_DEF_DEF_ "SPN" 0;\nBA_DEF_DEF_ "VFrameFormat" "StandardCAN";\n'
    text += "".join(f'BA_ "SPN" SG_ {number} {name} {100 + i};\n' for number in numbers for i, (name, _) in enumerate(signals))
    return text + "".join(f'BA_ "VFrameFormat" BO_ {number} 3;\n' for number in numbers)


def group_frames(groups: int, lines: int) -> str:
    """Lines with frames of that many groups in turn, from another source than the messages name."""
    return "".join(f"({at}.5) can0 {0x18F00021 + (at % groups << 8):08X}#0102030405060708\n" for at in range(lines))


def to_json(made: Input) -> Input:
    """The same input of `decode`, to objects of JSON."""
    words, database, given = made
    return [*words, "--json"], database, given


def to_csv(made: Input) -> Input:
    """The same, to rows of CSV."""
    words, database, given = made
    return [*words, "--csv"], database, given


def to_locations(made: Input) -> Input:
    """The same input of `dump`, to the locations of names."""
    words, database, given = made
    return [*words, "--at"], database, given


def decoded_groups(count: int, lines: int) -> Input:
    return ["decode"], group_messages(count), group_frames(count, lines)


def driven(example: str) -> Input:
    """The log of an example again and again."""
    database, log = (content(f"{EXAMPLES}/{example}.{it}").decode() for it in ("dbc", "log"))
    return ["decode"], database, 200 * log


def json_groups() -> Input:
    return to_json(decoded_groups(400, 4_000))


def csv_groups() -> Input:
    return to_csv(decoded_groups(400, 4_000))


def kept_groups(count: int, lines: int) -> Input:
    """The lines of `decoded_groups` in a session."""
    return ["session"], group_messages(count), group_frames(count, lines).replace("(", "log (")


def groups_decoded_again(count: int, lines: int) -> Input:
    """Lines of one group in a session, all of which an edit touches."""
    edit = f'change-signal {0x98F000FE} SG_ S0 : 0|16@1+ (2,0) [0|0] "" E\n'
    return ["session"], group_messages(count), group_frames(1, lines).replace("(", "log (") + edit


# ---- texts of one kind of statement, or of one kind of token


BYTE = [("A", ": 0|8@1+")]


def numbers(count: int) -> list[int]:
    """Message numbers: of 11 bits, and when these run out of 29."""
    return [it if it < 2048 else it | 1 << 31 for it in range(count)]


def attributes(count: int, names: int) -> str:
    """Values of so many attributes of one message, in turn."""
    text = HEAD + message(BYTE) + "".join(f'BA_DEF_ BO_ "a{i}" INT 0 9;\n' for i in range(names))
    return text + "".join(f'BA_ "a{i % names}" BO_ 1 {i % 9};\n' for i in range(count))


def symbols(count: int) -> str:
    return 'VERSION ""\nNS_ :\n' + "".join(f"\tS{i}_\n" for i in range(count)) + "BS_:\nBU_: E\n"


def nodes(count: int) -> str:
    return 'VERSION ""\nNS_ :\nBS_:\nBU_: E ' + " ".join(f"N{i}" for i in range(count)) + "\n"


def messages_named(count: int, name: str) -> str:
    return HEAD + "".join(message(BYTE, number, 8, name.format(number)) for number in numbers(count))


def formats(count: int, messages: int) -> str:
    """Frame formats with many names, of which the last makes all of them J1939 messages."""
    text = HEAD + "".join(message(BYTE, 0x98F000FE + (index << 8), 8, f"M{index}") for index in range(messages))
    names = ",".join(f'"f{i}"' for i in range(count - 1))
    return text + f'BA_DEF_ BO_ "VFrameFormat" ENUM {names},"J1939PG";\nBA_DEF_DEF_ "VFrameFormat" "J1939PG";\n'


def receivers(count: int, known: bool) -> str:
    """A signal with many receivers, which are nodes, or aren't."""
    names = [f"N{i}" for i in range(count)]
    signal = f'BO_ 1 M: 8 E\n SG_ A : 0|8@1+ (1,0) [0|0] "" {",".join(names)}\n'
    return (nodes(count) if known else HEAD) + signal


def entries_of_one_signal(count: int, kind: str) -> str:
    """Entries for one signal again and again."""
    text = HEAD + message([("S", "M : 0|8@1+"), ("A", "m0 : 8|8@1+")])
    if kind == "VAL_":
        return text + "".join(f'VAL_ 1 A {i % 200} "v" ;\n' for i in range(count))
    return text + "".join(switched("A", "S", [(i % 200, i % 200)]) for i in range(count))


def kept_words(count: int) -> str:
    return HEAD + "BO_TX_BU_ 1 : " + ",".join("E" * count) + ";\n"


def long_numerals(count: int) -> str:
    return HEAD + message(BYTE) + "VAL_ 1 A " + " ".join(f'{"0" * 200}{i} "v"' for i in range(count)) + " ;\n"


def refused_early(count: int) -> str:
    """A text with a fault, and many statements after it."""
    return messages_named(1, "M{}") + "VAL_ 1 A 0 ;\n" + "".join(f'CM_ "x{i}";\n' for i in range(count))


def overlapping(count: int) -> str:
    signals = [(f"A{i}", ": 0|1@1+") for i in range(60)]
    return HEAD + "".join(message(signals, number, 8, f"M{number}") for number in range(count))


def lines_without_frames(count: int) -> str:
    lines = ["(1.0) can0 " + "#" * 4_000, " " * 4_000, "(" * 4_000, "(1.0) " + "x" * 3_990, "(" + "1" * 3_900 + ".5) c 1#"]
    return "".join(lines[i % len(lines)] + "\n" for i in range(count))


def unknown_frames(count: int) -> str:
    return "".join(f"({i}.000001) can0 {i % 2048:03X}#0011223344556677\n" for i in range(count))


def added_messages(count: int) -> Input:
    """A session to which messages are added, each of which copies the database."""
    return ["session"], HEAD, "".join(f"add-message {i} BO_ {i} M{i}: 8 E\n" for i in range(count))


def values_of_messages(count: int, command: str, values: list[int] | None = None) -> Input:
    """Messages of one number, whose signal has one entry with many values, in rising order unless these are given."""
    text = HEAD + "".join(message([("A", ": 0|32@1+")], 1, 8, f"M{i}") for i in range(count))
    return [command], text + "VAL_ 1 A " + " ".join(f'{i} "v"' for i in values or range(4 * count)) + " ;\n", ""


def mixed(values: Iterable[int]) -> list[int]:
    """Values in no order, the same each time."""
    all_values = list(values)
    random.Random(1).shuffle(all_values)
    return all_values


def mixed_values_of_messages(count: int, command: str) -> Input:
    """The same with the values in no order."""
    return values_of_messages(count, command, mixed(range(4 * count)))


def values_out_of_range_of_messages(count: int, beyond: int) -> Input:
    """The same, some of the values such that the signal can't have them."""
    return values_of_messages(count, "check", mixed([*range(4 * count - beyond), *range(1 << 40, (1 << 40) + beyond)]))


def repeated_value_of_messages(count: int) -> Input:
    """The same, one value a second time."""
    return values_of_messages(count, "check", mixed([*range(4 * count - 1), 0]))


def ranges_of_messages(count: int, command: str) -> Input:
    """Messages of one number, whose signal has one entry with many ranges."""
    signals = [("S", "M : 0|32@1+"), ("A", "m0 : 32|8@1+")]
    text = HEAD + "".join(message(signals, 1, 8, f"M{i}") for i in range(count))
    return [command], text + switched("A", "S", [(2 * i, 2 * i) for i in range(4 * count)]), ""


# names, commands, and what makes a text of a size
TEXTS: Final[list[tuple[str, str, Callable[[int], str]]]] = [
    ("attributes of one message", "check", lambda n: attributes(1_000 * n, 1_000 * n)),
    ("one attribute again and again", "check", lambda n: attributes(2_000 * n, 1)),
    ("symbols", "print", lambda n: symbols(5_000 * n)),
    ("nodes", "check", lambda n: nodes(5_000 * n)),
    ("messages of one name", "check", lambda n: messages_named(2_000 * n, "M")),
    ("messages of long names that begin alike", "check", lambda n: messages_named(1_000 * n, "A" * 200 + "{}")),
    ("frame formats of one message", "check", lambda n: formats(5_000 * n, 1)),
    ("frame formats of many messages", "check", lambda n: formats(500 * n, 500 * n)),
    ("receivers that are nodes", "check", lambda n: receivers(2_000 * n, True)),
    ("receivers that are no nodes", "check", lambda n: receivers(2_000 * n, False)),
    ("rows of multiplexing of one signal", "check", lambda n: entries_of_one_signal(2_000 * n, "SG_MUL_VAL_")),
    ("rows of named values of one signal", "check", lambda n: entries_of_one_signal(2_000 * n, "VAL_")),
    ("a long comment", "print", lambda n: HEAD + 'CM_ "' + "x" * 200_000 * n + '";\n'),
    ("a comment of quotes", "print", lambda n: HEAD + 'CM_ "' + '\\"x' * 50_000 * n + '";\n'),
    ("remarks", "check", lambda n: HEAD + "//\n" * 50_000 * n),
    ("a long name", "check", lambda n: HEAD + message([("A" * 100_000 * n, ": 0|8@1+")])),
    ("kept statements", "print", lambda n: HEAD + "".join(f"BO_TX_BU_ {i} : E;\n" for i in range(3_000 * n))),
    ("a kept statement of many words", "print", lambda n: kept_words(20_000 * n)),
    ("numerals with many zeros", "check", lambda n: long_numerals(500 * n)),
    # (both sizes past that from which on the allocator takes a longer way)
    ("a fault at the end", "explain", lambda n: messages_named(4_000 * n, "M{}") + "BO_ x\n"),
    ("a fault at the front", "explain", lambda n: refused_early(5_000 * n)),
    ("messages of 60 signals on one bit", "check", lambda n: overlapping(10 * n)),
]


def with_text(command: str, make: Callable[[int], str]) -> Making:
    return lambda size: ([command], make(size), "")


# the rows that must be within the bound: a name, and what makes an input of a size
ROWS: Final[list[tuple[str, Making]]] = [
    *[(f"{name}, {command}", with_text(command, make)) for name, command, make in TEXTS],
    ("long lines without frames", lambda n: (["decode"], HEAD, lines_without_frames(100 * n))),
    ("frames of no message", lambda n: (["decode"], HEAD, unknown_frames(5_000 * n))),
    ("two signals, many ranges of one switch", lambda n: two_on_a_switch(1_000 * n)),
    ("250 signals, many ranges of one switch", lambda n: many_on_a_switch(250, 32 * n)),
    ("250 signals, the same ranges of one switch", lambda n: alike_on_a_switch(250, 32 * n)),
    ("a chain of 100 switches, many empty ranges", lambda n: checked_chain(100, 64 * n)),
    ("a row of many named values under a log", lambda n: entries_in_a_log(1_000 * n, 500 * n)),
    ("a row of named values in no order under a log", lambda n: entries_in_a_log(1_000 * n, 500 * n, (1, 0))),
    ("a long log, to JSON", lambda n: to_json(long_log(5_000 * n))),
    ("long lines without frames, to JSON", lambda n: to_json((["decode"], HEAD, lines_without_frames(100 * n)))),
    ("many messages, to JSON", lambda n: to_json(many_messages(500 * n, "decode"))),
    ("a row of many named values under a log, to JSON", lambda n: to_json(entries_in_a_log(1_000 * n, 500 * n))),
    ("a long log, to CSV", lambda n: to_csv(long_log(5_000 * n))),
    ("many messages, to CSV", lambda n: to_csv(many_messages(500 * n, "decode"))),
    ("a row of many named values under a log, to CSV", lambda n: to_csv(entries_in_a_log(1_000 * n, 500 * n))),
    ("many ranges of one row under a log", lambda n: ranges_in_a_log(1_000 * n, 500 * n)),
    ("a chain of switches under a log", lambda n: chain_in_a_log(50 * n, 100)),
    ("a long log", lambda n: long_log(5_000 * n)),
    ("many messages, checked", lambda n: many_messages(500 * n, "check")),
    ("many rows of named values, explained", lambda n: explained_rows(1_000 * n)),
    ("many messages, printed", lambda n: many_messages(500 * n, "print")),
    ("many messages, drawn", lambda n: many_messages(250 * n, "dump")),
    ("many messages, as objects", lambda n: to_json(many_messages(250 * n, "dump"))),
    ("many comments, as objects", lambda n: to_json(many_comments(2_000 * n, "dump"))),
    ("many messages, as locations", lambda n: to_locations(many_messages(500 * n, "dump"))),
    ("many comments, as locations", lambda n: to_locations(many_comments(2_000 * n, "dump"))),
    ("attributes of one message, as objects", lambda n: to_json((["dump"], attributes(2_000 * n, 10), ""))),
    ("many comments, checked", lambda n: many_comments(2_000 * n, "check")),
    ("many comments, printed", lambda n: many_comments(2_000 * n, "print")),
    ("a session of edits", lambda n: many_edits(200 * n)),
    ("messages of one number with 30 signals", lambda n: signals_of_one_number(40 * n, 30)),
    ("messages of one number with 34 signals", lambda n: signals_of_one_number(40 * n, 34)),
    ("many messages of one number with a signal", lambda n: signals_of_one_number(500 * n, 1)),
    ("messages of 32 signals with names alike", lambda n: numbers_of_signals(40 * n, 32)),
    ("messages of 33 signals with names alike", lambda n: numbers_of_signals(40 * n, 33)),
    ("named values of messages of one number", lambda n: values_of_messages(250 * n, "decode")),
    ("ranges of messages of one number", lambda n: ranges_of_messages(250 * n, "decode")),
    ("named values of messages of one number, checked", lambda n: values_of_messages(250 * n, "check")),
    ("named values of messages of one number in no order, checked", lambda n: mixed_values_of_messages(250 * n, "check")),
    ("named values of messages of one number in no order, explained", lambda n: mixed_values_of_messages(250 * n, "explain")),
    ("named values of messages of one number, one out of range", lambda n: values_out_of_range_of_messages(250 * n, 1)),
    ("named values of messages of one number, one of them twice", lambda n: repeated_value_of_messages(250 * n)),
    ("named values of messages of one number, in a session", lambda n: values_of_messages(250 * n, "session")),
    ("ranges of messages of one number, checked", lambda n: ranges_of_messages(250 * n, "check")),
    ("lines of J1939 groups in a session", lambda n: kept_groups(200 * n, 2_000 * n)),
    ("lines of a J1939 group decoded again after an edit", lambda n: groups_decoded_again(200 * n, 2_000 * n)),
    ("identifiers of a session's log", lambda n: identifiers_in_a_session(scattered(5_000 * n))),
    ("identifiers of a session's log, few kept", lambda n: identifiers_in_a_session(scattered(5_000 * n), "--keep", "100")),
    ("identifiers of a session's log, many kept", lambda n: identifiers_in_a_session(scattered(5_000 * n), "--keep", "4000")),
]

# those that need a C compiler: the count of the first shows that the index of a session's log is hashed with keys
COMPILED: Final[list[tuple[str, Making]]] = [
    ("identifiers that collide without keys", lambda n: identifiers_in_a_session(colliding(10_000 * n))),
    ("identifiers that collide, many kept", lambda n: identifiers_in_a_session(colliding(10_000 * n), "--keep", "8000")),
]

# the rows of lines that may take that many times what the same lines take in another run: a name, the bound, the other run, the run
COMPARED: Final[list[tuple[str, float, Run, Run]]] = [
    ("lines of J1939 groups in a session, beside decode", 2.1, lambda: decoded_groups(400, 4_000), lambda: kept_groups(400, 4_000)),
    ("lines to JSON, beside decode", 1.5, lambda: long_log(5_000), lambda: to_json(long_log(5_000))),
    ("lines of the car to JSON, beside decode", 1.5, lambda: driven("car"), lambda: to_json(driven("car"))),
    ("lines of J1939 groups to JSON, beside decode", 1.5, lambda: decoded_groups(400, 4_000), json_groups),
    ("lines to CSV, beside decode", 2, lambda: long_log(5_000), lambda: to_csv(long_log(5_000))),
    ("lines of the car to CSV, beside decode", 2, lambda: driven("car"), lambda: to_csv(driven("car"))),
    ("lines of J1939 groups to CSV, beside decode", 2, lambda: decoded_groups(400, 4_000), csv_groups),
]

# the rows that are known to cost more
KNOWN: Final[list[tuple[str, Making]]] = [
    ("messages added in a session: each edit copies the database", lambda n: added_messages(200 * n)),
    ("a chain of switches, checked: the ways up are made for each signal", lambda n: chain_apart(200 * n)),
]


# ---- counting


def tool() -> str | None:
    """What counts instructions here, if anything does."""
    if shutil.which("perf"):
        run = subprocess.run(["perf", "stat", "-x,", "-e", "instructions:u", "true"], capture_output=True, text=True, check=False)
        if re.match(r"\d+,", run.stderr):
            return "perf"
    return "valgrind" if shutil.which("valgrind") else None


class Counter:
    """Counts the instructions of runs of a program."""

    def __init__(self, program: str, folder: str, by: str | None, library: str | None = None) -> None:
        self.program = program
        self.folder = folder
        self.perf = by == "perf"
        self.library = library
        self.least: dict[str, int] = {}

    def run(self, words: list[str], database: str, given: str) -> int:
        """The instructions of one run, whatever it writes."""
        path = put(self.folder, "a.dbc", database.encode())
        environment = {**os.environ, "LD_PRELOAD": self.library} if self.library else None
        if self.perf:
            front = ["perf", "stat", "-x,", "-e", "instructions:u"]
        else:
            front = ["valgrind", "--tool=callgrind", f"--callgrind-out-file={os.devnull}"]
        try:
            run = subprocess.run(
                [*front, self.program, *words, path], input=given, stdout=subprocess.DEVNULL, stderr=subprocess.PIPE,
                encoding="ascii", errors="replace", timeout=HANGS, check=False, cwd=self.folder, env=environment,
            )
        except subprocess.TimeoutExpired as error:
            raise Hangs from error
        found = re.search(r"^(\d+),.*instructions" if self.perf else r"Collected : (\d+)", run.stderr, re.MULTILINE)
        if not found or run.returncode not in (0, 1):
            raise AssertionError(f"the run of {' '.join(words)} counts nothing:\n{run.stderr[-2000:]}")
        return int(found.group(1))

    def of_input(self, words: list[str], database: str, given: str) -> int:
        """The instructions that standard input takes."""
        return max(self.run(words, database, given) - self.run(words, database, ""), 1)

    def count(self, words: list[str], database: str, given: str) -> int:
        """The instructions of a run, without those that any run takes."""
        if words[0] not in self.least:
            self.least[words[0]] = self.run(words, HEAD, "")
        return max(self.run(words, database, given) - self.least[words[0]], 1)


def factor(counter: Counter, make: Making) -> tuple[float, str]:
    """How many times as many instructions twice the size takes, and the counts and sizes in words."""
    counts, sizes = [], []
    for size in (1, 2):
        words, database, given = make(size)
        sizes.append((len(database) + len(given)) / 1_000)
        counts.append(counter.count(words, database, given))
    counted = f"{sizes[0]:.0f} to {sizes[1]:.0f} KB: {counts[0] / 1e6:.1f} to {counts[1] / 1e6:.1f} million"
    return counts[1] / counts[0], counted


class CostCase(ProgramCase):
    """Rows of which the instructions are counted."""

    by: ClassVar[str]
    counter: ClassVar[Counter]

    @classmethod
    def setUpClass(cls) -> None:
        super().setUpClass()
        by = tool()
        if not by:
            raise unittest.SkipTest("neither perf nor valgrind counts instructions here")
        cls.by, cls.counter = by, Counter(cls.program, cls.folder, by)

    def factor(self, name: str, make: Making, counter: Counter | None = None) -> float:
        """How many times as many instructions twice the size takes, which is reported."""
        try:
            times, counts = factor(counter or self.counter, make)
        except Hangs:
            times, counts = float("inf"), f"over {HANGS} seconds"
        print(f"{times:7.2f} times  {name} ({counts}, by {self.by})", flush=True)
        return times


@cases(ROWS)
class Rows(CostCase):
    def row(self, name: str, make: Making) -> None:
        self.check_true(name, self.factor(name, make) <= BOUND, f"over {BOUND} times")


@cases(COMPILED)
class Colliding(CostCase):
    """Identifiers that collide in a hash table without keys."""

    def row(self, name: str, make: Making) -> None:
        self.check_true(name, self.factor(name, make) <= BOUND, f"over {BOUND} times")

    def test_without_random_bytes(self) -> None:
        """Without random bytes there are no keys, and the identifiers do collide."""
        name = "identifiers that collide, without random bytes"
        library = f"{self.folder}/no_random.so"
        compile_c(["-O2", "-shared", "-fPIC", "-o", library, f"{ROOT}/tests/no_random.c"])
        counter = Counter(self.program, self.folder, self.by, library)
        times = self.factor(name, lambda n: identifiers_in_a_session(colliding(10_000 * n)), counter)
        self.check_true(name, times > BOUND, "they don't collide, so the rows with keys show nothing")


@cases(KNOWN)
class Known(CostCase):
    """Rows that are known to cost more: they are reported, and neither pass nor fail."""

    def row(self, name: str, make: Making) -> None:
        is_within = self.factor(name, make) <= BOUND
        self.skipTest("known, and within the bound now: move it" if is_within else "known to cost more")


@cases(COMPARED)
class Compared(CostCase):
    """Lines in a run, compared with the same lines in another one."""

    def row(self, name: str, bound: float, other: Run, make: Run) -> None:
        try:
            counts = [self.counter.of_input(*it()) for it in (other, make)]
            times, words = counts[1] / counts[0], f"{counts[0] / 1e6:.1f} and {counts[1] / 1e6:.1f} million"
        except Hangs:
            times, words = float("inf"), f"over {HANGS} seconds"
        print(f"{times:7.2f} times  {name} ({words}, by {self.by})", flush=True)
        self.check_true(name, times <= bound, f"over {bound} times")


if __name__ == "__main__":
    main()
