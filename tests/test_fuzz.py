#!/usr/bin/env python3
"""Databases, logs and scripts that are changed at random, judged by what must agree.

What is changed are the examples, and the outside cases. No run may crash, take over a second of processor time (the best of three
counts) or over 100 MB, or write what is no fault line on standard error. And without any answer from outside:

- what `print` writes is printed as it is, and `check`, `dump` and `decode` write the same for it as for the text it was made of;
- a log is decoded the same in pieces of any size and in two halves;
- with --short a frame that is long enough is decoded as it is without;
- an object of --json means what the decoded line does, and the rows of --csv mean what the objects do;
- the objects of `check --json` mean what the lines of `check` do, and mark bytes in the lines that they name;
- the objects of `dump --at` mark bytes that begin with the keyword and end with the name;
- after the commands of any script a session's lines, diagnostics and layout diagrams are those that `decode`, `check` and `dump`
  write for the database that it prints.

CANDESK_FUZZ_MINUTES and CANDESK_FUZZ_SEED are how long this runs, and its seed. A seed gives the same runs as long as the program
and these files stay the same. An input that fails is kept in a folder, whose name is reported.
"""

from __future__ import annotations

import os
import re
import sys
import tempfile
import threading
import time
from random import Random
from resource import struct_rusage
from typing import AnyStr, Final

sys.dont_write_bytecode = True
sys.path.insert(0, os.path.dirname(os.path.realpath(__file__)))

import finding_objects  # noqa: E402
import json_objects  # noqa: E402
from test_support import CASES, EXAMPLES, Case, content, main, program, put  # noqa: E402

MINUTES: Final = float(os.environ.get("CANDESK_FUZZ_MINUTES", "1"))
SEED: Final = int(os.environ.get("CANDESK_FUZZ_SEED", "1"))
# how many inputs may fail before it stops
MOST_FAILURES = 5
# the most bytes of a text, the seconds of a processor and the bytes of memory that a run on it may take, and the seconds after
# which it counts as one that hangs
LONGEST = 10_000
SECONDS = 1
MEMORY = 100_000_000
HANGS = 30
# the most bytes of a line of a log
LONGEST_LINE = 4_096

FAULT = re.compile(rb"candesk: line \d+: [1-6] (Token|Statement|RepeatedSignal|MessagesFull|SignalsFull|Limit)\n")
NUMBERS = (
    b"0 1 2 7 8 15 16 31 63 64 65 255 256 291 999 1785 1786 2047 2048 14280 65535 65536 2147483647 2147483648 "
    b"4294967295 4294967296 -1 1e400 0.5 1E-3 1e36"
).split()
NAMES = [b"A", b"S", b"Speed", b"Wheel", b"M", b"x" * 40]
# the options of `decode` and of `session`, of which one is chosen
OPTIONS: Final[list[list[str]]] = [[], ["--short"]]


class Differs(Exception):
    """What doesn't agree."""


# ---- inputs


def corpus() -> tuple[list[bytes], list[bytes], list[bytes]]:
    """The databases, and the inputs of `decode` and `session`, that are changed."""
    databases: list[bytes] = []
    inputs: list[bytes] = []
    for name in sorted(os.listdir(EXAMPLES)):
        (databases if name.endswith(".dbc") else inputs).append(content(os.path.join(EXAMPLES, name)))
    for case in [os.path.join(CASES, it) for it in sorted(os.listdir(CASES))] if CASES else []:
        databases.append(content(os.path.join(case, "f.dbc")))
        inputs.append(content(os.path.join(case, "stdin")))
    lines = [line for text in inputs for line in text.split(b"\n")]
    # a command of a script that adds a line has one of a log
    logs = [line.removeprefix(b"log ") for line in lines if line.startswith((b"(", b"log ("))]
    edits = [line for line in lines if re.match(rb"(add|remove|change|renumber|rename|set|drop)-?\w* ", line)]
    return [text for text in databases if len(text) <= LONGEST], logs, edits


def somewhere(dice: Random, text: bytes) -> tuple[int, int]:
    first, last = sorted((dice.randrange(len(text) + 1), dice.randrange(len(text) + 1)))
    return first, min(last, first + dice.choice((1, 4, 40, 400)))


def changed(dice: Random, text: bytes, other: bytes) -> bytes:
    """The text with one change."""
    lines = text.split(b"\n")
    at = dice.randrange(len(lines))
    first, last = somewhere(dice, text)
    kind = dice.randrange(12)
    if kind == 0 and text:
        first = dice.randrange(len(text))
        return text[:first] + bytes([text[first] ^ 1 << dice.randrange(8)]) + text[first + 1 :]
    if kind == 1:
        return text[:first] + text[last:]
    if kind == 2:
        return text[:last] + text[first:]
    if kind == 3:
        return b"\n".join(lines[:at] + dice.choice((1, 3, 30)) * [lines[at]] + lines[at + 1 :])
    if kind == 4:
        return b"\n".join(lines[:at] + [dice.choice(other.split(b"\n"))] + lines[at:])
    if kind in (5, 6, 7):
        return replaced(dice, text, rb"\d+(\.\d+)?", NUMBERS)
    if kind in (8, 9):
        return replaced(dice, text, rb"\b[A-Z][a-z]\w*\b|\b[A-Z]\b", NAMES + re.findall(rb"\b[A-Z]\w*\b", text[:2000]))
    if kind == 10:
        return replaced(dice, text, rb"@[01][+-]|\bm\d*M?\b", [b"@0+", b"@1-", b"@0-", b"@1+", b"m0", b"m1M", b"M"])
    dice.shuffle(lines)
    return b"\n".join(lines)


def replaced(dice: Random, text: bytes, pattern: bytes, words: list[bytes]) -> bytes:
    found = list(re.finditer(pattern, text))
    if not found:
        return text
    it = dice.choice(found)
    return text[: it.start()] + dice.choice(words) + text[it.end() :]


def a_database(dice: Random, databases: list[bytes]) -> bytes:
    text = dice.choice(databases)
    for _ in range(dice.choice((0, 1, 1, 2, 3, 8))):
        text = changed(dice, text, dice.choice(databases))[:LONGEST]
    return text


def a_line(dice: Random, text: bytes, logs: list[bytes]) -> bytes:
    """A line of a log, most often with an identifier that the database has."""
    line = dice.choice(logs) if logs else b"(0.0) c 123#00"
    numbers = re.findall(rb"BO_ (\d+)", text)
    if numbers and dice.random() < 0.7:
        number = int(dice.choice(numbers)) ^ (dice.random() < 0.1)
        identifier = b"%08X" % (number & 0x1FFFFFFF) if number >> 31 & 1 else b"%03X" % (number & 0x7FF)
        data = bytes(dice.randrange(256) for _ in range(dice.choice((0, 1, 2, 3, 4, 7, 8, 8, 8)))).hex().upper().encode()
        line = b"(%d.%d) can0 %s#%s" % (dice.randrange(9), dice.randrange(1000), identifier, data)
    line = changed(dice, line, line) if dice.random() < 0.1 else line
    return line.replace(b"\n", b"")[:LONGEST_LINE]


def made_edit(dice: Random, text: bytes) -> bytes:
    """A command on something that the database has."""
    messages = [part for part in re.split(rb"(?m)^(?=BO_ \d)", text) if re.match(rb"BO_ \d", part)]
    if not messages:
        return b"add-message 0 BO_ 291 Wheel: 2 Ecu"
    index = dice.randrange(len(messages))
    head = messages[index].split(b"\n")[0].split()
    signals: list[tuple[bytes, bytes]] = re.findall(rb"(?m)^ (SG_ (\w+) .*)$", messages[index])
    number, (line, name) = head[1], dice.choice(signals or [(b'SG_ S : 0|8@1+ (1,0) [0|0] "" N', b"S")])
    other = dice.choice(NAMES[:5] + [it[1] for it in signals])
    p, q, small = b"%d" % index, b"%d" % dice.randrange(len(signals) + 1), b"%d" % dice.randrange(9)
    forms = [
        b"remove-message " + p,
        b"renumber " + p + b" " + dice.choice([number, b"291", b"2147483648", b"700"]),
        b"change-message " + p + b" Wheel " + small + b" N",
        b"add-message " + p + b" BO_ " + dice.choice([number, b"700"]) + b" Wheel: " + small + b" N",
        b"remove-signal " + p + b" " + name,
        b"rename-signal " + p + b" " + name + b" " + other,
        b"change-signal " + p + b" " + replaced(dice, line, rb"\d+", NUMBERS[:12]),
        b"add-signal " + p + b" " + q + b" " + line.replace(name, other, 1),
        b"set-values VAL_ " + number + b" " + name + b" " + small + b' "z" ;',
        b"set-mux SG_MUL_VAL_ " + number + b" " + name + b" " + other + b" 0-" + small + b";",
        b"drop-mux " + number + b" " + name,
        b"drop-values " + number + b" " + name,
        b"set-table VAL_TABLE_ T 0 \"z\" ;",
    ]
    return dice.choice(forms)


def an_edit(dice: Random, text: bytes, edits: list[bytes]) -> bytes:
    """A command, most often with names and identifiers that the database has."""
    if dice.random() < 0.6:
        return made_edit(dice, text)
    command = dice.choice(edits) if edits else b"remove-message 0"
    names, numbers = re.findall(rb" SG_ (\w+)", text), re.findall(rb"BO_ (\d+)", text)
    if names and dice.random() < 0.6:
        command = replaced(dice, command, rb"\b[A-Z][A-Za-z]*\b(?!_)", names)
    if numbers and dice.random() < 0.6:
        command = re.sub(rb"\b\d{3,}\b", dice.choice(numbers), command)
    return changed(dice, command, command).replace(b"\n", b"") if dice.random() < 0.1 else command


# ---- runs


class Program:
    """The program under test, with a folder for its files."""

    def __init__(self, path: str, folder: str) -> None:
        self.path, self.folder, self.runs = path, folder, 0

    def run(self, words: list[str], text: bytes, stdin: bytes = b"", piece: int | None = None) -> tuple[int, bytes, bytes]:
        """The status and the output of a run on a database, and what that took is judged."""
        self.runs += 1
        database, given = put(self.folder, "f.dbc", text), put(self.folder, "stdin", stdin)
        pieces = (stdin, piece) if piece else None
        words_of_run = [self.path, *words, database]
        status, output, errors, used = ended(words_of_run, given, pieces, self.folder)
        if status not in (0, 1):
            raise Differs(f"{words}: status {status}, {errors[:200]!r}")
        if errors and not FAULT.fullmatch(errors):
            raise Differs(f"{words}: standard error {errors[:200]!r}")
        # (a machine that gives its processors to others counts their time too, so the best of three judges a run that takes long)
        takes = [time_of(used)]
        while takes[-1] > SECONDS and len(takes) < 3:
            takes.append(time_of(ended(words_of_run, given, pieces, self.folder)[3]))
        if min(takes) > SECONDS or used.ru_maxrss * 1024 > MEMORY:
            raise Differs(f"{words}: {min(takes):.1f} s, {used.ru_maxrss // 1024} MB")
        return status, output, errors


def time_of(used: struct_rusage) -> float:
    """The seconds of a processor that a run took."""
    return used.ru_utime + used.ru_stime


def ended(words: list[str], given: str, pieces: tuple[bytes, int] | None, folder: str) -> tuple[int, bytes, bytes, struct_rusage]:
    """Runs the words, with a file or with pieces of bytes on standard input."""
    paths = [os.path.join(folder, name) for name in ("stdout", "stderr")]
    pipe = os.pipe() if pieces else None
    files: list[tuple[object, ...]] = [
        (os.POSIX_SPAWN_DUP2, pipe[0], 0) if pipe else (os.POSIX_SPAWN_OPEN, 0, given, os.O_RDONLY, 0),
        *[(os.POSIX_SPAWN_OPEN, 1 + n, path, os.O_WRONLY | os.O_CREAT | os.O_TRUNC, 0o600) for n, path in enumerate(paths)],
    ]
    pid = os.posix_spawn(words[0], words, os.environ, file_actions=files)
    timer = threading.Timer(HANGS, os.kill, (pid, 9))
    timer.start()
    if pieces and pipe:
        os.close(pipe[0])
        feed(pipe[1], *pieces)
    _, status, used = os.wait4(pid, 0)
    timer.cancel()
    return (os.waitstatus_to_exitcode(status), content(paths[0]), content(paths[1]), used)


def feed(writer: int, data: bytes, piece: int) -> None:
    try:
        for at in range(0, len(data), piece):
            os.write(writer, data[at : at + piece])
    except BrokenPipeError:
        pass
    os.close(writer)


def same(what: str, one: AnyStr, other: AnyStr) -> None:
    if one != other:
        at = next((n for n, both in enumerate(zip(one, other)) if both[0] != both[1]), min(len(one), len(other)))
        raise Differs(f"{what}: {one[max(0, at - 40) : at + 40]!r} and {other[max(0, at - 40) : at + 40]!r}")


# ---- what must agree


def judge_database(program: Program, dice: Random, text: bytes, logs: list[bytes]) -> None:
    status, printed, _ = program.run(["print"], text)
    if status:
        for command in ("check", "dump", "decode", "session"):
            if program.run([command], text)[1]:
                raise Differs(f"{command} writes of a text that is refused")
        judge_fault(program, text)
        return
    same("print of print", program.run(["print"], printed)[1], printed)
    judge_findings(program, text)
    judge_locations(program, text)
    for words in (["check"], ["dump"], ["dump", "--json"]):
        for one, other in zip(program.run(words, text)[:2], program.run(words, printed)[:2]):
            same(f"{' '.join(words)} of the text and of its print", str(one), str(other))
    judge_log(program, dice, text, printed, [a_line(dice, text, logs) for _ in range(dice.choice((1, 3, 20)))])


def judge_findings(program: Program, text: bytes) -> None:
    checked = program.run(["check"], text)[1]
    for command in ("check", "explain"):
        objects = finding_objects.read(program.run([command, "--json"], text)[1])
        same(f"{command} --json and check", b"".join(finding_objects.line_of(one) + b"\n" for one in objects), checked)
        try:
            for one in objects:
                finding_objects.marked(one, text)
        except finding_objects.Wrong as error:
            raise Differs(f"{command} --json: {error}") from error


def judge_locations(program: Program, text: bytes) -> None:
    for one in finding_objects.read(program.run(["dump", "--at"], text)[1]):
        try:
            parts = finding_objects.marked(one, text)
        except finding_objects.Wrong as error:
            raise Differs(f"dump --at: {error}") from error
        keyword = one.get("entry") or ("" if "node" in one else "SG_" if "signal" in one else "BO_")
        name = one.get("node") or one.get("signal") or one.get("message") or ""
        if not parts[0].startswith(keyword.encode()) or not parts[0].endswith(name.encode()):
            raise Differs(f"dump --at: {parts} for {one}")


def judge_fault(program: Program, text: bytes) -> None:
    explained = program.run(["explain"], text)[1].split(b"\n", 1)[0].decode()
    first, *guesses = finding_objects.read(program.run(["check", "--json"], text)[1])
    line = f"line {first['at'][0]['line']}: {first['code']} {first['word']}"
    same("the first fault and its object", line, explained)
    for one in guesses:
        if not one["guess"] or not 0 <= one["at"][0]["from"] <= one["at"][0]["to"] <= len(text):
            raise Differs(f"the guess {one}")


def judge_log(program: Program, dice: Random, text: bytes, printed: bytes, lines: list[bytes]) -> None:
    log = b"".join(line + b"\n" for line in lines)
    decoded = program.run(["decode"], text, log)[1]
    same("decode by the text and by its print", program.run(["decode"], printed, log)[1], decoded)
    same("a log in pieces", program.run(["decode"], text, log, dice.choice((1, 2, 7, 100)))[1], decoded)
    at = dice.randrange(len(lines) + 1)
    halves = [b"".join(line + b"\n" for line in half) for half in (lines[:at], lines[at:])]
    same("two halves of a log", b"".join(program.run(["decode"], text, half)[1] for half in halves), decoded)
    texts = decoded.split(b"\n")
    if len(texts) != len(lines) + 1:
        raise Differs(f"{len(texts) - 1} lines decoded of {len(lines)}")
    short = program.run(["decode", "--short"], text, log)[1].split(b"\n")
    for one, other in zip(texts, short):
        if b":: Wrong data size: " not in one:
            same("a line with and without --short", other, one)
    options = dice.choice(OPTIONS)
    objects = program.run(["decode", "--json", *options], text, log)[1].split(b"\n")
    same("the lines of JSON", str(len(objects)), str(len(texts)))
    for line, one, wanted in zip(lines, objects, short if options else texts):
        same("an object and its decoded line", line_by(one, line.removesuffix(b"\r")), wanted)
    wanted_rows = [row for one in objects if one for row in json_objects.rows_of(json_objects.read(one))]
    rows = json_objects.rows_in(program.run(["decode", "--csv", *options], text, log)[1])
    same("the rows of CSV", str(rows), str([json_objects.HEADER, *wanted_rows]))


def line_by(text: bytes, body: bytes) -> bytes:
    """The decoded line that an object means for a line of a log."""
    try:
        return json_objects.decoded(json_objects.read(text), body)
    except (json_objects.Wrong, ValueError, KeyError) as error:
        raise Differs(f"{text!r} of {body!r}: {error!r}") from error


def judge_session(program: Program, dice: Random, text: bytes, logs: list[bytes], edits: list[bytes]) -> None:
    """A script of edits and lines, and after it all that is shown, compared with what is written for the printed database."""
    options = dice.choice(OPTIONS)
    kept = dice.choice((None, None, 1, 2, 5))
    in_session = options if kept is None else [*options, "--keep", str(kept)]
    lines: list[bytes] = []
    commands: list[bytes] = []
    for _ in range(dice.choice((1, 3, 10))):
        if dice.random() < 0.5:
            # (one final CR is left out of any line of a script)
            line = a_line(dice, text, logs)
            lines.append(line.removesuffix(b"\r"))
            commands.append(b"log " + line)
        else:
            commands.append(an_edit(dice, text, edits))
    status, replies, _ = program.run(["session", *in_session], text, b"".join(it + b"\n" for it in commands))
    if status:
        return

    def answer(question: bytes) -> bytes:
        output = program.run(["session", *in_session], text, b"".join(it + b"\n" for it in [*commands, question]))[1]
        same("the replies before a question", output[: len(replies)], replies)
        return output[len(replies) :]

    printed = answer(b"print").removesuffix(b"ok\n")
    log = b"".join(line + b"\n" for line in (lines if kept is None else lines[-kept:]))
    same("the lines of a session", answer(b"show lines").removesuffix(b"ok\n"), program.run(["decode", *options], printed, log)[1])
    same("the diagnostics of a session", answer(b"show diagnostics").removesuffix(b"ok\n"), program.run(["check"], printed)[1])
    pictures = program.run(["dump"], printed)[1]
    first = answer(b"show layout 0").removesuffix(b"ok\n")
    if not first.startswith(b"refused 20 "):
        same("the first picture of a session", first, pictures[: len(first)])
    elif pictures:
        raise Differs("no picture of the first message in a session")


def kept_of(folder: str) -> str:
    """A folder with the files of a run that differs."""
    kept = tempfile.mkdtemp(prefix="candesk-fuzz-found-")
    for name in ("f.dbc", "stdin", "stdout", "stderr"):
        put(kept, name, content(os.path.join(folder, name)))
    return kept


class Fuzz(Case):
    def test_random_texts(self) -> None:
        dice, failures = Random(SEED), 0
        databases, logs, edits = corpus()
        until = time.monotonic() + 60 * MINUTES
        with tempfile.TemporaryDirectory(prefix="candesk-fuzz-") as folder:
            tested = Program(program(), folder)
            while time.monotonic() < until and failures < MOST_FAILURES:
                text, fault = a_database(dice, databases), None
                try:
                    judge_database(tested, dice, text, logs)
                    judge_session(tested, dice, text, logs, edits)
                except Differs as found:
                    fault = f"{found}; kept in {kept_of(folder)}"
                failures += not self.check(f"seed {SEED}", fault)
        print(f"{tested.runs} runs of {len(databases)} databases, {len(logs)} lines and {len(edits)} edits, changed at random")


if __name__ == "__main__":
    main()
