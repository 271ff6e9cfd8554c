#!/usr/bin/env python3
"""Runs of the program on words, a database and standard input, each with what it has to write and how it has to end.

The words name the database DB. Rows of single commands are in `test_decode_rows`, `test_check_rows` and `test_layout_rows`.
"""

from __future__ import annotations

import os
import re
import sys

sys.dont_write_bytecode = True
sys.path.insert(0, os.path.dirname(os.path.realpath(__file__)))

from row_texts import WHEEL, WHEEL_LAYOUT  # noqa: E402
from test_support import DEVICE, DONE, EMPTY, HAS_DIAGNOSTICS, REFUSED, USAGE, Ended  # noqa: E402
from test_support import ProgramCase, cases, main, put, run  # noqa: E402

# what --version prints: with the first digits of the digest of the sources if the program was proved as a whole
VERSION = re.compile(rb"candesk \d+\.\d+\.\d+ \(([0-9a-f]{12}|development)\)\n")

# statements in any order and format, and their canonical text
MIXED = (
    b'// a remark\r\nCM_ SG_ 291 Speed "of a\nwheel" ; BU_ : Ecu   Gate BO_ 291 Wheel: 02 Ecu SG_ Speed:0|16@1+'
    b'(2.50,-05E0)[0|1E3]"rpm"Ecu Gate VAL_ 291 Speed 0"off"+1"on";'
)
CANONICAL = (
    b'VERSION ""\nNS_ :\nBS_:\nBU_: Ecu Gate\nBO_ 291 Wheel: 2 Ecu\n'
    b' SG_ Speed : 0|16@1+ (2.5,-5) [0|1000] "rpm" Ecu,Gate\n'
    b'CM_ SG_ 291 Speed "of a\nwheel";\nVAL_ 291 Speed 0 "off" 1 "on" ;\n'
)

# words that are rejected
BAD_WORDS = [
    "",
    "frob",
    "check",
    "check DB DB",
    "check --frob DB",
    "check --json",
    "check --json=1 DB",
    "check --json --json DB",
    "check --csv DB",
    "check --at DB",
    "check --short DB",
    "check -V DB",
    "decode",
    "decode DB DB",
    "decode --frob DB",
    "decode --short",
    "decode --short --short DB",
    "decode --short=1 DB",
    "decode --shor DB",
    "decode --json",
    "decode --json --json DB",
    "decode --json=1 DB",
    "decode --csv --csv DB",
    "decode --csv --json DB",
    "decode --short --json --csv DB",
    "decode --at DB",
    "decode --version",
    "decode -V DB",
    "decode --version DB",
    "dump",
    "dump DB DB",
    "dump --frob DB",
    "dump --json",
    "dump --json --json DB",
    "dump --json=1 DB",
    "dump --json --csv DB",
    "dump --at",
    "dump --at --at DB",
    "dump --at=1 DB",
    "dump --json --at DB",
    "dump --csv DB",
    "dump --short DB",
    "dump -V DB",
    "explain",
    "explain DB DB",
    "explain --frob DB",
    "explain --json",
    "explain --json=1 DB",
    "explain --json DB DB",
    "explain --json --json DB",
    "explain --csv DB",
    "explain --at DB",
    "explain --short DB",
    "print",
    "print DB DB",
    "print --frob DB",
    "print --json DB",
    "print --csv DB",
    "print --at DB",
    "print --short DB",
    "print -V",
    "session",
    "session DB DB",
    "session --frob DB",
    "session --json DB",
    "session --csv DB",
    "session --at DB",
    "session --short",
    "session --keep",
    "session --keep DB",
    "session --keep 0 DB",
    "session --keep 1048577 DB",
    "session --keep 18446744073709551617 DB",
    "session --keep=-1 DB",
    "session --keep x DB",
    "session --keep 1.5 DB",
    "session --keep= DB",
    "session --keep 1 --keep 2 DB",
    "session --keep 1",
    "check --keep 1 DB",
    "decode --keep 1 DB",
    "dump --keep 1 DB",
    "print --keep 1 DB",
    "--keep 1 session DB",
    "--short decode DB",
    "--frob",
]

# words, and a part of what is written
HELP_WORDS = [
    ("--help", "Usage: candesk <COMMAND>"),
    ("-h", "Usage: candesk <COMMAND>"),
    ("help", "Usage: candesk <COMMAND>"),
    ("check --help", "Usage: candesk check [OPTIONS] <FILE>"),
    ("check -h", "Usage: candesk check [OPTIONS] <FILE>"),
    ("help check", "Usage: candesk check [OPTIONS] <FILE>"),
    ("check --help", "a line for each problem"),
    ("check --help", "--json"),
    ("check --help", "$ candesk check"),
    ("decode --help", "Usage: candesk decode [OPTIONS] <FILE>"),
    ("decode -h", "Usage: candesk decode [OPTIONS] <FILE>"),
    ("help decode", "Usage: candesk decode [OPTIONS] <FILE>"),
    ("decode --help", "Reads a log as `candump -L` writes it"),
    ("decode --help", "followed by the decoded message"),
    ("decode --help", "$ candesk decode"),
    ("decode --help", "--short"),
    ("decode --help", "--json"),
    ("decode --help", "--csv"),
    ("dump --help", "Usage: candesk dump [OPTIONS] <FILE>"),
    ("dump -h", "Usage: candesk dump [OPTIONS] <FILE>"),
    ("help dump", "Usage: candesk dump [OPTIONS] <FILE>"),
    ("dump --help", "--json"),
    ("dump --help", "--at"),
    ("dump --help", "a layout diagram of each message"),
    ("dump --help", "$ candesk dump"),
    ("explain --help", "Usage: candesk explain [OPTIONS] <FILE>"),
    ("help explain", "Usage: candesk explain [OPTIONS] <FILE>"),
    ("explain --help", "--json"),
    ("explain --help", "$ candesk explain"),
    ("session --help", "Usage: candesk session [OPTIONS] <FILE>"),
    ("help session", "Usage: candesk session [OPTIONS] <FILE>"),
    ("session --help", "Reads a script, one command per line"),
    ("session --help", "$ candesk session"),
    ("session --help", "--short"),
    ("session --help", "--keep <N>"),
    ("print --help", "Usage: candesk print <FILE>"),
    ("print -h", "Usage: candesk print <FILE>"),
    ("help print", "Usage: candesk print <FILE>"),
    ("print --help", "Writes the database in its one canonical form"),
    ("print --help", "$ candesk print"),
]

# databases that are printed, and those that each command rejects, with the fault
PRINTED = [(b"", EMPTY), (MIXED, CANONICAL), (CANONICAL, CANONICAL)]
FAULTS = [
    (b"BU_: A\n\nBU_: B BO_", b"line 3: 2 Statement"),
    (b'VERSION "', b"line 1: 1 Token"),
    (b"BO_ 1 A: 8", b"line 1: 2 Statement"),
    (b"\nBO_ 1 BO_: 8 N", b"line 2: 2 Statement"),
    (b'BO_ 1 A: 8 N SG_ S : 0|8@1+ (1,0) [0|0] "" N,\n', b"line 2: 2 Statement"),
    (b"BO_ 4294967296 A: 8 N\n", b"line 1: 6 Limit"),
    (
        b'BO_ 1 A: 8 N SG_ S : 0|8@1+ (1,0) [0|0] ""\nSG_ S : 0|8@1+ (1,0) [0|0] ""',
        b"line 2: 3 RepeatedSignal",
    ),
]


# words with a file that can't be read, or that need two dashes before it, and what they end with
CANNOT_READ = (DEVICE, b"", b"candesk: cannot read file\n")
FILES = [
    ("check missing", WHEEL, CANNOT_READ),
    ("decode missing", WHEEL, CANNOT_READ),
    ("dump missing", WHEEL, CANNOT_READ),
    ("print missing", WHEEL, CANNOT_READ),
    ("session missing", WHEEL, CANNOT_READ),
    ("print -- --missing", WHEEL, CANNOT_READ),
    ("decode -", WHEEL, CANNOT_READ),
    ("decode -- DB", WHEEL, (DONE, b"a\n", b"")),
    ("dump -- DB", WHEEL, (DONE, WHEEL_LAYOUT, b"")),
    ("print -- DB", b"", (DONE, EMPTY, b"")),
]

KEEPING = ["--keep 2 DB", "DB --keep 2", "--keep=2 DB", "--keep +2 DB", "--keep 002 DB", "--short --keep 2 DB"]

# logs with a line that is too long, and what `decode` ends with
LONG_LINES = [
    ("at the end", b"x" * 4097, b""),
    ("with CR LF", b"x" * 4096 + b"\r\n", b""),
    (
        "after others",
        b"a\n(1.5) can0 123#\n" + b"x" * 4097 + b"\nb\n",
        b"a\n(1.5) can0 123# :: Wrong data size: 0 instead of 2 bytes\n",
    ),
]


class RunCase(ProgramCase):
    def run_on(self, text: bytes, words: str, stdin: bytes = b"a\n") -> Ended:
        """What words end with, in which DB is a database of this text."""
        database = put(self.folder, "database.dbc", text)
        return self.ended(*(database if word == "DB" else word for word in words.split()), stdin=stdin)

    def check_run(self, words: str, text: bytes, wanted: Ended, stdin: bytes = b"a\n") -> None:
        self.check_equal(f"{words} on {text[:60]!r} and {stdin[:60]!r}", self.run_on(text, words, stdin), wanted)


@cases(BAD_WORDS)
class BadWords(RunCase):
    def row(self, words: str) -> None:
        self.check_run(words, WHEEL, (USAGE, b"", b"candesk: usage\n"))


@cases(["--version", "-V"])
class Version(RunCase):
    def row(self, words: str) -> None:
        status, output, errors = self.run_on(WHEEL, words)
        self.check_equal(words, (status, bool(VERSION.fullmatch(output)), errors), (DONE, True, b""))


@cases(HELP_WORDS, lambda words, part: f"{words} has {part}")
class Help(RunCase):
    def row(self, words: str, part: str) -> None:
        status, output, errors = self.run_on(WHEEL, words)
        has_part = part.encode() in output and output.endswith(b"\n")
        self.check_equal(f"{words} has {part}", (status, has_part, errors), (DONE, True, b""))


@cases(FILES)
class Files(RunCase):
    def row(self, words: str, text: bytes, wanted: Ended) -> None:
        self.check_run(words, text, wanted)


@cases(KEEPING)
class Keeping(RunCase):
    """Each way to give the number of lines that a session keeps."""

    def row(self, options: str) -> None:
        script, replies = b"log a\nlog b\nlog c\nshow lines\n", b"ok\nok\nok\nb\nc\nok\n"
        self.check_run("session " + options, b"", (DONE, replies, b""), script)


@cases(LONG_LINES)
class LongLines(RunCase):
    def row(self, name: str, log: bytes, output: bytes) -> None:
        self.check_run("decode DB", WHEEL, (DEVICE, output, b"candesk: 40 LongLine\n"), log)


class LongLogs(RunCase):
    def test_more_than_a_piece(self) -> None:
        """A log of more than a piece of 16 KiB."""
        many = b"(1.5) can0 123#0A01\n" * 20000
        wanted = b"(1.5) can0 123#0A01 :: Wheel(Speed: 537 rpm)\n" * 20000
        self.check_run("decode DB", WHEEL, (DONE, wanted, b""), many)


@cases(PRINTED)
class Printed(RunCase):
    def row(self, text: bytes, wanted: bytes) -> None:
        self.check_run("print DB", text, (DONE, wanted, b""))


@cases(FAULTS)
class Faults(RunCase):
    """Databases that each command rejects."""

    def row(self, text: bytes, fault: bytes) -> None:
        for words in ("check DB", "decode DB", "dump DB", "print DB", "session DB"):
            self.check_run(words, text, (REFUSED, b"", b"candesk: " + fault + b"\n"))


# lines of the shell, and what they end with; devices that fail are in `test_failing_devices`
SHELL = [
    # standard input that isn't read
    ('"$candesk" print "$database" < "$folder" | head -n 1', (DONE, b'VERSION ""\n', b"")),
    ('"$candesk" dump "$database" < "$folder"', (DONE, WHEEL_LAYOUT, b"")),
    ('"$candesk" dump "$database" <&-', (DONE, WHEEL_LAYOUT, b"")),
    ('"$candesk" check "$problems" < "$folder"', (HAS_DIAGNOSTICS, b"13 UnknownNode 1 A N\n", b"")),
    ('"$candesk" check "$database" > /dev/full', (DONE, b"", b"")),
    # a reader that leaves early
    (
        'yes 2> /dev/null | "$candesk" decode "$database" | head -n 1; echo "${PIPESTATUS[1]}"',
        (DONE, b"y\n3\n", b"candesk: 42 Write\n"),
    ),
    # each line is written before the next is read
    (
        'mkfifo "$folder/log"; "$candesk" decode "$database" < "$folder/log" > "$folder/decoded" & exec 3> "$folder/log"; '
        'echo a >&3; for i in $(seq 100); do [ -s "$folder/decoded" ] && break; sleep 0.1; done; cat "$folder/decoded"; '
        'exec 3>&-; wait',
        (DONE, b"a\n", b""),
    ),
]


@cases(SHELL)
class Shell(RunCase):
    """Lines of the shell in which $candesk is the program, $database has WHEEL, and $problems an unknown node."""

    def row(self, line: str, wanted: Ended) -> None:
        files = {"database": WHEEL, "problems": b"BO_ 1 A: 8 N\n"}
        paths = {name: put(self.folder, f"{name}.dbc", text) for name, text in files.items()}
        environment = dict(os.environ, candesk=self.program, folder=self.folder, **paths)
        self.check_equal(line, run(["bash", "-c", line], env=environment), wanted)


if __name__ == "__main__":
    main()
