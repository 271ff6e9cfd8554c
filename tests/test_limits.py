#!/usr/bin/env python3
"""Runs of the program under limits of its memory and of its stack, from the least under which it starts at all.

Under each limit of the address space, in steps of 8 KiB (of 32 KiB for a chain of as many multiplexors as a message may have), each
command has to end as with ample memory, or with `candesk: 90 Memory` and status 4, having written a beginning of what it writes
then; a session may also answer a command with `refused 90 Memory` and go on. Under each limit of the stack from 128 KiB on it has
to end as with ample memory. No limit may end it by a signal.
"""

from __future__ import annotations

import os
import resource
import sys

sys.dont_write_bytecode = True
sys.path.insert(0, os.path.dirname(os.path.realpath(__file__)))

from test_support import DONE, HAS_DIAGNOSTICS, MEMORY, Ended, ProgramCase, cases, main, put, run, shown  # noqa: E402

KIB = 1024
STEP = 8 * KIB
# how many signals a chain has that is as deep as one may be, and the index in it of the entry that a session adds
DEEP, GAP = 999, 500
# how many limits are tried from the least on under which a command ends as with ample memory
FURTHER = 8
LEAST_STACK, MOST_STACK = 128 * KIB, 1024 * KIB
OUT_OF_MEMORY = b"candesk: 90 Memory\n"
REFUSED_COMMAND = b"refused 90 Memory"


def database(count: int) -> bytes:
    """Messages with value descriptions and comments, a multiplexor in each, and signals that overlap."""
    text = b'VERSION ""\nNS_ :\nBS_:\nBU_: E\n'
    for number in range(count):
        text += b"BO_ %d M%d: 8 E\n" % (number, number)
        text += b' SG_ S M : 0|8@1+ (1,0) [0|0] "" E\n SG_ A m1 : 8|8@1+ (0.5,0) [0|0] "km/h" E,F\n'
        text += b' SG_ B m2 : 12|8@1- (1,0) [0|0] "" E\n'
    for number in range(count):
        text += b'CM_ SG_ %d A "what it is";\nVAL_ %d B 0 "none" 1 "one" ;\nSG_MUL_VAL_ %d A S 1-2;\n' % (number, number, number)
    return text


def deep(gap: int | None = None) -> bytes:
    """As many signals as a message may have, each multiplexed by the one before, except that the last two share their multiplexor
    and a bit; the one at `gap` has no entry."""
    text = b'VERSION ""\nNS_ :\nBS_:\nBU_: E\nBO_ 1 A: 125 E\n SG_ S0 M : 0|1@1+ (1,0) [0|0] "" E\n'
    entries = b""
    for index in range(1, DEEP):
        above, bit = min(index - 1, DEEP - 3), min(index, DEEP - 2)
        text += b' SG_ S%d m1M : %d|1@1+ (1,0) [0|0] "" E\n' % (index, bit)
        entries += deep_entry(index, above) if index != gap else b""
    return text + entries


def deep_entry(index: int, above: int) -> bytes:
    return b"SG_MUL_VAL_ 1 S%d S%d 1-1;\n" % (index, above)


def log(count: int) -> bytes:
    return b"".join(b"(%d.5) can0 %03X#%02X02030405060708\n" % (n, n % 200, n % 3) for n in range(count))


EDITS = b"""\
change-signal 0 SG_ A m1 : 8|8@1+ (0.25,0) [0|0] "km/h" E
set-values VAL_ 1 B 0 "no" 1 "yes" ;
set-table VAL_TABLE_ T 0 "no" ;
renumber 3 1000
rename-signal 5 B C
show diagnostics
show layout 5
show lines
"""


def script(count: int) -> bytes:
    return b"".join(b"log " + line + b"\n" for line in log(count).splitlines()) + EDITS


def under(kind: int, limit: int, words: list[str], stdin: bytes) -> Ended:
    """What a run ends with under a limit."""

    def limited() -> None:
        resource.setrlimit(kind, (limit, limit))

    return run(words, stdin, preexec_fn=limited)


def least_start(program: str) -> int:
    """The least limit of the address space under which the program starts."""
    limit = STEP
    while under(resource.RLIMIT_AS, limit, [program, "--version"], b"")[0] != DONE:
        limit += STEP
    return limit


def fault_of(got: Ended, ample: Ended, is_session: bool) -> str | None:
    """What is wrong with an end under a limit of memory, if anything."""
    status, output, errors = got
    if got == ample:
        return None
    if status == MEMORY and errors == OUT_OF_MEMORY and (ample[1].startswith(output) or REFUSED_COMMAND in output):
        return None
    if is_session and status == DONE and not errors and REFUSED_COMMAND in output:
        return None
    return shown(got)


COMPLETED = b"set-mux " + deep_entry(GAP, GAP - 1) + b"show diagnostics\n"
# a name, the command with its options, its database, standard input, and the status with ample memory
RUNS: list[tuple[str, str, bytes, bytes, int]] = [
    ("check", "check", database(200), b"", HAS_DIAGNOSTICS),
    ("check to JSON", "check --json", database(200), b"", HAS_DIAGNOSTICS),
    ("print", "print", database(200), b"", DONE),
    ("dump", "dump", database(200), b"", DONE),
    ("dump to JSON", "dump --json", database(200), b"", DONE),
    ("dump of locations", "dump --at", database(200), b"", DONE),
    ("decode", "decode", database(200), log(500), DONE),
    ("decode to JSON", "decode --json", database(200), log(500), DONE),
    ("decode to CSV", "decode --csv", database(200), log(500), DONE),
    ("session", "session", database(200), script(200), DONE),
    ("check of a deep chain", "check", deep(), b"", HAS_DIAGNOSTICS),
    ("explain of a deep chain", "explain", deep(), b"", HAS_DIAGNOSTICS),
    ("explain of a deep chain to JSON", "explain --json", deep(), b"", HAS_DIAGNOSTICS),
    ("session that completes a deep chain", "session", deep(GAP), COMPLETED, DONE),
]


@cases(RUNS)
class Limits(ProgramCase):
    def row(self, name: str, command: str, text: bytes, stdin: bytes, status: int) -> None:
        words = [self.program, *command.split(), put(self.folder, "f.dbc", text)]
        ample = run(words, stdin)
        self.check_equal(f"{name} with ample memory", ample[0], status)
        self.check_memory(name, words, stdin, ample)
        self.check_stack(name, words, stdin, ample)

    def check_memory(self, name: str, words: list[str], stdin: bytes, ample: Ended) -> None:
        """Checks limits of the address space up to some that are ample; of a deep chain in wider steps, as it takes more."""
        limit, is_session, whole = least_start(self.program), words[1] == "session", 0
        step = 4 * STEP if "deep" in name else STEP
        while whole < FURTHER:
            got = under(resource.RLIMIT_AS, limit, words, stdin)
            self.check(f"{name} under {limit // KIB} KiB", fault_of(got, ample, is_session))
            whole += got == ample
            limit += step

    def check_stack(self, name: str, words: list[str], stdin: bytes, ample: Ended) -> None:
        for limit in range(LEAST_STACK, MOST_STACK + 1, STEP):
            got = under(resource.RLIMIT_STACK, limit, words, stdin)
            self.check(f"{name} on a stack of {limit // KIB} KiB", None if got == ample else shown(got))


if __name__ == "__main__":
    main()
