#!/usr/bin/env python3
"""Runs of the program in which the allocation of number 1, 2, 3 and so on is refused, until a run makes no more.

Each run has to end as the run with ample memory does, or with `candesk: 90 Memory` and status 4, having written a beginning of that
run's output; of `print` nothing, of `dump` whole layout diagrams, of `check` and `decode` whole lines. A session in which the
allocation of a command is refused answers it with `refused 90 Memory`, and goes on as if there had been no such command. An edit of
a session with a long log that affects none of its lines makes far fewer allocations than there are lines.

With the program of tests of the crate can_tests the same is checked of calls that no command makes: each of their tests passes,
or ends out of memory. A C compiler is needed, as cc.
"""

from __future__ import annotations

import os
import sys
from collections.abc import Callable, Iterator
from typing import ClassVar, Final

sys.dont_write_bytecode = True
sys.path.insert(0, os.path.dirname(os.path.realpath(__file__)))

from test_support import DONE, EXAMPLE, MEMORY, ROOT, Ended, Preloaded, ProgramCase, cases, content, main  # noqa: E402
from test_support import program_of_tests, put, run, script, shown  # noqa: E402

# a database with a statement of each kind
WHOLE = b"""\
VERSION "1.0"
NS_ : CM_ BA_
BS_: 500 : 1 , 2
BU_: Ecu Gate
VAL_TABLE_ Switches 0 "off" 1 "on" ;
BO_ 291 Wheel: 8 Ecu
 SG_ Kind M : 0|8@1+ (1,0) [0|0] "" Gate
 SG_ Speed m0 : 8|16@1+ (2.5,-5) [0|1000] "rpm" Ecu,Gate
BO_ 292 Axle: 3 Gate
 SG_ Turn : 0|16@0- (0.1,0) [0|0] "deg" Ecu
 SG_ Lock : 16|8@1+ (1,0) [0|0] "" Ecu
EV_ Light : 0 [0|1] "" 0 1 DUMMY_NODE_VECTOR0 Ecu ;
CM_ "of all";
CM_ BU_ Ecu "a node";
CM_ BO_ 291 "a message";
CM_ SG_ 291 Speed "a signal";
BA_DEF_ BO_ "Cycle" INT 0 65535;
BA_DEF_ SG_ "Form" ENUM "plain","odd";
BA_DEF_ "Name" STRING;
BA_DEF_DEF_ "Name" "none";
BA_DEF_DEF_ "Cycle" 0;
BA_ "Name" "wheels";
BA_ "Cycle" BO_ 291 100;
BA_ "Form" SG_ 291 Speed 1;
VAL_ 291 Speed 0 "stands" 1 "turns" ;
SIG_VALTYPE_ 291 Speed : 0;
SG_MUL_VAL_ 291 Speed Kind 0-3, 7-9;
"""

# a log with frames of each kind, and of each answer
LOG = b"""\
(1.5) can0 123#00FF000000000000
(1.5) can0 123#0400010000000000
(1.5) can0 124##0FFFF01
(1.5) can0 124#00
(1.5) can0 124#0010
(1.5) can0 18FEF131#00
(1.5) can0 123#R8
(1.5) can0 20000080#0000000000000000
no frame
"""

# texts that are no UTF-8, of units, value descriptions and lines
LATIN = b'''\
BO_ 291 Oil: 2 Ecu
 SG_ Heat : 0|8@1- (0.5,0) [0|0] "\xb0C" Ecu
 SG_ State : 8|8@1+ (1,0) [0|0] "" Ecu
VAL_ 291 State 1 "w\xe4rmt sich und \xf6lt danach" ;
'''
LATIN_LOG = b"(1.5) c\xfc 123#0001 \xe9\n(1.5) c 123#01 R\n\xff\n"

# a small database and a script with each kind of command
EDITED = b"""\
BO_ 291 Wheel: 2 Ecu
 SG_ Speed : 0|16@1+ (2.5,-5) [0|1000] "rpm" Ecu
BO_ 292 Axle: 1 Ecu
 SG_ Turn M : 0|4@1+ (1,0) [0|0] ""
 SG_ Lock m1 : 4|4@1+ (1,0) [0|0] ""
CM_ SG_ 291 Speed "of a wheel";
BA_DEF_ BO_ "Cycle" INT 0 65535;
BA_DEF_ SG_ "Form" INT 0 9;
BA_ "Form" SG_ 291 Speed 1;
VAL_ 291 Speed 0 "stands" ;
SIG_VALTYPE_ 291 Speed : 0;
"""
SCRIPT = b"""\
log (1.5) can0 123#0000
log (1.5) can0 124#11
log no frame
show lines
add-message 2 BO_ 293 Door: 1 Gate
add-signal 2 0 SG_ Side : 0|8@1+ (1,0) [0|0] "" Gate
change-signal 0 SG_ Speed : 0|8@1+ (0.1,0) [0|0] "m" Ecu
change-message 0 Rim 2 Gate
show layout 0
set-values VAL_ 291 Speed 0 "rests" ;
set-mux SG_MUL_VAL_ 292 Lock Turn 0-1;
set-table VAL_TABLE_ T 0 "off" ;
set-attribute BA_ "Cycle" BO_ 291 100;
show lines
rename-signal 0 Speed Pace
rename-signal 1 Turn Angle
show lines
print
rename-signal 0 Pace Speed
renumber 1 294
drop-values 291 Speed
drop-mux 294 Lock
drop-table T
drop-attribute 291 "Cycle"
remove-signal 0 Speed
remove-message 1
show diagnostics
show lines
print
"""

# a script of whose lines the last two are kept: of identifiers and parameter groups that stay, that go with their last line, and
# that come again, and of no frame at all
KEPT = b"""\
log (1.0) can0 123#0001
log (2.0) can0 18FEF101#02
log (3.0) can0 18FEF101#0003
show lines
log (4.0) can0 123#0004
log no frame
log (5.0) can0 123#0005
log (6.0) can0 124#06
show lines
change-message 0 Rim 2 Gate
show lines
renumber 1 291
show lines
"""

# where the output of a run out of memory may end
NOWHERE, ANYWHERE, BEFORE_LAYOUT, AFTER_LINE = range(4)

# what is run: the words, the database, what is on standard input, and where the output may end
RUNS: Final[list[tuple[list[str], bytes | None, bytes, int]]] = [
    (["check"], WHOLE, b"", AFTER_LINE),
    (["check", "--json"], WHOLE, b"", AFTER_LINE),
    (["explain", "--json"], LATIN, b"", AFTER_LINE),
    (["decode"], WHOLE, LOG, AFTER_LINE),
    (["decode", "--short"], WHOLE, LOG, AFTER_LINE),
    (["decode", "--json"], WHOLE, LOG, AFTER_LINE),
    (["decode", "--json"], LATIN, LATIN_LOG, AFTER_LINE),
    (["decode", "--csv"], WHOLE, LOG, AFTER_LINE),
    (["decode", "--csv"], LATIN, LATIN_LOG, AFTER_LINE),
    (["dump"], WHOLE, b"", BEFORE_LAYOUT),
    (["dump", "--json"], WHOLE, b"", AFTER_LINE),
    (["dump", "--json"], LATIN, b"", AFTER_LINE),
    (["dump", "--at"], WHOLE, b"", NOWHERE),
    (["explain"], WHOLE, b"", NOWHERE),
    (["print"], WHOLE, b"", NOWHERE),
    (["session"], EDITED, SCRIPT, NOWHERE),
    (["session", "--keep", "2"], EDITED, KEPT, NOWHERE),
    (["--help"], None, b"", ANYWHERE),
    (["decode", "--help"], None, b"", ANYWHERE),
    (["--version"], None, b"", ANYWHERE),
    (["frob"], None, b"", ANYWHERE),
]

# edits that affect none of the lines below, how many lines are kept, and more allocations than such an edit makes
WITHOUT_EFFECT = [b'set-table VAL_TABLE_ T 0 "z" ;\n', b"add-message 0 BO_ 1 A: 8 N\n"]
KEPT_LINES = 20000
FAR = 10000

# tests of calls that no command makes, and how a test ends that is out of memory
CALLS = ["decoding::a_line_by_itself", "layouts::a_multiplexing_chain"]
OUT_OF_MEMORY = ["error: Memory", "error: AllocError", 'error: "no database"']


def may_end(output: bytes, ample: bytes, ends: int) -> bool:
    """Whether a run out of memory may have written this, if it writes `ample` with ample memory."""
    rest = ample[len(output) :]
    is_end = {
        NOWHERE: not output,
        ANYWHERE: True,
        BEFORE_LAYOUT: not rest or rest.startswith(b"Message "),
        AFTER_LINE: not output or output.endswith(b"\n"),
    }
    return ample.startswith(output) and is_end[ends]


def without_one(words: list[str], script: bytes) -> Iterator[Ended]:
    """The outcomes of a session in which one command of the script is answered with `refused 90 Memory`, and not done."""
    commands = script.splitlines(keepends=True)
    for number in range(len(commands)):
        before = run(words, b"".join(commands[:number]))[1]
        after = run(words, b"".join(commands[:number] + commands[number + 1 :]))[1][len(before) :]
        yield DONE, before + b"refused 90 Memory\n" + after, b""


class RefusalCase(ProgramCase):
    """Runs in which one allocation is refused."""

    preloaded: ClassVar[Preloaded]

    @classmethod
    def setUpClass(cls) -> None:
        super().setUpClass()
        cls.preloaded = Preloaded("refuse_allocation", cls.folder)

    def refused(self, words: list[str], stdin: bytes, number: int) -> tuple[bool, Ended]:
        """Whether a run makes its allocation of this number, which is refused, and what the run ended with."""
        return self.preloaded.run(words, stdin, REFUSE_ALLOCATION=number)

    def check_each(self, name: str, words: list[str], stdin: bytes, fault_of: Callable[[bool, Ended], str | None]) -> None:
        """Refuses each allocation of a run in turn, up to the run that makes no more; `fault_of` returns what is wrong with its
        end."""
        for number in range(1, 100_000):
            reached, ended = self.refused(words, stdin, number)
            self.check(f"{name}, allocation {number}", fault_of(reached, ended))
            if not reached:
                print(f"{name}: {number - 1} allocations refused in turn")
                return


@cases(RUNS, lambda words, database, *_: " ".join(words) + (" of Latin-1" if database == LATIN else ""))
class Commands(RefusalCase):
    def row(self, words: list[str], database: bytes | None, stdin: bytes, ends: int) -> None:
        name, words = " ".join(words), [self.program, *words]
        if database is not None:
            words.append(put(self.folder, "database.dbc", database))
        ample = run(words, stdin)
        others: set[Ended] = set(without_one(words, stdin)) if "session" in words else set()

        def fault_of(reached: bool, ended: Ended) -> str | None:
            if ended == ample or reached and ended in others:
                return None
            is_out = (ended[0], ended[2]) == (MEMORY, b"candesk: 90 Memory\n") and may_end(ended[1], ample[1], ends)
            return None if reached and is_out else shown(ended)

        self.check_each(name, words, stdin, fault_of)


@cases(CALLS)
class Calls(RefusalCase):
    """Tests of calls that no command makes."""

    def test_names(self) -> None:
        for name in CALLS:
            module, function = name.split("::")
            source = content(os.path.join(ROOT, "crates", "can_tests", "src", f"{module}.rt")).decode()
            self.check(f"{name} is a test", None if f"#[test]\nfn {function}(" in source else "the sources have no such test")

    def row(self, name: str) -> None:
        tests = program_of_tests("CANDESK_TESTS", script("proving").TESTS)

        def fault_of(reached: bool, ended: Ended) -> str | None:
            status, output, errors = ended
            lines = errors.decode(errors="replace").splitlines()
            if status == DONE and output.endswith(b"test result: ok\n"):
                return None
            return None if reached and status == 101 and lines and lines[0] in OUT_OF_MEMORY else shown(ended)

        self.check_each(name, [tests, name], b"", fault_of)


class LongLogs(RefusalCase):
    def test_edits_without_effect_on_a_long_log(self) -> None:
        """An edit that affects no line of a long log makes fewer allocations than there are lines: its allocation of number 10,000,
        which is refused, is never made."""
        words = [self.program, "session", put(self.folder, "database.dbc", EXAMPLE)]
        commands = b"log (0.000000) vcan0 1F0#804A0F0000000000\n" * KEPT_LINES
        for edit in WITHOUT_EFFECT:
            before = self.count(words, commands)
            commands += edit
            wanted = (False, (DONE, b"ok\n" * commands.count(b"\n"), b""))
            name = f"{edit!r} with {KEPT_LINES} lines, allocation {FAR}"
            self.check_equal(name, self.refused(words, commands, before + FAR), wanted)

    def count(self, words: list[str], stdin: bytes) -> int:
        """How many allocations a run makes."""
        most = 1
        while self.refused(words, stdin, most)[0]:
            most *= 2
        least = most // 2
        while most - least > 1:
            middle = (least + most) // 2
            if self.refused(words, stdin, middle)[0]:
                least = middle
            else:
                most = middle
        return least


if __name__ == "__main__":
    main()
