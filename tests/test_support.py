#!/usr/bin/env python3
"""What the tests share: cases made of rows, checks that are counted, runs of a program, and texts that several modules use.

All tests run by `python3 -m unittest discover tests`, those of one module by `tests/test_read_rows.py`, and those with a word in
their names by `tests/test_read_rows.py -k word`. A module that is run as a file, or several by `tests/test_support.py MODULE..`, as
`./test` does, end with a line 'N passed, M failed', which counts each check. A test that needs what is missing is skipped, with the
reason. These environment variables name what is tested:

- CANDESK_PROGRAM: the program. Else it is the one that was built of the sources as they are, or that of dist/
- CANDESK_CASES: the folder of the outside cases. Else there are none
- CANDESK_TESTS: the program of tests of the crate can_tests, for `test_refused_allocations`. Else it is the one that was built
  of the sources as they are
- CANDESK_PROBE: the same of the crate candesk_probe, for `test_refused_calls` and `test_failing_devices`
- CANDESK_FUZZ_MINUTES, CANDESK_FUZZ_SEED: how long `test_fuzz` runs, 1 minute unless given, and its seed, 1 unless given
- CANDESK_DIAGNOSTICS, CANDESK_DIAGNOSTICS_SEED: how many diagnostics `test_explained_locations` makes, 100,000 unless given, and
  its seed, 1 unless given
- CANDESK_PICTURE: a file into which `test_page` puts its last view of the live page in a browser
- CANDESK_PROVED: set by `./test` once everything was proved: then `test_same_bytes` needs the program that the proof built
- CANDESK_COMPARED: two files, as ONE:OTHER, which `test_same_bytes` compares instead
"""

from __future__ import annotations

import difflib
import functools
import importlib
import os
import re
import shutil
import subprocess
import sys
import tempfile
import unittest
from collections.abc import Callable, Iterable
from types import ModuleType, TracebackType
from typing import IO, Any, ClassVar, NoReturn, TypeVar

sys.dont_write_bytecode = True

# (unittest leaves frames of this module out of tracebacks)
__unittest = True

# what a run ends with: status, output and errors
Ended = tuple[Any, bytes, bytes]

ROOT = os.path.dirname(os.path.dirname(os.path.realpath(__file__)))
EXAMPLES = f"{ROOT}/examples"
# the outside cases, each a folder with a database f.dbc; none if CANDESK_CASES names no folder
CASES = os.path.join(os.environ["CANDESK_CASES"], "cases") if os.environ.get("CANDESK_CASES") else None
# the most seconds of a run
LONGEST = 120

# the exit statuses
DONE, REFUSED, USAGE, DEVICE, MEMORY = range(5)
# that of a database with diagnostics
HAS_DIAGNOSTICS = REFUSED

# ---- texts

# what is printed of an empty text
EMPTY = b'VERSION ""\nNS_ :\nBS_:\nBU_:\n'

# signals in Motorola byte order, and one with value descriptions
EXAMPLE = b"""\
BO_ 496 ExampleMessage: 8 Vector__XXX
 SG_ Enable : 7|1@0+ (1,0) [0|0] "-"
 SG_ AverageRadius : 6|6@0+ (0.1,0) [0|5] "m"
 SG_ Temperature : 0|12@0- (0.01,250) [229.52|270.47] "degK"
VAL_ 496 Enable 0 "Disabled" 1 "Enabled" ;
"""
# what follows a line of a log with the frame 1F0#804A0F0000000000
EXAMPLE_TEXT = b"ExampleMessage(Enable: Enabled, AverageRadius: 0 m, Temperature: 255.92 degK)"

# a message that represents a parameter group
GROUP = b"""\
BO_ 2566844672 CCVS: 8 Vector__XXX
 SG_ Speed : 8|16@1+ (0.00390625,0) [0|0] "km/h"
BA_DEF_ BO_ "VFrameFormat" ENUM "StandardCAN","ExtendedCAN","reserved","J1939PG";
BA_ "VFrameFormat" BO_ 2566844672 3;
"""
GROUP_LINE = b"(0.0) c 18FEF131#FF0014FFFFFFFFFF"
GROUP_TEXT = b"CCVS[p6 s49](Speed: 20 km/h)"

# two messages with one CAN identifier, and what `check` writes about them
SHARED = b"""\
BO_ 291 A: 1 Vector__XXX
 SG_ S : 0|8@1+ (1,0) [0|0] ""
BO_ 291 B: 1 Vector__XXX
 SG_ S : 0|8@1+ (2,0) [0|0] ""
VAL_ 291 S 1 "one" ;
"""
SHARED_FAULTS = b"2 SharedIdentifier 291 A\n2 SharedIdentifier 291 B\n"

# a message of two bytes, and lines of a log for it, with frames of each kind, standard and extended, each with what follows it
TWO_BYTES = b'BO_ 291 A: 2 Vector__XXX\n SG_ S : 0|8@1+ (1,0) [0|0] ""\n SG_ T : 8|8@1+ (1,0) [0|0] ""\n'
FRAMES = [
    (b"(1.0) c 123#R8", b"Remote frame"),
    (b"(1.0) c 20000080#0000000000000000", b"Error frame"),
    (b"(1.0) c 123##1aabb", b"A(S: 170, T: 187)"),
    (b"(1.0) c 7FF#1122334455667788_F", b"Unknown frame id 2047 (0x7ff)"),
    (b"hello", None),
    (b"", None),
    (b"(1.0)  c  123#0102 R", b"A(S: 1, T: 2)"),
]


def decoded(line: bytes, text: bytes | None) -> bytes:
    """What is written for a line of a log: the line, and the text that follows it, if any."""
    return (line if text is None else line + b" :: " + text) + b"\n"


# ---- files


def content(path: str) -> bytes:
    with open(path, "rb") as file:
        return file.read()


def put(folder: str, name: str, data: bytes) -> str:
    """Puts a file into a folder, and returns its path."""
    path = os.path.join(folder, name)
    with open(path, "wb") as file:
        file.write(data)
    return path


def first_example() -> tuple[str, str]:
    """The first command of README, and what it writes."""
    block = content(f"{ROOT}/README.md").decode().split("```\n")[1]
    command, _, output = block.partition("\n")
    return command.removeprefix("$ "), output


def script(name: str) -> ModuleType:
    """A module of scripts/."""
    sys.path.insert(0, f"{ROOT}/scripts")
    return importlib.import_module(name)


# ---- runs


@functools.lru_cache
def program() -> str:
    """The path of the program under test: the one that CANDESK_PROGRAM names, else the one built of the sources as they are, else
    that of dist/; if there is none of these sources, one that was built of others, which is reported."""
    if os.environ.get("CANDESK_PROGRAM"):
        return existing(os.environ["CANDESK_PROGRAM"])
    proving, dist = script("proving"), script("dist")
    found, _ = dist.find()
    if found:
        return str(found.path)
    if os.path.isfile(proving.CANDESK.path):
        print("note: the program under test wasn't built from these sources", file=sys.stderr)
    return existing(str(proving.CANDESK.path))


def existing(path: str) -> str:
    """The absolute path of a program that has to exist."""
    if not os.path.isfile(path):
        raise FileNotFoundError(f"there is no {path}: ./candesk --help builds the program, ./test all others")
    return os.path.abspath(path)


def program_of_tests(variable: str, built: Any) -> str:
    """The path of a program that tests calls: the one that an environment variable names, else the one that was built of the
    sources as they are; without either the test is skipped."""
    if os.environ.get(variable):
        return existing(os.environ[variable])
    if not built.current():
        raise unittest.SkipTest(f"{variable} names no program, and crates/{built.crate}/out/ has none of these sources")
    return str(built.path)


def compile_c(words: list[str]) -> None:
    """Runs the C compiler; without one the test is skipped."""
    if not shutil.which("cc"):
        raise unittest.SkipTest("there is no C compiler, cc")
    subprocess.run(["cc", *words], check=True)


def run(words: list[str], stdin: bytes | int | IO[bytes] = b"", **settings: Any) -> Ended:
    """What a run ends with: status, output and errors. Standard input is these bytes; a run that takes too long has no status."""
    streams: dict[str, Any] = {"stdout": subprocess.PIPE, "stderr": subprocess.PIPE, **settings}
    if isinstance(stdin, bytes):
        streams["input"] = stdin
    else:
        streams["stdin"] = stdin
    try:
        done = subprocess.run(words, timeout=LONGEST, check=False, **streams)
    except subprocess.TimeoutExpired:
        return None, b"", b"it takes over %d seconds" % LONGEST
    return done.returncode, done.stdout or b"", done.stderr or b""


class Preloaded:
    """A library of tests/, built in a folder by the C compiler, and preloaded into runs of a program."""

    def __init__(self, name: str, folder: str) -> None:
        self.library = os.path.join(folder, name + ".so")
        self.reached = os.path.join(folder, name + ".met")
        self.folder, self.input = folder, name + ".input"
        source = f"{ROOT}/tests/{name}.c"
        compile_c(["-O1", "-shared", "-fPIC", "-o", self.library, source, "-ldl"])

    def run(self, words: list[str], stdin: bytes = b"", **settings: Any) -> tuple[bool, Ended]:
        """Whether the library did what these settings ask for, and what the run ended with: status, output and errors. Standard
        input is a file with these bytes."""
        if os.path.exists(self.reached):
            os.remove(self.reached)
        environment = {**os.environ, "LD_PRELOAD": self.library, "REFUSE_ALLOCATION_MET": self.reached, "DEVICE_MET": self.reached}
        environment.update((name, str(value)) for name, value in settings.items())
        with open(put(self.folder, self.input, stdin), "rb") as file:
            ended = run(words, file, env=environment)
        return os.path.exists(self.reached), ended


# ---- what is reported


def shown(it: object) -> str:
    """A value, in short."""
    if isinstance(it, tuple):
        return "(" + ", ".join(shown(part) for part in it) + ")"
    return repr(it[:100] + b" .. " + it[-200:] if isinstance(it, bytes) and len(it) > 304 else it)


def difference(wanted: bytes, got: bytes, name: str) -> str:
    """The lines in which a text differs from the one that is wanted, which has this name."""
    before, after = (it.decode(errors="replace").splitlines() for it in (wanted, got))
    return "\n".join("    " + line for line in difflib.unified_diff(before, after, name, "what was written", lineterm=""))


class CheckFailed(AssertionError):
    """A check that failed, whose message needs no traceback."""


class Case(unittest.TestCase):
    """A test whose checks are counted one by one: a check that fails is reported under its name, and the test goes on."""

    counts: Counts | None = None

    def run(self, result: unittest.TestResult | None = None) -> unittest.TestResult | None:
        self.counts = result if isinstance(result, Counts) else None
        return super().run(result)

    def check(self, name: str, fault: object = None) -> bool:
        """Counts a check by its fault, which is None if it passed, and returns whether it did."""
        if fault is None:
            # (a subtest for each would take longer than what is checked)
            if self.counts:
                self.counts.count_pass()
            return True
        with self.subTest(name):
            raise CheckFailed(str(fault))
        return False

    def check_equal(self, name: str, got: object, wanted: object) -> bool:
        return self.check(name, None if got == wanted else f"{shown(got)} for {shown(wanted)}")

    def check_true(self, name: str, holds: object, fault: object = "it isn't so") -> bool:
        return self.check(name, None if holds else fault)

    def skip_check(self, name: str, missing: str) -> None:
        """Reports a check that isn't made, since it needs what is missing."""
        with self.subTest(name):
            self.skipTest(f"{missing} isn't at hand")


class ProgramCase(Case):
    """A test of the program, with a folder for the files of all tests of the class."""

    program: ClassVar[str]
    folder: ClassVar[str]

    @classmethod
    def setUpClass(cls) -> None:
        super().setUpClass()
        cls.program = program()
        folder = tempfile.TemporaryDirectory(prefix="candesk-test-")
        cls.addClassCleanup(folder.cleanup)
        cls.folder = folder.name

    def ended(self, *words: str, stdin: bytes = b"", **settings: Any) -> Ended:
        """What a run of the program ends with."""
        return run([self.program, *words], stdin, **settings)


# ---- a case for each row of a table

CaseClass = TypeVar("CaseClass", bound=type[unittest.TestCase])
# how many characters of a row's words its case has in its name
NAME_LENGTH = 60


def case_name(words: object) -> str:
    """The words of a row as a name: what is no letter or digit becomes one underscore."""
    text = (words.decode("latin-1") if isinstance(words, bytes) else str(words))[: 4 * NAME_LENGTH]
    name = re.sub(r"[\W_]+", "_", text, flags=re.ASCII).strip("_")[:NAME_LENGTH].strip("_")
    return name or (f"only_{text.encode().hex()}"[:NAME_LENGTH] if text else "empty")


def cases(rows: Iterable[Any], name: Callable[..., object] | None = None) -> Callable[[CaseClass], CaseClass]:
    """A decorator that gives a class a test for each row, which calls the method `row` with the row's parts. It is named for the
    row's first part, or for what `name` makes of all; a name that another row of the class has too is numbered."""

    def with_cases(case: CaseClass) -> CaseClass:
        for row in rows:
            parts = row if isinstance(row, tuple) else (row,)
            base = "test_" + case_name(name(*parts) if name else parts[0])
            unique, count = base, 1
            while hasattr(case, unique):
                count += 1
                unique = f"{base}_{count}"
            setattr(case, unique, case_of(parts))
        return case

    return with_cases


def case_of(parts: tuple[Any, ...]) -> Callable[[Any], None]:
    def test(self: Any) -> None:
        self.row(*parts)

    return test


# ---- the runner

Error = tuple[type[BaseException], BaseException, TracebackType] | tuple[None, None, None]


class Counts(unittest.TestResult):
    """Counts each check of each test, and prints what fails at once. A test without checks counts as one."""

    def __init__(self, verbosity: int) -> None:
        super().__init__()
        self.verbosity = verbosity
        self.passed = self.failed = self.checks = 0

    def startTest(self, test: unittest.TestCase) -> None:
        super().startTest(test)
        self.checks = 0
        if self.verbosity > 1:
            print(test.id(), flush=True)

    def addSubTest(self, test: unittest.TestCase, subtest: unittest.TestCase, err: Error | None) -> None:
        super().addSubTest(test, subtest, err)
        if err is None:
            self.count_pass()
        else:
            self.report(subtest, err)

    def count_pass(self) -> None:
        self.checks += 1
        self.passed += 1

    def addSuccess(self, test: unittest.TestCase) -> None:
        super().addSuccess(test)
        self.passed += not self.checks

    def addFailure(self, test: unittest.TestCase, err: Error) -> None:
        super().addFailure(test, err)
        self.report(test, err)

    def addError(self, test: unittest.TestCase, err: Error) -> None:
        super().addError(test, err)
        self.report(test, err)

    def addSkip(self, test: unittest.TestCase, reason: str) -> None:
        super().addSkip(test, reason)
        self.checks += 1
        print(f"{test.id()}: skipped, {reason}", flush=True)

    def report(self, test: unittest.TestCase, err: Error) -> None:
        self.failed += 1
        is_check = isinstance(err[1], CheckFailed)
        print(f"{test.id()}: {err[1] if is_check else self.traceback_of(test)}", flush=True)

    def traceback_of(self, test: unittest.TestCase) -> str:
        """The traceback that was noted last."""
        return next(text for noted, text in reversed(self.errors + self.failures) if noted is test)

    def end(self) -> int:
        """Prints the last line, and returns the exit status."""
        skipped = f", {len(self.skipped)} skipped" if self.skipped else ""
        print(f"{self.passed} passed, {self.failed} failed{skipped}")
        return 1 if self.failed or not (self.passed or self.skipped) else 0


class Runner:
    """Runs tests for unittest's command line."""

    def __init__(self, verbosity: int = 1, failfast: bool = False, buffer: bool = False, **_: Any) -> None:
        self.counts = Counts(verbosity)
        self.counts.failfast, self.counts.buffer = failfast, buffer

    def run(self, test: unittest.TestSuite | unittest.TestCase) -> Counts:
        test(self.counts)
        return self.counts


def main(module: str | None = "__main__") -> NoReturn:
    """Runs the tests of the module that is run as a file, or without one those that the command line names, with the words of
    unittest's command line; the last line counts the checks."""
    ran = unittest.main(module, testRunner=Runner, exit=False)
    assert isinstance(ran.result, Counts)
    sys.exit(ran.result.end())


if __name__ == "__main__":
    # (as a module by this name, so that its classes are those that the tests import)
    importlib.import_module("test_support").main(None)
