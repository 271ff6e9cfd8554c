#!/usr/bin/env python3
"""dist/ in scratch copies of the checkout: the first answer and how soon it comes, what is reported of where the program is from,
that a stale or damaged dist/ is noticed, and that all that needs the program takes it from there.

Each copy has the files that git has or would take, so nothing is built there. No kit is needed: without one, a script that prints
its name is run instead of `rt`, as for a kit of another name.
"""

from __future__ import annotations

import os
import pty
import shutil
import subprocess
import sys
import tempfile
import time
import unittest
from collections.abc import Callable, Iterator
from typing import ClassVar

sys.dont_write_bytecode = True
sys.path.insert(0, os.path.dirname(os.path.realpath(__file__)))

from test_support import ROOT, Case, Ended, cases, content, first_example, main, put, run, script  # noqa: E402

proving, dist = script("proving"), script("dist")
NO_PROGRAM = 70
# how soon an answer has to come, and how soon ./test has to stop, in seconds; and how often an answer is asked for
SOON = 1
STOPS = 10
ASKED = 3
# a day, in seconds
DAY = 86_400
COMMAND, ANSWER = first_example()
ANSWERED = (0, ANSWER.encode(), b"")
FIX = (b"scripts/release --dist", b"scripts/prove candesk")
# what a shell script of the checkout needs without Python
SHELL_TOOLS = ("bash", "dirname", "env", "find", "readlink", "uname")


def tracked() -> list[str]:
    """The files of the checkout that git has or would take; without git, all except what was built."""
    words = ["git", "ls-files", "-z", "--cached", "--others", "--exclude-standard"]
    listed = run(words, cwd=ROOT) if shutil.which("git") else (1, b"", b"")
    if listed[0] == 0:
        return [it for it in sorted(set(os.fsdecode(listed[1]).split("\0"))) if os.path.isfile(f"{ROOT}/{it}")]
    walked = (f"{at}/{name}" for at, _, names in os.walk(ROOT) for name in names)
    return [os.path.relpath(it, ROOT) for it in walked if not {"out", ".git"} & set(os.path.relpath(it, ROOT).split("/"))]


class Copies:
    """Scratch copies of the checkout, each with nothing built, and the words of PATH with and without the kit. All except the
    first have links to its files, so that many cost little: a file that is changed has to be written anew, by `rewrite`."""

    def __init__(self, folder: str) -> None:
        self.folder, self.files, self.count = folder, tracked(), 0
        self.first = self.new(shutil.copy)
        self.bare = self.path_without_kit()
        self.kit = os.environ["PATH"] if shutil.which("rt") else f"{self.fake_rt(dist.build_lines()['kit'])}:{self.bare}"
        self.other_kit = f"{self.fake_rt('another kit')}:{self.bare}"

    def path_without_kit(self) -> str:
        """The folders of PATH except those with `rt`, and Python, which may be in one of these."""
        python = self.tools({"python3": sys.executable})
        return ":".join([python, *(it for it in os.environ["PATH"].split(":") if not os.path.exists(f"{it}/rt"))])

    def tools(self, links: dict[str, str]) -> str:
        """A folder with links of these names."""
        folder = tempfile.mkdtemp(dir=self.folder)
        for name, to in links.items():
            os.symlink(to, f"{folder}/{name}")
        return folder

    def fake(self, name: str, text: str) -> str:
        """A folder with a shell script of this name."""
        folder = tempfile.mkdtemp(dir=self.folder)
        os.chmod(put(folder, name, f"#!/bin/sh\n{text}\n".encode()), 0o755)
        return folder

    def fake_rt(self, line: str) -> str:
        return self.fake("rt", f"echo '{line}'")

    def new(self, copied: Callable[[str, str], object] = os.link) -> str:
        self.count += 1
        copy = f"{self.folder}/copy-{self.count}"
        for folder in {os.path.dirname(it) for it in self.files}:
            os.makedirs(f"{copy}/{folder}", exist_ok=True)
        for file in self.files:
            copied(f"{ROOT if self.count == 1 else self.first}/{file}", f"{copy}/{file}")
        return copy


def ended(copy: str, words: list[str], path: str, **more: str) -> Ended:
    """What a command in a copy ends with, with this PATH and more of an environment."""
    return run(words, cwd=copy, env={**os.environ, "PATH": path, "CI": "", **more})


def asked(copy: str, path: str) -> Ended:
    """What README's first command ends with."""
    return ended(copy, ["bash", "-c", COMMAND], path)


def timed(action: Callable[[], Ended]) -> tuple[float, Ended]:
    began = time.monotonic()
    found = action()
    return time.monotonic() - began, found


def is_one_line(got: Ended, status: int, *parts: bytes) -> bool:
    """Whether a run ended with this status and one line on standard error that has these parts."""
    return got[0] == status and got[2].count(b"\n") == 1 and all(it in got[2] for it in parts) and b"Traceback" not in got[2]


def on_terminal(copy: str, path: str) -> str:
    """What README's first command writes on standard error where that is a terminal."""
    terminal, end = pty.openpty()
    with subprocess.Popen(
        ["bash", "-c", COMMAND], cwd=copy, env={**os.environ, "PATH": path}, stdout=subprocess.DEVNULL, stderr=end
    ) as running:
        os.close(end)
        output = b"".join(pieces(terminal))
        running.wait()
    os.close(terminal)
    return output.decode()


def pieces(terminal: int) -> Iterator[bytes]:
    while True:
        try:
            piece = os.read(terminal, 65_536)
        except OSError:
            return
        if not piece:
            return
        yield piece


def rewrite(path: str, data: bytes) -> None:
    """Puts other bytes into a file of a copy, and into no other that is linked to it."""
    made = put(os.path.dirname(path), ".rewritten", data)
    os.chmod(made, os.stat(path).st_mode)
    os.replace(made, path)


def append(copy: str, file: str, text: bytes = b"\n") -> None:
    rewrite(f"{copy}/{file}", content(f"{copy}/{file}") + text)


def flip_byte(path: str) -> None:
    data = bytearray(content(path))
    data[len(data) // 2] ^= 1
    rewrite(path, bytes(data))


def in_copy(copy: str, text: str, path: str) -> Ended:
    """What lines of Python end with that use the scripts of a copy."""
    head = f"import sys; sys.dont_write_bytecode = True; sys.path.insert(0, {copy + '/scripts'!r}); import dist, proving\n"
    return ended(copy, [sys.executable, "-c", head + text], path)


def take(copy: str, file: str, origin: str, path: str, by: str = "") -> None:
    """Puts a program into a copy that came about in this way, built by this kit or the one that built dist's by its stamp."""
    kit = by or dist.build_lines()["kit"]
    text = f"proving.CANDESK.take({file!r}, proving.sources_of(proving.PROGRAM), {kit!r}, {origin!r})"
    assert in_copy(copy, text, path)[0] == 0


# the copies that all classes share
COPIES: list[Copies] = []


def setUpModule() -> None:
    stamp, why = dist.state()
    if not stamp:
        raise AssertionError(why)
    folder = tempfile.TemporaryDirectory()
    unittest.addModuleCleanup(folder.cleanup)
    copies = Copies(folder.name)
    got = ended(copies.first, ["scripts/release", "--dist", "--check"], copies.kit)
    # (else each copy would begin to build)
    if got[0] != 0:
        raise AssertionError(f"dist of a copy: {got}")
    COPIES.append(copies)
    unittest.addModuleCleanup(COPIES.clear)


class DistCase(Case):
    copies: ClassVar[Copies]

    @classmethod
    def setUpClass(cls) -> None:
        cls.copies = COPIES[0]

    def paths(self) -> tuple[tuple[str, str], ...]:
        """The words of PATH with the kit, with one of another name, and without."""
        copies = self.copies
        return ("with rt", copies.kit), ("with another kit's rt", copies.other_kit), ("without rt", copies.bare)


class Current(DistCase):
    """What the setup of the module found, as checks."""

    def test_dist(self) -> None:
        stamp, why = dist.state()
        self.check("dist", None if stamp else why)

    def test_dist_of_a_copy(self) -> None:
        got = ended(self.copies.first, ["scripts/release", "--dist", "--check"], self.copies.kit)
        self.check_true("dist of a copy", got[0] == 0, got)


class FirstAnswer(DistCase):
    """What a fresh checkout answers, and where its program is from."""

    def test_first_answer(self) -> None:
        for name, path in self.paths():
            least = 2.0 * SOON
            for _ in range(ASKED):
                copy = self.copies.new()
                taken, got = timed(lambda: asked(copy, path))
                self.check_equal(f"first answer {name}", got, ANSWERED)
                least = min(least, taken)
            self.check_true(f"first answer {name}, soon", least < SOON, f"it takes {least:.2f} seconds")
            least = 2.0 * SOON
            for _ in range(ASKED):
                taken, got = timed(lambda: asked(copy, path))
                self.check_equal(f"second answer {name}", got, ANSWERED)
                least = min(least, taken)
            self.check_true(f"second answer {name}, soon", least < SOON, f"it takes {least:.2f} seconds")
            no_python = f"{self.copies.fake('python3', 'exit 9')}:{path}"
            self.check_equal(f"second answer {name}, at once", asked(copy, no_python), ANSWERED)

    def test_times_to_come(self) -> None:
        """Sources whose times are still to come don't slow the second call down, and a change is still noticed."""
        copy, later = self.copies.new(shutil.copy), time.time() + DAY
        for file in self.copies.files:
            os.utime(f"{copy}/{file}", (later, later))
        self.check_equal("times to come, first answer", asked(copy, self.copies.bare), ANSWERED)
        no_python = f"{self.copies.fake('python3', 'exit 9')}:{self.copies.bare}"
        self.check_equal("times to come, second answer", asked(copy, no_python), ANSWERED)
        time.sleep(0.02)
        append(copy, "crates/candesk/src/main.rt")
        got = asked(copy, self.copies.bare)
        self.check_true("times to come, a change", is_one_line(got, NO_PROGRAM, b"stale"), got)

    def test_unwritable(self) -> None:
        """Where the checkout can't be written, dist's program runs where it is."""
        copy = self.copies.new()
        put(f"{copy}/crates/candesk", "out", b"")
        for _ in range(2):
            self.check_equal("a checkout that can't be written", asked(copy, self.copies.bare), ANSWERED)
        got = ended(copy, ["scripts/build", "--find"], self.copies.bare)
        self.check_equal("the program there", got, (0, f"{copy}/dist/{dist.NAME}\n".encode(), b""))

    def test_notice(self) -> None:
        """Where the program comes from is reported once, on a terminal."""
        copy = self.copies.new()
        first, second = on_terminal(copy, self.copies.bare), on_terminal(copy, self.copies.bare)
        has_all = first.count("\n") == 1 and all(it in first for it in (dist.NAME, dist.PROVE, dist.PROOF_COST))
        self.check_true("on a terminal", has_all, first)
        self.check_equal("on a terminal, again", second, "")
        copy = self.copies.new()
        self.check_equal("not on a terminal", asked(copy, self.copies.bare), ANSWERED)
        lines = [on_terminal(copy, self.copies.bare) for _ in range(2)]
        self.check_equal("on a terminal after that, and again", lines, [first, ""])

    def test_proved(self) -> None:
        """A program that was proved here is the one that runs, and nothing is reported of dist's."""
        copy = self.copies.new()
        asked(copy, self.copies.bare)
        own = f"{self.copies.fake('own', 'echo proved here')}/own"
        take(copy, own, proving.PROOF, self.copies.bare)
        self.check_equal("proved here, on a terminal", on_terminal(copy, self.copies.bare), "")
        self.check_equal("proved here", asked(copy, self.copies.bare), (0, b"proved here\n", b""))

    def test_version(self) -> None:
        build = dist.build_lines()
        wanted = f"candesk {build['version']} ({build['digest'][: proving.DIGITS]})\n"
        got = ended(self.copies.new(), ["./candesk", "--version"], self.copies.bare)
        self.check_equal("--version", got, (0, wanted.encode(), b""))


class Stale(DistCase):
    """A dist/ that isn't of these sources."""

    def test_check(self) -> None:
        copy = self.copies.new()
        for name, path in self.paths():
            taken, got = timed(lambda: ended(copy, ["scripts/release", "--dist", "--check"], path))
            is_right = got[0] == 0 and got[1].count(b"\n") == 1 and not got[2] and taken < SOON
            self.check_true(f"--check {name}", is_right, (taken, got))
        for file in ("README.md", "docs/MANUAL.md", "tests/test_widths.py", "scripts/prove", "tools/candesk-table", "CHANGELOG.md"):
            append(copy, file)
        put(f"{copy}/crates/candesk_words/must-fail", "other.edit", b"")
        put(f"{copy}/crates/candesk_words/src", ".line.rt.swp", b"")
        got = ended(copy, ["scripts/release", "--dist", "--check"], self.copies.bare)
        self.check_true("--check after changes of what no proof reads", got[0] == 0, got)

    def check_stops(self, what: str, copy: str, path: str) -> None:
        """A dist/ that isn't of these sources is reported, with what to do; the gate stops, and nothing of it runs."""
        got = ended(copy, ["scripts/release", "--dist", "--check"], path)
        if not self.check_true(f"{what}: --check", is_one_line(got, 1, *FIX) and not got[1], got):
            # (the gate wouldn't stop)
            return
        taken, stopped = timed(lambda: ended(copy, ["./test"], path))
        self.check_equal(f"{what}: ./test", stopped, (1, b"0 passed, 1 failed\n", got[2]))
        self.check_true(f"{what}: ./test stops soon", taken < STOPS, f"it takes {taken:.1f} seconds")

    def test_stale(self) -> None:
        copy = self.copies.new()
        flip_byte(f"{copy}/dist/{dist.NAME}")
        self.check_stops("a changed byte", copy, self.copies.kit)
        got = asked(copy, self.copies.bare)
        self.check_true("a changed byte: without rt", is_one_line(got, NO_PROGRAM, b"damaged", b"rt of the Rattle kit"), got)
        for file in ("crates/dbc_values/src/lib.rt", proving.VERSION_FILE, "HANDLES"):
            copy = self.copies.new()
            asked(copy, self.copies.bare)
            time.sleep(0.02)
            append(copy, file)
            self.check_stops(f"a changed {file}", copy, self.copies.kit)
            got = asked(copy, self.copies.bare)
            self.check_true(f"a changed {file}: without rt", is_one_line(got, NO_PROGRAM, b"stale", b"rt of the Rattle kit"), got)
        copy = self.copies.new()
        shutil.rmtree(f"{copy}/dist")
        self.check_stops("no dist", copy, self.copies.kit)


class Missing(DistCase):
    """Other systems, and what is missing."""

    def test_systems(self) -> None:
        copy = self.copies.new()
        for system, machine in (("Darwin", "arm64"), ("Linux", "aarch64"), ("FreeBSD", "x86_64")):
            fake = self.copies.fake("uname", f'if [ "$1" = -s ]; then echo {system}; else echo {machine}; fi')
            for words in (["./candesk", "--help"], ["./install", f"{copy}/prefix"]):
                got = ended(copy, words, f"{fake}:{self.copies.bare}")
                is_right = is_one_line(got, NO_PROGRAM, f"{system} on {machine}".encode(), b"Linux on x86-64")
                self.check_true(f"{words[0]} on {system}, {machine}", is_right and not got[1], got)

    def test_missing(self) -> None:
        """Without Python or the kit, one line reports it."""
        copy = self.copies.new()
        no_python = self.copies.tools({it: shutil.which(it) or "" for it in SHELL_TOOLS})
        got = ended(copy, ["./candesk", "--help"], no_python)
        self.check_true("without python3", is_one_line(got, NO_PROGRAM, b"python3"), got)
        got = ended(copy, ["./test"], self.copies.bare)
        is_right = is_one_line(got, 1, b"rt of the", b"--quick") and got[1].endswith(b"\n0 passed, 1 failed\n")
        self.check_true("./test without rt", is_right, got)
        got = ended(copy, ["scripts/prove", "candesk"], self.copies.bare)
        self.check_true("prove without rt", is_one_line(got, 1, b"prove: rt of the") and not got[1], got)
        self.check_equal("scripts/build --find", ended(copy, ["scripts/build", "--find"], self.copies.bare)[0], 0)
        got = ended(copy, ["scripts/build", "--find", "candesk_probe"], self.copies.bare)
        self.check_true("a program of tests", is_one_line(got, NO_PROGRAM, b"scripts/prove candesk_probe"), got)
        for words in (["--frob"], ["crates"], ["--quick", "--frob"]):
            got = ended(copy, ["./test", *words], self.copies.bare)
            self.check_true(f"./test {' '.join(words)}", is_one_line(got, 2, b"./test --help") and not got[1], got)
        got = ended(copy, ["./test", "--help"], self.copies.bare)
        self.check_true("./test --help", got[0] == 0 and b"--quick" in got[1] and not got[2], got)


class Making(DistCase):
    """dist/ is made of a program that a complete proof built here, and of no other."""

    def test_making(self) -> None:
        """dist/ is made of a program that a complete proof built here, and of no other."""
        copy, program = self.copies.new(), f"{ROOT}/dist/{dist.NAME}"
        before = {name: content(f"{copy}/dist/{name}") for name in sorted(os.listdir(f"{copy}/dist"))}
        got = ended(copy, ["scripts/release", "--dist"], self.copies.bare)
        self.check_true("--dist of nothing", is_one_line(got, 1, b"scripts/prove candesk"), got)
        for origin in (proving.DIST, proving.PACK, proving.KEPT):
            take(copy, program, origin, self.copies.bare)
            got = ended(copy, ["scripts/release", "--dist"], self.copies.bare)
            self.check_true(f"--dist of a program from {origin}", is_one_line(got, 1, b"scripts/prove candesk") and not got[1], got)
        take(copy, program, proving.PROOF, self.copies.bare)
        times = [os.stat(f"{copy}/dist/{name}").st_mtime_ns for name in before]
        got = ended(copy, ["scripts/release", "--dist"], self.copies.bare)
        is_untouched = times == [os.stat(f"{copy}/dist/{name}").st_mtime_ns for name in before]
        self.check_true("--dist of a proof, there already", got[0] == 0 and is_untouched, got)
        shutil.rmtree(f"{copy}/dist")
        got = ended(copy, ["scripts/release", "--dist"], self.copies.bare)
        after = {name: content(f"{copy}/dist/{name}") for name in sorted(os.listdir(f"{copy}/dist"))}
        is_program = os.access(f"{copy}/dist/{dist.NAME}", os.X_OK)
        self.check_true("--dist of a proof, anew", got[0] == 0 and after == before and is_program, got)
        append(copy, "crates/dbc_values/src/lib.rt")
        got = ended(copy, ["scripts/release", "--dist"], self.copies.bare)
        self.check_true("--dist after a change", is_one_line(got, 1, b"scripts/prove candesk"), got)

    def test_room(self) -> None:
        """The version of what is proved shows what it is built from, and the digest is of the sources as they are."""
        copy = self.copies.new()
        text = f"""
with proving.bare_copy(proving.with_below(proving.PROGRAM)) as room:
    print(room.sources[proving.PROGRAM], end=" ")
    print(open(room.path + "/" + {proving.VERSION_FILE!r}).read().rpartition("(")[2].partition(")")[0])
"""
        sources = proving.sources_of(proving.PROGRAM)
        for path in (self.copies.kit, self.copies.other_kit, self.copies.bare):
            wanted = f"{sources} {sources[:12]}\n"
            self.check_equal("the version of what is proved", in_copy(copy, text, path), (0, wanted.encode(), b""))
        append(copy, proving.VERSION_FILE, b"// development\n")
        got = in_copy(copy, text, self.copies.bare)
        self.check_true("a version with the word twice", is_one_line(got, 1, proving.VERSION_FILE.encode()), got)

    def test_same_bytes(self) -> None:
        """What `test_same_bytes` reports of the program of a proof, and of none."""
        other = put(tempfile.mkdtemp(dir=self.copies.folder), "other", b"abxd")
        words, copy = ["tests/test_same_bytes.py"], self.copies.new()
        got = ended(copy, words, self.copies.bare, CANDESK_PROVED="yes")
        self.check_true("same_bytes of no proof", got[0] == 1 and b"scripts/prove candesk" in got[1], got)
        take(copy, f"{ROOT}/dist/{dist.NAME}", proving.PROOF, self.copies.bare)
        got = ended(copy, words, self.copies.bare, CANDESK_PROVED="yes")
        self.check_true("same_bytes of a proof", got[0] == 0, got)
        kit = dist.build_lines()["kit"]
        of_another = f"{kit} built dist/, and another kit".encode()
        for by, status, part in ((kit, 1, b"0 passed, 1 failed"), ("another kit", 0, of_another)):
            take(copy, other, proving.PROOF, self.copies.bare, by)
            got = ended(copy, words, self.copies.bare, CANDESK_PROVED="yes")
            self.check_true(f"same_bytes of other bytes by {by}", got[0] == status and part in got[1], got)


@cases([
    ("the same", b"abcd", 0, b"1 passed, 0 failed"),
    ("another byte", b"abxd", 1, b"offset 2;"),
    ("a byte more", b"abcde", 1, b"offset 4;"),
    ("no file", None, 1, b"No such file"),
])
class SameBytes(DistCase):
    """What `test_same_bytes` reports of two files, the first of which has four bytes."""

    def row(self, name: str, data: bytes | None, status: int, part: bytes) -> None:
        folder = tempfile.mkdtemp(dir=self.copies.folder)
        one, other = put(folder, "one", b"abcd"), f"{folder}/other"
        if data is not None:
            put(folder, "other", data)
        got = ended(ROOT, ["tests/test_same_bytes.py"], os.environ["PATH"], CANDESK_COMPARED=f"{one}:{other}")
        self.check_true(f"same_bytes, {name}", got[0] == status and part in got[1] and not got[2], got)


class Taken(DistCase):
    """What takes the program from dist/."""

    def test_package(self) -> None:
        copy = self.copies.new()
        got = ended(copy, ["scripts/package", "made"], self.copies.bare)
        self.check_true("package", got[0] == 0 and not got[2].strip(b"\n").count(b"\n"), got)
        name = f"candesk-{dist.build_lines()['version']}-x86_64-linux"
        packed = run(["tar", "-xzOf", f"{copy}/made/{name}.tar.gz", f"{name}/bin/candesk"])
        self.check_true("package: its program is dist's", packed[1] == content(f"{ROOT}/dist/{dist.NAME}"), packed[2])
        got = ended(copy, ["scripts/release", "pack"], self.copies.bare)
        self.check_equal("release FILE", got, (0, b"release: packed into pack\n", b""))
        other = self.copies.new()
        got = ended(other, ["scripts/release", "--take", f"{copy}/pack"], self.copies.other_kit)
        self.check_equal("release --take FILE", (got[0], got[2]), (0, b""))
        self.check_equal("what was taken", asked(other, self.copies.bare), ANSWERED)

    def test_install(self) -> None:
        copy = self.copies.new()
        prefix = f"{copy}/out"
        cases: tuple[list[str], ...] = ([], ["bin/other", "share/man/man1/other.1"])
        for others in cases:
            os.makedirs(prefix, exist_ok=True)
            for it in others:
                os.makedirs(os.path.dirname(f"{prefix}/{it}"), exist_ok=True)
                put(prefix, it, b"")
            got = ended(copy, ["./install", prefix], self.copies.bare)
            self.check_true("install", got[0] == 0 and not got[2], got)
            installed = ended(copy, ["bash", "-c", COMMAND.replace("./candesk", f"'{prefix}/bin/candesk'")], self.copies.bare)
            self.check_equal("install: README's first command", installed, ANSWERED)
            got = ended(copy, ["./install", "--uninstall", prefix], self.copies.bare)
            left = sorted(os.path.relpath(f"{at}/{it}", prefix) for at, folders, names in os.walk(prefix) for it in folders + names)
            wanted = sorted({*others, *(os.path.dirname(it) for it in others), *(["share", "share/man"] if others else [])})
            self.check_equal("uninstall", (got[0], got[2], left), (0, b"", wanted))


if __name__ == "__main__":
    main()
