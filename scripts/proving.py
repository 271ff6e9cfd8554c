"""What the scripts for proofs, builds and releases share: the crates of crates.txt, bare copies for `rt ci`, digests of sources,
and the programs that a proof leaves in the checkout, each with a stamp of its sources and its origin. The digest of the sources
decides which program is current; the kit that built it is recorded, but never compared.
"""

from __future__ import annotations

import contextlib
import fcntl
import hashlib
import os
import re
import shutil
import subprocess
import sys
import tempfile
import time
from collections.abc import Iterable, Iterator
from dataclasses import dataclass

ROOT = os.path.dirname(os.path.dirname(os.path.realpath(__file__)))
PROGRAM = "candesk"
# the parts of a crate that its proof reads
PARTS = ("src", "specs", "proofs")
# the file with the program's version, the word there that a complete proof replaces with digits of the digest, and how many digits
VERSION_FILE = "crates/candesk_words/src/version.rt"
UNPROVED = "development"
DIGITS = 12
# the origin of the program in the checkout: a complete proof here, a build from kept checks, a pack, or dist/
PROOF, KEPT, PACK, DIST = "proof", "kept", "pack", "dist"
NO_KIT = "rt of the Rattle kit isn't on the PATH"
# how far a file's time is set back so that no change at the same moment is missed, in nanoseconds
MOMENT = 10_000_000


@dataclass(frozen=True)
class Stamp:
    """The sources and the kit of a program, its checksum, and its origin."""

    kit: str
    sources: str
    program: str
    origin: str

    def packed(self) -> str:
        """The stamp in a pack or a package: all except the origin."""
        return f"{self.kit}\nsources {self.sources}\nprogram {self.program}\n"

    def text(self) -> str:
        return f"{self.packed()}from {self.origin}\n"


@dataclass(frozen=True)
class Built:
    """A program that a proof leaves in the checkout: its crate, and the name of its file."""

    crate: str
    name: str

    @property
    def path(self) -> str:
        return f"{ROOT}/crates/{self.crate}/out/{self.name}"

    @property
    def stamp_path(self) -> str:
        return f"{self.path}.stamp-of-sources"

    def stamp(self) -> Stamp:
        """Its stamp. Raises ValueError or OSError if it has none that can be read."""
        with open(self.stamp_path, encoding="utf-8") as text:
            kit, *rest = text.read().splitlines()
        found = dict(line.split(" ", 1) for line in rest)
        try:
            return Stamp(kit, found["sources"], found["program"], found["from"])
        except KeyError as missing:
            raise ValueError(f"the stamp has no {missing}") from None

    def current(self) -> Stamp | None:
        """Its stamp if it is built from the current sources, else None."""
        try:
            stamp = self.stamp()
            is_same = stamp.sources == sources_of(self.crate) and stamp.program == sum_of(self.path)
            return stamp if is_same and os.access(self.path, os.X_OK) else None
        except (OSError, ValueError):
            return None

    def take(self, file: str, sources: str, kit: str, origin: str, read_at: int | None = None) -> None:
        """Copies a program into the checkout. It was built from these sources, which were read at this time, in nanoseconds."""
        os.makedirs(os.path.dirname(self.path), exist_ok=True)
        made = f"{self.path}.new-{os.getpid()}"
        shutil.copyfile(file, made)
        os.chmod(made, 0o755)
        set_time(made, read_at)
        with contextlib.suppress(FileNotFoundError):
            os.remove(self.stamp_path)
        os.replace(made, self.path)
        self.stamp_as(sources, kit, origin)

    def stamp_as(self, sources: str, kit: str, origin: str) -> None:
        made = f"{self.stamp_path}.new-{os.getpid()}"
        with open(made, "w", encoding="utf-8") as text:
            text.write(Stamp(kit, sources, sum_of(self.path), origin).text())
        os.replace(made, self.stamp_path)


CANDESK = Built(PROGRAM, PROGRAM)
# the tests of the program's calls, and the program that makes these calls one by one
TESTS = Built("can_tests", "can_tests_tests")
PROBE = Built("candesk_probe", "candesk_probe")
ALL_BUILT = (CANDESK, TESTS, PROBE)


def set_time(file: str, at: int | None = None) -> None:
    """Sets the time of a program so that sources are newer if they change after this time, in nanoseconds, or from now on."""
    before = (at or time.time_ns()) - MOMENT
    os.utime(file, ns=(before, before))


# ---- crates


def dependencies(root: str = ROOT) -> dict[str, list[str]]:
    """The crates of crates.txt, each with the names of its dependencies."""
    found = {}
    with open(f"{root}/crates.txt", encoding="utf-8") as lines:
        for line in lines:
            name, colon, below = line.partition("#")[0].partition(":")
            if colon:
                found[name.split()[0]] = below.split()
    return found


def with_below(*names: str) -> list[str]:
    """These crates and all their dependencies, each crate after its own."""
    below = dependencies()
    found: list[str] = []

    def add(name: str) -> None:
        if name in below and name not in found:
            for it in below[name]:
                add(it)
            found.append(name)

    for name in names:
        add(name)
    return found


def files_of(crate: str, parts: Iterable[str] = PARTS, root: str = ROOT) -> Iterator[str]:
    """The files in these parts of a crate, without files that an editor puts next to them."""
    for part in parts:
        for at, folders, names in os.walk(f"{root}/crates/{crate}/{part}"):
            folders.sort()
            for name in sorted(names):
                if not name.startswith(".") and not name.endswith("~"):
                    yield f"{at}/{name}"


def kit_line() -> str:
    """The name that the kit reports, or an empty text if there is no kit."""
    if not shutil.which("rt"):
        return ""
    return subprocess.run(["rt", "version"], capture_output=True, text=True, check=False).stdout.strip()


# ---- digests


def digest_of(names: Iterable[str], root: str = ROOT, others: Iterable[str] = ()) -> str:
    """A digest of the sources of some crates, and of other files; contents count, and no times or absolute paths."""
    total, below, names = hashlib.sha256(), dependencies(root), list(names)
    for name in names:
        total.update(f"\0{name}: {' '.join(below[name])}".encode())
    for file in [f"{root}/HANDLES", *(it for name in names for it in files_of(name, root=root)), *others]:
        total.update(f"\0{os.path.relpath(file, root)}\0{sum_of(file)}".encode())
    return total.hexdigest()


def sources_of(crate: str, root: str = ROOT) -> str:
    """The digest of the sources of a crate and of all crates below it. `--version` has the first digits of the program's, so the
    same sources give the same version whatever kit builds them."""
    return digest_of(with_below(crate), root)


def sum_of(file: str) -> str:
    with open(file, "rb") as text:
        return hashlib.sha256(text.read()).hexdigest()


# ---- proofs


@contextlib.contextmanager
def alone(what: str) -> Iterator[None]:
    """Waits until no other run has locked this checkout, and reports on standard error that it waits."""
    held = os.open(ROOT, os.O_RDONLY)
    try:
        try:
            fcntl.flock(held, fcntl.LOCK_EX | fcntl.LOCK_NB)
        except BlockingIOError:
            print(f"{what}: waiting for another build of this checkout", file=sys.stderr, flush=True)
            fcntl.flock(held, fcntl.LOCK_EX)
        yield
    finally:
        os.close(held)


@dataclass(frozen=True)
class BareCopy:
    """A copy of crates that `rt ci` takes for a whole repository: its folder, when it was made, the kit that is here, and the
    digest of the sources of each program that it builds, as they were copied."""

    path: str
    made_at: int
    kit: str
    sources: dict[str, str]

    def take(self, built: Built) -> bool:
        """Copies a program that was built here into the checkout, and returns whether there is one."""
        file = f"{self.path}/crates/{built.crate}/out/{built.name}"
        if built.crate not in self.sources or not os.path.isfile(file):
            return False
        built.take(file, self.sources[built.crate], self.kit, PROOF, self.made_at)
        return True


def copy_crates(names: Iterable[str], tried: Iterable[str], folder: str) -> None:
    """Makes a folder the root of a repository with these crates, without build outputs, and with the must-fail edits of the crates
    that are tried."""
    os.mkdir(f"{folder}/.git")
    for name in names:
        left_out = ("out",) if name in tried else ("out", "must-fail")
        shutil.copytree(f"{ROOT}/crates/{name}", f"{folder}/crates/{name}", ignore=shutil.ignore_patterns(*left_out))
    below = dependencies()
    with open(f"{folder}/crates.txt", "w", encoding="utf-8") as lines:
        lines.writelines(f"{name}: {' '.join(below[name])}\n" for name in names)
    shutil.copyfile(f"{ROOT}/HANDLES", f"{folder}/HANDLES")


@contextlib.contextmanager
def bare_copy(names: list[str], tried: Iterable[str] = ()) -> Iterator[BareCopy]:
    """A temporary copy of the crates, with the must-fail edits of some, and without build outputs. The version of the program there
    has digits of the digest of its sources."""
    sweep()
    with tempfile.TemporaryDirectory(prefix=f"candesk-copy-{os.getpid()}-") as folder:
        made_at, kit = time.time_ns(), kit_line()
        copy_crates(names, set(tried), folder)
        sources = {it.crate: sources_of(it.crate, folder) for it in ALL_BUILT if set(with_below(it.crate)) <= set(names)}
        if os.path.dirname(os.path.dirname(VERSION_FILE)) in (f"crates/{it}" for it in names):
            name_build(f"{folder}/{VERSION_FILE}", sources.get(PROGRAM) or sources_of(PROGRAM))
        yield BareCopy(folder, made_at, kit, sources)


def name_build(file: str, digest: str) -> None:
    """Puts digits of the digest into the program's version."""
    with open(file, encoding="utf-8") as text:
        before, *after = text.read().split(UNPROVED)
    if len(after) != 1:
        why = f"must have the word {UNPROVED} once, and has it {len(after)} times"
        sys.exit(f"{os.path.basename(sys.argv[0])}: {VERSION_FILE} {why}")
    with open(file, "w", encoding="utf-8") as text:
        text.write(f"{before}{digest[:DIGITS]}{after[0]}")


def sweep() -> None:
    """Removes the copies of runs that were killed."""
    for name in os.listdir(tempfile.gettempdir()):
        found = re.match(r"candesk-copy-(\d+)-", name)
        if found and not os.path.exists(f"/proc/{found[1]}"):
            shutil.rmtree(f"{tempfile.gettempdir()}/{name}", ignore_errors=True)
