"""dist/: the program in the repository, built by a complete proof of exactly these sources, so that it runs without a build.

Next to the program are its checksum (SHA256SUMS) and its origin (BUILD): its version, the kit that proved it, and the digest of its
sources. The sources decide whether it is current, whatever kit is on the PATH, or none. Everything that needs the program takes it
from there if none was built here from these sources.
"""

from __future__ import annotations

import contextlib
import os
import subprocess
import sys
import time
from dataclasses import dataclass

import proving

FOLDER = "dist"
NAME = "candesk-x86_64-linux"
PROGRAM = f"{proving.ROOT}/{FOLDER}/{NAME}"
SUMS = f"{proving.ROOT}/{FOLDER}/SHA256SUMS"
BUILD = f"{proving.ROOT}/{FOLDER}/BUILD"
# the cost of a complete proof of the program
PROOF_COST = "about 40 minutes on four processors"
PROVE = "scripts/prove candesk"
MAKE = "scripts/release --dist"
NOTICE = (
    f"running {FOLDER}/{NAME}, built by a complete proof of exactly these sources; "
    f"to prove it here, run {PROVE} ({PROOF_COST})"
)
# a file that exists until the notice has been shown
NOTICE_FILE = f"{proving.CANDESK.path}.notice"


@dataclass(frozen=True)
class Found:
    """A program of the current sources: its path, and its stamp."""

    path: str
    stamp: proving.Stamp


def build_lines() -> dict[str, str]:
    """The lines of BUILD, by their first word; empty if it can't be read."""
    try:
        with open(BUILD, encoding="utf-8") as text:
            return dict(line.split(" ", 1) for line in text.read().splitlines())
    except (OSError, ValueError):
        return {}


def state() -> tuple[proving.Stamp | None, str]:
    """The stamp of the program in dist/ if it is built from the current sources; else None and the reason."""
    build = build_lines()
    if not ("kit" in build and "digest" in build and os.path.isfile(PROGRAM)):
        return None, f"{FOLDER}/ has no program"
    sources = proving.sources_of(proving.PROGRAM)
    if build["digest"] != sources:
        return None, f"{FOLDER}/ is stale (built from other sources)"
    try:
        with open(SUMS, encoding="utf-8") as text:
            sums = text.read()
    except OSError:
        sums = ""
    total = proving.sum_of(PROGRAM)
    if sums != sums_line(total):
        return None, f"{FOLDER}/ is damaged (SHA256SUMS has another sum of {NAME})"
    return proving.Stamp(build["kit"], sources, total, proving.DIST), ""


def sums_line(total: str) -> str:
    return f"{total}  {NAME}\n"


def find() -> tuple[Found | None, str]:
    """The program of the current sources: the one that was built here, or else that in dist/, which is copied to its path if the
    checkout is writable. If there is none, None and what is wrong with dist/."""
    stamp = proving.CANDESK.current()
    if stamp:
        return Found(proving.CANDESK.path, stamp), ""
    read_at = time.time_ns()
    stamp, why = state()
    if not stamp:
        return None, why
    try:
        proving.CANDESK.take(PROGRAM, stamp.sources, stamp.kit, proving.DIST, read_at)
        with open(NOTICE_FILE, "w", encoding="utf-8"):
            pass
    except OSError:
        return Found(PROGRAM, stamp), ""
    return Found(proving.CANDESK.path, stamp), ""


def report_once(found: Found) -> None:
    """Shows the notice on a terminal, once, if the program is that in dist/."""
    if not sys.stderr.isatty():
        return
    if found.stamp.origin == proving.DIST and (found.path == PROGRAM or os.path.exists(NOTICE_FILE)):
        print(f"candesk: {NOTICE}", file=sys.stderr, flush=True)
    with contextlib.suppress(OSError):
        os.remove(NOTICE_FILE)


# ---- making it


def version_of(program: str) -> str:
    """The version of a program, by its --version."""
    output = subprocess.run([program, "--version"], capture_output=True, text=True, check=True).stdout
    return output.split()[1]


def files(found: Found) -> dict[str, tuple[bytes, int]]:
    """The contents of dist/ for a program: each file with its bytes and its mode."""
    with open(found.path, "rb") as data:
        program = data.read()
    build = f"version {version_of(found.path)}\nkit {found.stamp.kit}\ndigest {found.stamp.sources}\n"
    return {
        PROGRAM: (program, 0o755),
        SUMS: (sums_line(found.stamp.program).encode(), 0o644),
        BUILD: (build.encode(), 0o644),
    }


def is_already(path: str, data: bytes, mode: int) -> bool:
    """Whether a file has these bytes, and is executable if the mode is."""
    try:
        with open(path, "rb") as text:
            return text.read() == data and os.access(path, os.X_OK) == bool(mode & 0o111)
    except OSError:
        return False


def make(found: Found) -> list[str]:
    """Makes dist/ from a program, and returns the files that were written: only those that differ."""
    written = []
    os.makedirs(os.path.dirname(PROGRAM), exist_ok=True)
    for path, (data, mode) in files(found).items():
        if is_already(path, data, mode):
            continue
        with open(f"{path}.new", "wb") as to:
            to.write(data)
        os.chmod(f"{path}.new", mode)
        os.replace(f"{path}.new", path)
        written.append(os.path.relpath(path, proving.ROOT))
    return written
