#!/usr/bin/env python3
"""Each package installs into a fresh root, runs README's first example there without the kit, and is removed again.

A .deb is installed and removed by dpkg if the user may do that, else unpacked.
"""

from __future__ import annotations

import glob
import os
import shutil
import sys
import tempfile
from typing import ClassVar

sys.dont_write_bytecode = True
sys.path.insert(0, os.path.dirname(os.path.realpath(__file__)))

from test_support import ROOT, Case, content, first_example, main, put, run  # noqa: E402

DOCUMENTS = "share/doc/candesk"
# the PATH of a fresh system, without the kit
PATH = "/usr/bin:/bin"
# dpkg in a folder of its own, in which no libc6 is installed
DPKG = ("--force-depends", "--force-not-root", "--force-script-chrootless", "--log=/dev/null")
# what a run ends with: status, output and errors, as texts
EndedInTexts = tuple[int | None, str, str]


def ran(words: list[str], folder: str | None = None, **surroundings: str) -> EndedInTexts:
    """What a run ends with: status, output and errors, as texts."""
    status, output, errors = run(words, cwd=folder, env=dict(os.environ, **surroundings))
    return status, output.decode(), errors.decode()


def files_below(folder: str) -> list[str]:
    return [at for at, _, names in os.walk(folder) for _ in names]


class Packages(Case):
    """The packages, made twice in one folder."""

    room: ClassVar[str]
    made: ClassVar[list[tuple[str, EndedInTexts]]]

    @classmethod
    def setUpClass(cls) -> None:
        folder = tempfile.TemporaryDirectory()
        cls.addClassCleanup(folder.cleanup)
        cls.room = folder.name
        cls.made = [(name, ran([f"{ROOT}/scripts/package", f"{cls.room}/{name}"])) for name in ("made", "again")]

    def test_made_twice(self) -> None:
        for name, (status, _, errors) in self.made:
            self.check_true(f"packages, {name}", status == 0, errors)
        sums = ran(["sha256sum", "-c", "--quiet", "SHA256SUMS"], f"{self.room}/made")
        self.check_equal("sums of the packages", sums, (0, "", ""))
        differing = ran(["diff", "-r", f"{self.room}/made", f"{self.room}/again"])
        self.check_equal("made twice, they have the same bytes", differing, (0, "", ""))

    def test_deb(self) -> None:
        """A .deb is installed and removed by dpkg in a root of its own, or unpacked if this user may not do that."""
        (package,) = glob.glob(f"{self.room}/made/*.deb")
        root = f"{self.room}/root"
        os.makedirs(f"{root}/var/lib/dpkg/info")
        os.makedirs(f"{root}/var/lib/dpkg/updates")
        for name in ("status", "available"):
            put(f"{root}/var/lib/dpkg", name, b"")
        if os.geteuid() != 0:
            self.check_equal("deb: unpacked", ran(["dpkg-deb", "-x", package, root])[0], 0)
            self.check_prefix("deb", f"{root}/usr")
            return
        # (dpkg looks there for programs that it may need)
        path = f"{os.environ['PATH']}:/usr/sbin:/sbin"
        status, _, errors = ran(["dpkg", f"--root={root}", *DPKG, "-i", package], PATH=path)
        self.check_true("deb: installed", status == 0, errors)
        self.check_prefix("deb", f"{root}/usr")
        status, _, errors = ran(["dpkg", f"--root={root}", *DPKG, "-P", "candesk"], PATH=path)
        left = files_below(f"{root}/usr")
        self.check_true("deb: removed", status == 0 and not left, (errors, left))

    def test_tar(self) -> None:
        (package,) = glob.glob(f"{self.room}/made/*.tar.gz")
        folder = f"{self.room}/unpacked"
        os.mkdir(folder)
        self.check_equal("tar: unpacked", ran(["tar", "-xzf", package, "-C", folder])[0], 0)
        (top,) = os.listdir(folder)
        self.check_prefix("tar", f"{folder}/{top}")

    def check_prefix(self, what: str, prefix: str) -> None:
        """Checks what is below a prefix: sums, the build's identity, the manual page and README's first example."""
        path = f"{prefix}/bin:{PATH}"
        has_kit = shutil.which("rt", path=PATH) is not None
        self.check_true(f"{what}: no kit", not has_kit, "rt is on the PATH of a system without the kit")
        sums = ran(["sha256sum", "-c", "--quiet", f"{DOCUMENTS}/SHA256SUMS"], prefix)
        self.check_equal(f"{what}: sums", sums, (0, "", ""))
        lines = content(f"{prefix}/{DOCUMENTS}/BUILD").decode().splitlines()
        self.check_equal(f"{what}: version", ran(["candesk", "--version"], PATH=path), (0, f"{lines[0]}\n", ""))
        self.check_equal(f"{what}: BUILD", [it.split()[0] for it in lines], ["candesk", "kit", "sources", "program"])
        page = ran(["gzip", "-dc", f"{prefix}/share/man/man1/candesk.1.gz"])
        self.check_true(f"{what}: manual page", ".Dt CANDESK 1" in page[1], page[2])
        command, wanted = first_example()
        command = command.replace("./candesk", "candesk")
        got = ran(["bash", "-c", command], f"{prefix}/{DOCUMENTS}", PATH=path)
        self.check_equal(f"{what}: README's first example, {command}", got, (0, wanted, ""))
        words = ["candesk-table", "--database", "examples/wheel.dbc", "--message", "Wheel", "examples/wheel.log"]
        table = ran(words, f"{prefix}/{DOCUMENTS}", PATH=path)
        self.check_equal(f"{what}: a table", table, (0, "time,interface,identifier,Speed\n1.5,can0,123,537\n", ""))


if __name__ == "__main__":
    main()
