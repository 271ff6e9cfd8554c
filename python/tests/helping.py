"""What the tests share: the examples, databases of a few lines, and programs that aren't candesk."""

from __future__ import annotations

import importlib.util
import os
import tempfile
import unittest

HERE = os.path.dirname(os.path.realpath(__file__))
ROOT = os.path.dirname(os.path.dirname(HERE))
CAR, LORRY, WHEEL = (os.path.join(ROOT, "examples", f"{it}.dbc") for it in ("car", "lorry", "wheel"))
CAR_LOG, LORRY_LOG, DRIVE_LOG = (os.path.join(ROOT, "examples", it) for it in ("car.log", "lorry.log", "drive.log"))


def has(package: str) -> bool:
    return importlib.util.find_spec(package) is not None


class Case(unittest.TestCase):
    """A test with a folder of its own."""

    def setUp(self) -> None:
        folder = tempfile.TemporaryDirectory(prefix="candesk-test-")
        self.addCleanup(folder.cleanup)
        self.folder = folder.name

    def written(self, name: str, text: str | bytes, mode: int = 0o644) -> str:
        """A file of the folder."""
        path = os.path.join(self.folder, name)
        with open(path, "wb") as file:
            file.write(text.encode() if isinstance(text, str) else text)
        os.chmod(path, mode)
        return path

    def program(self, text: str) -> None:
        """Makes a shell script the program, for this test."""
        before = os.environ.get("CANDESK")
        os.environ["CANDESK"] = self.written("candesk", "#!/bin/sh\n" + text, 0o755)

        def put_back() -> None:
            if before is None:
                del os.environ["CANDESK"]
            else:
                os.environ["CANDESK"] = before

        self.addCleanup(put_back)
