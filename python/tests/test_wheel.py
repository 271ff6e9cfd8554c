"""The package as it is installed: a wheel, built and installed without a network."""

from __future__ import annotations

import os
import shutil
import subprocess
import sys
import unittest

import candesk
from helping import CAR, HERE, Case, has

PACKAGE = os.path.dirname(HERE)


@unittest.skipUnless(has("setuptools") and has("wheel") and has("venv") and has("pip"), "pip, setuptools or wheel isn't at hand")
class Wheel(Case):
    def test_it_installs_into_an_empty_environment(self) -> None:
        copy = os.path.join(self.folder, "python")
        shutil.copytree(PACKAGE, copy, ignore=shutil.ignore_patterns("__pycache__", "build", "*.egg-info"))
        made, environment = os.path.join(self.folder, "wheels"), os.path.join(self.folder, "environment")
        self.run_all(
            [sys.executable, "-m", "pip", "wheel", "-q", "--no-index", "--no-build-isolation", "--no-deps", "-w", made, copy],
            [sys.executable, "-m", "venv", environment],
        )
        (name,) = os.listdir(made)
        self.assertEqual(name, f"candesk-{candesk.__version__}-py3-none-any.whl")
        python = os.path.join(environment, "bin", "python")
        self.run_all([python, "-m", "pip", "install", "-q", "--no-index", os.path.join(made, name)])
        code = f"import candesk; print(candesk.load({CAR!r}).decode_message('Lights', bytes([14]))['Main'])"
        done = subprocess.run([python, "-I", "-c", code], capture_output=True, text=True, check=False)
        self.assertEqual((done.stdout, done.stderr), ("on\n", ""))

    def run_all(self, *calls: list[str]) -> None:
        for it in calls:
            done = subprocess.run(it, capture_output=True, text=True, check=False)
            self.assertEqual(done.returncode, 0, done.stderr)


if __name__ == "__main__":
    unittest.main()
