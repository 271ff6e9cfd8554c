#!/usr/bin/env python3
"""The program that a complete proof of the sources as they are built here has the bytes of dist's.

Another kit than the one that built dist's may build other bytes: then that is reported, and ./test runs its rows over both.
`./test` sets CANDESK_PROVED once everything is proved; else a checkout in which no proof built the program is skipped. Two other
files are compared if CANDESK_COMPARED names them, as ONE:OTHER.
"""

from __future__ import annotations

import os
import sys

sys.dont_write_bytecode = True
sys.path.insert(0, os.path.dirname(os.path.realpath(__file__)))

from test_support import Case, content, main, script  # noqa: E402

proving, dist = script("proving"), script("dist")


def difference(one: str, other: str) -> str | None:
    """In what two files differ, or None if they don't."""
    texts = []
    for path in (one, other):
        try:
            texts.append(content(path))
        except OSError as error:
            return f"{path}: {error.strerror}"
    first, second = texts
    if first == second:
        return None
    at = next((at for at, (a, b) in enumerate(zip(first, second)) if a != b), min(len(first), len(second)))
    return f"the first byte that differs is at offset {at}; {one} has {len(first)} bytes, {other} has {len(second)}"


class SameBytes(Case):
    def test_same_bytes(self) -> None:
        compared = os.environ.get("CANDESK_COMPARED")
        if compared:
            one, _, other = compared.partition(":")
            self.check(f"{os.path.relpath(one)} and {os.path.relpath(other)}", difference(one, other))
        else:
            self.compare_with_dist()

    def compare_with_dist(self) -> None:
        """Compares the program that was proved here with dist's."""
        stamp = proving.CANDESK.current()
        if not stamp or stamp.origin != proving.PROOF:
            no_proof = f"no complete proof of these sources built a program here; {dist.PROVE} does"
            if not os.environ.get("CANDESK_PROVED"):
                self.skipTest(no_proof)
            self.check("same bytes", no_proof)
            return
        why, kit = difference(proving.CANDESK.path, dist.PROGRAM), dist.build_lines().get("kit")
        if why and stamp.kit != kit:
            print(f"note: {kit} built {dist.FOLDER}/, and {stamp.kit} built other bytes here: {why}")
            why = None
        self.check(f"{os.path.relpath(proving.CANDESK.path)} and {os.path.relpath(dist.PROGRAM)}", why)


if __name__ == "__main__":
    main()
