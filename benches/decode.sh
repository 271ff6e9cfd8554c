#!/usr/bin/env bash
# How fast a log is decoded: lines per second over 1,000,000 lines of the example, whose database has one message; the best
# of five runs.
set -eu
root=$(cd "$(dirname "$(readlink -f "$0")")/.." && pwd)
work=$(mktemp -d)
trap 'rm -rf "$work"' EXIT

line=$(head -n 1 "$root/examples/wheel.log")
(yes "$line" || true) | head -n 1000000 > "$work/log"
program=$("$root/scripts/build")

python3 - "$program" "$root/examples/wheel.dbc" "$work/log" <<'REPORT'
import subprocess
import sys
import time

program, database, log = sys.argv[1:]
best = None
for _ in range(5):
    with open(log, "rb") as lines:
        start = time.monotonic()
        subprocess.run([program, "decode", database], stdin=lines, stdout=subprocess.DEVNULL, check=True)
        taken = time.monotonic() - start
    best = taken if best is None else min(best, taken)
print(f"decode: {1_000_000 / best / 1e6:.2f} million lines per second")
REPORT
