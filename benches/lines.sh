#!/usr/bin/env bash
# How fast a log is decoded, compared with a plain decoder in Rust (`plain/`): processor nanoseconds for a line, and the ratio of
# both, with a database of one message of one signal, one of a car, and one of J1939 messages; each figure is the least of several
# rounds. The outputs of both are compared first. Needs rustc and python3. Times depend on the machine, ratios less so.
#
#     lines.sh [PROGRAM [LINES [ROUNDS]]]      500,000 lines and 5 rounds by default
set -eu
root=$(cd "$(dirname "$(readlink -f "$0")")/.." && pwd)
work=$(mktemp -d)
trap 'rm -rf "$work"' EXIT
program=${1:-$("$root/scripts/build")}
lines=${2:-500000}
rounds=${3:-5}
"$root/benches/plain/build" "$work/plain"
"$root/benches/make_logs.py" "$work" "$lines"

python3 - "$program" "$work" "$lines" "$rounds" <<'REPORT'
import filecmp
import os
import resource
import subprocess
import sys

program, work, lines, rounds = sys.argv[1], sys.argv[2], int(sys.argv[3]), int(sys.argv[4])
plain = work + "/plain"


def seconds(words, log, to):
    """Processor time of a run."""
    before = resource.getrusage(resource.RUSAGE_CHILDREN)
    with open(log, "rb") as source, open(to, "wb") as sink:
        subprocess.run(words, stdin=source, stdout=sink, check=True)
    after = resource.getrusage(resource.RUSAGE_CHILDREN)
    return after.ru_utime + after.ru_stime - before.ru_utime - before.ru_stime


for kind in ("small", "car", "j1939"):
    database, log = work + "/" + kind + ".dbc", work + "/" + kind + ".log"
    written = [work + "/" + name for name in ("mine", "other")]
    for run, to in zip((program, plain), written):
        seconds([run, "decode", database], log, to)
    if not filecmp.cmp(*written, shallow=False):
        sys.exit("%s: the two write different lines" % kind)
    taken = [[], []]
    for _ in range(rounds):
        for run, times in zip((program, plain), taken):
            times.append(seconds([run, "decode", database], log, os.devnull))
    mine, other = (min(times) / lines * 1e9 for times in taken)
    print("%-6s %5.0f ns a line, the plain decoder %5.0f: ratio %.2f" % (kind, mine, other, mine / other))
REPORT
