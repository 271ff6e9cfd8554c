#!/usr/bin/env bash
# How fast a database text is read, compared with a plain reader in Rust (`plain/`), which reads less and checks nothing: processor
# milliseconds, and the ratio to the plain reader's, of `check` and `print`, of `decode` with an empty log, and of a session that is
# opened and closed; with 65,535 messages of four signals with comments and value descriptions, and with half as many messages. Each
# figure is the least of several rounds. Needs rustc and python3. Times depend on the machine, ratios less so.
#
#     texts.sh [PROGRAM [ROUNDS]]      5 rounds by default
set -eu
root=$(cd "$(dirname "$(readlink -f "$0")")/.." && pwd)
work=$(mktemp -d)
trap 'rm -rf "$work"' EXIT
program=${1:-$("$root/scripts/build")}
rounds=${2:-5}
"$root/benches/plain/build" "$work/plain"

for messages in 32767 65535; do
    "$root/benches/make_text.py" "$work/text.dbc" "$messages"
    python3 - "$program" "$work" "$messages" "$rounds" <<'REPORT'
import os
import resource
import subprocess
import sys

program, work, messages, rounds = sys.argv[1], sys.argv[2], sys.argv[3], int(sys.argv[4])
text = work + "/text.dbc"
RUNS = [
    ("the plain reader", [work + "/plain", "read", text]),
    ("print", [program, "print", text]),
    ("decode of an empty log", [program, "decode", text]),
    ("check", [program, "check", text]),
    ("a session opened", [program, "session", text]),
]


def seconds(words):
    """Processor time of a run."""
    before = resource.getrusage(resource.RUSAGE_CHILDREN)
    subprocess.run(words, stdin=subprocess.DEVNULL, stdout=subprocess.DEVNULL)
    after = resource.getrusage(resource.RUSAGE_CHILDREN)
    return after.ru_utime + after.ru_stime - before.ru_utime - before.ru_stime


least = {}
for _ in range(rounds):
    for name, words in RUNS:
        least[name] = min(seconds(words), least.get(name, 1e9))
print("%s messages, %.1f MB" % (messages, os.path.getsize(text) / 1e6))
for name, taken in least.items():
    print("%-24s %6.0f ms, ratio %.2f" % (name, 1000 * taken, taken / least["the plain reader"]))
REPORT
done
