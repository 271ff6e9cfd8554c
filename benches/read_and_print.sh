#!/usr/bin/env bash
# How fast `candesk print` is: megabytes per second and peak memory for a generated database of 65,535 messages of 4
# signals each, with comments and value descriptions, and for one of half as many messages; the best of five runs,
# compared with `cat` of the same text. Needs python3.
set -eu
root=$(cd "$(dirname "$(readlink -f "$0")")/.." && pwd)
work=$(mktemp -d)
trap 'rm -rf "$work"' EXIT
program=$("$root/scripts/build")

python3 - "$program" "$work" "$root" <<'REPORT'
import os
import subprocess
import sys
import time

program, folder, root = sys.argv[1:]


def run(words, sink):
    """Seconds, and the most memory in MB."""
    start = time.monotonic()
    opened = (os.POSIX_SPAWN_OPEN, 1, sink, os.O_WRONLY | os.O_CREAT | os.O_TRUNC, 0o600)
    child = os.posix_spawnp(words[0], words, os.environ, file_actions=[opened])
    _, status, used = os.wait4(child, 0)
    if status != 0:
        sys.exit("%s ended with status %d" % (words[0], os.waitstatus_to_exitcode(status)))
    return time.monotonic() - start, used.ru_maxrss / 1024


def best(words, sink):
    return min(run(words, sink) for _ in range(5))


def report(messages):
    text = os.path.join(folder, "text.dbc")
    subprocess.run([os.path.join(root, "benches/make_text.py"), text, str(messages)], check=True)
    size = os.path.getsize(text) / 1e6
    for name, sink in (("/dev/null", os.devnull), ("a file", os.path.join(folder, "printed"))):
        taken, memory = best([program, "print", text], sink)
        cat, _ = best(["cat", text], sink)
        print("print of %d messages, %.1f MB, to %s: %.2f s, %.0f MB/s, at most %.0f MB of memory; cat: %.0f MB/s"
              % (messages, size, name, taken, size / taken, memory, size / cat))


report(32767)
report(65535)
REPORT
