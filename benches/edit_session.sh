#!/usr/bin/env bash
# How long an edit of a session takes, compared with a plain reader and decoder in Rust (`plain/`) that do everything again:
# processor milliseconds for one edit, the mean of twenty, with databases of 100, 1,000, 10,000 and 65,000 messages of four signals
# with value descriptions and no log, and the ratio to the plain reader's time for the edited text; and with 1,000 messages and
# 1,000,000 lines, with 1,000 identifiers and with one, nanoseconds for a line that is kept and for one that an edit touches, and
# their ratios to the plain decoder's time for a line of that log. Each figure is the least of several rounds. Needs rustc and
# python3. Times depend on the machine, ratios less so.
#
#     edit_session.sh [PROGRAM [ROUNDS]]      5 rounds by default
set -eu
root=$(cd "$(dirname "$(readlink -f "$0")")/.." && pwd)
work=$(mktemp -d)
trap 'rm -rf "$work"' EXIT
program=${1:-$("$root/scripts/build")}
rounds=${2:-5}
"$root/benches/plain/build" "$work/plain"

cat > "$work/measure.py" <<'PYTHON'
import os
import resource
import subprocess
import sys

program, work, rounds = sys.argv[1], sys.argv[2], int(sys.argv[3])
plain, text, script, log = (os.path.join(work, name) for name in ("plain", "text.dbc", "script", "log"))
EDITS = 20
LINES = 1_000_000
EDIT = 'change-signal 0 SG_ Signal0 : 0|16@1+ (0.25,-40) [0|0] "km/h" Ecu\n'
TABLE = 'set-table VAL_TABLE_ T 0 "off" ;\n'


def database(count):
    numbers = [number if count <= 2048 else number + 2**31 for number in range(count)]
    lines = ["BU_: Ecu"]
    for number in numbers:
        lines.append("BO_ %d Message%d: 8 Ecu" % (number, number % 2**31))
        for index in range(4):
            lines.append(' SG_ Signal%d : %d|16@1+ (0.5,-40) [0|0] "km/h" Ecu' % (index, 16 * index))
    lines += ['VAL_ %d Signal%d 0 "off" 1 "on" ;' % (number, index) for number in numbers for index in range(4)]
    return "\n".join(lines) + "\n"


def write(path, content):
    with open(path, "w") as file:
        file.write(content)


def once(words, source):
    """Processor time of a run, in seconds."""
    before = resource.getrusage(resource.RUSAGE_CHILDREN)
    with open(source) as file:
        subprocess.run(words, stdin=file, stdout=subprocess.DEVNULL, check=True)
    after = resource.getrusage(resource.RUSAGE_CHILDREN)
    return after.ru_utime + after.ru_stime - before.ru_utime - before.ru_stime


def least(words, source=os.devnull):
    return min(once(words, source) for _ in range(rounds))


def session(commands):
    """Processor time of a session of these commands."""
    write(script, commands)
    return least([program, "session", text], script)


for count in (100, 1000, 10000, 65000):
    write(text, database(count))
    read = least([plain, "read", text])
    opened = session("")
    edit = (session(EDIT * EDITS) - opened) / EDITS
    print(
        "%5d messages: opened in %.1f ms, an edit %.1f ms, the text read by the plain reader %.1f ms: ratios %.2f, %.2f"
        % (count, 1000 * opened, 1000 * edit, 1000 * read, opened / read, edit / read)
    )
write(text, database(1000))
opened = session("")
unlogged = session(EDIT * EDITS)
for numbers in (1000, 1):
    frames = ["(%d.000001) can0 %03X#0011223344556677\n" % (line, line % numbers) for line in range(LINES)]
    write(log, "".join(frames))
    decoded = 1e9 * least([plain, "decode", text], log) / LINES
    commands = "".join("log " + frame for frame in frames)
    kept = session(commands)
    kept_line = 1e9 * (kept - opened) / LINES
    edited = session(commands + EDIT * EDITS) - kept
    tables = session(commands + TABLE * EDITS) - kept
    touched = 1e9 * (edited - (unlogged - opened)) / EDITS / (LINES // numbers)
    print("%s lines of %d numbers, the plain decoder %.0f ns a line:" % (format(LINES, ","), numbers, decoded))
    print("    a line retained %.0f ns: ratio %.2f" % (kept_line, kept_line / decoded))
    print("    an edit that touches %s of them %.1f ms" % (format(LINES // numbers, ","), 1000 * edited / EDITS))
    print("    one that touches none %.1f ms" % (1000 * tables / EDITS))
    # (with few lines the difference of two edits means nothing)
    if numbers == 1:
        print("    a line touched %.0f ns: ratio %.2f" % (touched, touched / decoded))
PYTHON
python3 "$work/measure.py" "$program" "$work" "$rounds"
