#!/usr/bin/env bash
# How much faster logs are decoded on several processors: seconds for 10,000,000 lines (or another number, the argument) by `candesk
# decode` alone, and by both tools for many logs with 1, 2, 4 .. parallel workers, up to the number of processors; the best of three
# runs, each until its output, some 1 GB, is on the disk. Needs GNU parallel and Dask's distributed.
set -eu
lines=${1:-10000000}
root=$(cd "$(dirname "$(readlink -f "$0")")/.." && pwd)
work=$(mktemp -d)
trap 'rm -rf "$work"' EXIT
if [ -z "${CANDESK:-}" ]; then
    CANDESK=$("$root/scripts/build")
fi
export CANDESK
database="$root/examples/car.dbc"

block() { for _ in $(seq 1000); do cat "$root/examples/drive.log"; done; }
while [ "$(stat -c %s "$work/drive.log" 2>/dev/null || echo 0)" -lt $((lines * 38)) ]; do block >> "$work/drive.log"; done
head -n "$lines" "$work/drive.log" > "$work/a.log"
rm "$work/drive.log"
mkdir "$work/logs"
split --lines=$((lines / 8)) --additional-suffix=.log "$work/a.log" "$work/logs/"

# The seconds of the best of three runs.
seconds() {
    local best=""
    for _ in 1 2 3; do
        rm -rf "$work/out"
        mkdir "$work/out"
        local began=$EPOCHREALTIME
        "$@" > "$work/output" 2>&1 || { cat "$work/output" >&2; exit 1; }
        local ended=$EPOCHREALTIME
        best=$(awk -v a="$began" -v b="$ended" -v best="$best" 'BEGIN { t = b - a; print (best == "" || t < best) ? t : best }')
    done
    echo "$best"
}

alone() { "$CANDESK" decode "$database" < "$work/a.log" > "$work/out/a.decoded" && sync "$work/out/a.decoded"; }
in_folder() { "$root/tools/candesk-decode-many" --jobs "$1" --output "$work/out" "$database" "$work/logs"; }
by_parallel() { "$root/tools/candesk-decode-many" --jobs "$1" --output "$work/out" "$database" "$work/a.log"; }
by_dask() { "$root/tools/candesk-decode-dask" --workers "$1" --output "$work/out" "$database" "$work/a.log"; }

one=$(seconds alone)
printf '%d MB of log; candesk decode alone: %.1f s\n' "$(($(stat -c %s "$work/a.log") / 1000000))" "$one"
printf '%-8s %-28s %-28s %s\n' workers 'parallel, a folder of 8 logs' 'parallel, one log' 'dask, one log'
for ((workers = 1; workers <= $(nproc); workers *= 2)); do
    row=$(printf '%-8d' "$workers")
    for tool in in_folder by_parallel by_dask; do
        taken=$(seconds "$tool" "$workers")
        row+=$(awk -v t="$taken" -v one="$one" 'BEGIN { printf " %-28s", sprintf("%.1f s, %.2f times as fast", t, one / t) }')
    done
    echo "$row"
done
