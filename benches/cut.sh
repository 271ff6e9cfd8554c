#!/bin/sh
# How fast a text is split into tokens: the best MB per second of five runs over a generated database text of 20 MB, and
# of `wc -w` on the same file. Needs rt and python3. The program for this is built in a temporary folder, with copies of
# the crates; proving it takes a minute or two.
set -eu
top=$(cd "$(dirname "$0")/.." && pwd)
work=$(mktemp -d)
trap 'rm -rf "$work"' EXIT

mkdir -p "$work/crates/cut_speed/src"
for crate in dbc_values dbc_tokens; do
    cp -r "$top/crates/$crate" "$work/crates/"
    grep "^$crate:" "$top/crates.txt" >> "$work/crates.txt"
done
echo "cut_speed: dbc_tokens" >> "$work/crates.txt"
cp "$top/HANDLES" "$work/"

cat > "$work/crates/cut_speed/src/main.rt" << 'PROGRAM'
//! Splits the text on standard input five times, and prints for each time the number of tokens and the nanoseconds.
#![tactic(auto)]

use dbc_tokens::tokens;
use std::io::{self, Read};
use std::time::Instant;

fn main(rt: HostRuntime) -> io::Result<()> {
    let mut text = Vec::new(rt.alloc());
    rt.stdin().read_to_end(&mut text)?;
    for _ in 0..5 {
        let start = Instant::now(&rt)?;
        let mut count: u64 = 0;
        for token in tokens(text.as_slice()) {
            match token {
                Ok(_) => count = count.wrapping_add(1),
                Err(fault) => println!(rt; "{fault}")?,
            }
        }
        let nanos = start.elapsed(&rt)?.as_nanos();
        println!(rt; "{count} {nanos}")?;
    }
    Ok(())
}
PROGRAM

python3 - "$work/text.dbc" << 'GENERATOR'
import sys

with open(sys.argv[1], "w") as out:
    size = 0
    message = 0
    while size < 20_000_000:
        number = message % 2048
        lines = [f"BO_ {number} Message_{message}: 8 Node_{message % 30}\n"]
        for signal in range(12):
            lines.append(
                f" SG_ Signal_{message}_{signal} : {signal * 5}|5@{signal % 2}{'+-'[signal % 2]}"
                f" (0.{signal + 1},-{signal}.5) [-{signal}.5|{signal * 3}.25E1]"
                f' "unit {signal}" Node_{signal},Vector__XXX\n'
            )
        lines.append(f'CM_ SG_ {number} Signal_{message}_1 "A comment with a \\" quote\n  over two lines";\n')
        lines.append(f'VAL_ {number} Signal_{message}_2 0 "off" 1 "on" 2 "fault" ; // a remark\n\n')
        text = "".join(lines)
        out.write(text)
        size += len(text)
        message += 1
GENERATOR

(cd "$work/crates/cut_speed" && rt run < /dev/null > "$work/build.txt" 2>&1) || { tail -20 "$work/build.txt"; exit 1; }
"$work/crates/cut_speed/out/cut_speed" < "$work/text.dbc" > "$work/runs.txt"

python3 - "$work/text.dbc" "$work/runs.txt" << 'REPORT'
import os, subprocess, sys, time

size = os.path.getsize(sys.argv[1])
runs = [line.split() for line in open(sys.argv[2])]
best = min(int(nanos) for _, nanos in runs)
print(f"tokens: {runs[0][0]} tokens of {size} bytes, {size * 1000 / best:.0f} MB per second")
best = None
for _ in range(5):
    start = time.monotonic()
    subprocess.run(["wc", "-w", sys.argv[1]], stdout=subprocess.DEVNULL, check=True)
    taken = time.monotonic() - start
    best = taken if best is None else min(best, taken)
print(f"wc -w:  {size / best / 1e6:.0f} MB per second")
REPORT
