#!/usr/bin/env bash
# How fast a database is printed: megabytes per second for 65,535 messages of 4 signals each, the best of five runs,
# compared with `cat` of the same text. The program for this is built in a temporary folder, which takes minutes.
set -eu
root=$(cd "$(dirname "$(readlink -f "$0")")/.." && pwd)
work=$(mktemp -d)
trap 'rm -rf "$work"' EXIT

mkdir -p "$work/crates/print_bench/src"
for crate in byte_devices dbc_values dbc_records dbc_model; do
    cp -r "$root/crates/$crate" "$work/crates/"
    grep "^$crate:" "$root/crates.txt" >> "$work/crates.txt"
done
echo "Handles allowed: none." > "$work/HANDLES"
echo "print_bench: dbc_model itoa" >> "$work/crates.txt"
cat > "$work/crates/print_bench/src/main.rt" <<'PROGRAM'
#![tactic(auto)]

use dbc_model::{Database, Decimal, FromWrite, Head, List, Message, Name, Signal, Tag, Text, print};
use itoa::Buffer;
use std::alloc::Global;
use std::process::ExitCode;

fn name(alloc: Global, letter: &[u8], number: u32) -> Option<Name> {
    let mut digits = Buffer::new();
    let mut bytes = Vec::from_slice(alloc, letter).ok()?;
    bytes.extend_from_slice(digits.format(number).as_bytes()).ok()?;
    Name::new(alloc, bytes.as_slice()).ok()?
}

fn built(name: Name, start: u16, unit: Text, receivers: List<Name>) -> Option<Signal> {
    let factor = Decimal::read(b"0.03125")?;
    let offset = Decimal::read(b"-40")?;
    let most = Decimal::read(b"2007.96875")?;
    Signal::new(name, Tag::Plain, start, 16, true, false, factor, offset, offset, most, unit, receivers)
}

fn signal(alloc: Global, number: u32) -> Option<Signal> {
    let unit = Text::new(alloc, b"km/h").ok()??;
    let mut receivers = List::new(alloc);
    receivers.push(name(alloc, b"Node", 1)?).ok()?;
    built(name(alloc, b"EngineSpeed", number)?, 8, unit, receivers)
}

fn message(alloc: Global, number: u32) -> Option<Message> {
    let mut signals = List::new(alloc);
    for index in 0..4u32 {
        signals.push(signal(alloc, index)?).ok()?;
    }
    let head = Head::new(number, name(alloc, b"Message", number)?, 8, name(alloc, b"Node", 0)?)?;
    Message::new(head, signals)
}

fn messages(alloc: Global) -> Option<List<Message>> {
    let mut messages = List::new(alloc);
    for number in 0..65_535u32 {
        messages.push(message(alloc, number)?).ok()?;
    }
    Some(messages)
}

fn database(alloc: Global) -> Option<Database> {
    let version = Text::new(alloc, b"").ok()??;
    Database::new(
        version,
        List::new(alloc),
        None,
        List::new(alloc),
        List::new(alloc),
        messages(alloc)?,
        List::new(alloc),
        List::new(alloc),
        List::new(alloc),
        List::new(alloc),
        List::new(alloc),
        List::new(alloc),
        List::new(alloc),
        List::new(alloc),
    )
}

fn prints(rt: &HostRuntime, times: u32) -> Option<()> {
    let database = database(rt.alloc())?;
    for _ in 0..times {
        let mut sink = FromWrite::new(rt.stdout());
        print(&database, &mut sink).ok()?;
    }
    Some(())
}

// Without arguments, builds and prints the database once; with arguments, only builds it.
fn main(rt: HostRuntime) -> ExitCode {
    let times = match std::env::args(&rt) {
        Ok(words) => if words.count() > 1 { 0 } else { 1 },
        Err(_) => 0,
    };
    match prints(&rt, times) {
        Some(()) => ExitCode::SUCCESS,
        None => ExitCode::FAILURE,
    }
}
PROGRAM
(cd "$work/crates/print_bench" && rt fmt >/dev/null && rt run -- none > "$work/log" 2>&1) || { tail -n 20 "$work/log"; exit 1; }

python3 - "$work/crates/print_bench/out/print_bench" "$work/text" <<'REPORT'
import os
import subprocess
import sys
import time

program, text = sys.argv[1:]


def best(words, stdout):
    taken = []
    for _ in range(5):
        start = time.monotonic()
        subprocess.run(words, stdout=stdout, check=True)
        taken.append(time.monotonic() - start)
    return min(taken)


with open(text, "wb") as file:
    subprocess.run([program], stdout=file, check=True)
size = os.path.getsize(text) / 1e6
build = best([program, "none"], subprocess.DEVNULL)
for name, sink in (("/dev/null", os.devnull), ("a file", text + ".out")):
    with open(sink, "wb") as file:
        both = best([program], file)
        cat = best(["cat", text], file)
    speed = size / max(both - build, 1e-6)
    print(f"print of {size:.1f} MB to {name}: {speed:.0f} MB/s (build {build:.2f} s), cat: {size / cat:.0f} MB/s")
REPORT
