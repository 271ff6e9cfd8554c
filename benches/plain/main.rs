//! What a good Rust programmer would write: a plain reader of database texts and a decoder of log lines, by hand, with only std and
//! no unsafe code. The benches compare the program with it.
//!
//!     plain decode FILE <LOG      the decoded lines, as `candesk decode` writes them
//!     plain read FILE             reads and compiles, and prints counts
//!
//! Its reader is quick: it reads messages, signals, value descriptions, ranges of multiplexors, float types and the attribute
//! VFrameFormat, skips every other statement up to its `;`, and rejects only what it can't skip.

mod database;
mod frames;
mod lines;
mod plans;
mod tokens;

use frames::Bytes;
use plans::Decoder;
use std::io::{self, Read, Write};
use std::process::exit;

/// The index of the first line feed, searched eight bytes at a time.
fn find_line_feed(bytes: &[u8]) -> Option<usize> {
    const ONES: u64 = 0x0101_0101_0101_0101;
    let mut at = 0;
    let mut words = bytes.chunks_exact(8);
    for word in &mut words {
        let word = u64::from_le_bytes(word.try_into().unwrap()) ^ (ONES * b'\n' as u64);
        let zeros = word.wrapping_sub(ONES) & !word & (ONES << 7);
        if zeros != 0 {
            return Some(at + zeros.trailing_zeros() as usize / 8);
        }
        at += 8;
    }
    words.remainder().iter().position(|&byte| byte == b'\n').map(|index| at + index)
}

/// Decodes standard input line by line.
fn decode(decoder: &Decoder) -> io::Result<()> {
    const PIECE: usize = 1 << 18;
    let mut input = io::stdin().lock();
    let mut output = io::stdout().lock();
    let mut buffer = vec![0u8; PIECE];
    let mut have = 0;
    let mut out = Vec::with_capacity(2 * PIECE);
    let mut data = Bytes::new();
    loop {
        if have == buffer.len() {
            buffer.resize(2 * have, 0);
        }
        let more = input.read(&mut buffer[have..])?;
        if more == 0 {
            break;
        }
        have += more;
        let mut at = 0;
        while let Some(length) = find_line_feed(&buffer[at..have]) {
            decoder.line(&buffer[at..at + length], &mut data, &mut out);
            out.push(b'\n');
            at += length + 1;
            if out.len() >= PIECE {
                output.write_all(&out)?;
                out.clear();
            }
        }
        buffer.copy_within(at..have, 0);
        have -= at;
    }
    if have > 0 {
        decoder.line(&buffer[..have], &mut data, &mut out);
        out.push(b'\n');
    }
    output.write_all(&out)
}

fn main() {
    let words: Vec<String> = std::env::args().collect();
    if words.len() != 3 || !matches!(words[1].as_str(), "decode" | "read") {
        eprintln!("plain decode|read FILE");
        exit(2);
    }
    let text = std::fs::read(&words[2]).unwrap_or_else(|error| {
        eprintln!("plain: {error}");
        exit(3)
    });
    let decoder = plans::compile(&database::read(&text));
    if words[1] == "read" {
        let signals: usize = decoder.plans.iter().map(|plan| plan.signals.len()).sum();
        println!("{} messages, {} signals, {} groups", decoder.plans.len(), signals, decoder.by_pgn.len());
    } else if decode(&decoder).is_err() {
        exit(3);
    }
}
