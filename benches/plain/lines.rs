//! Decoding of lines.

use crate::frames::{Bytes, Kind, frame};
use crate::plans::{Decoder, Names, Plan, Scaling, SignalPlan, pgn};
use std::io::Write;

const PAIRS: [u8; 200] = {
    let mut table = [0; 200];
    let mut number = 0;
    while number < 100 {
        table[2 * number] = b'0' + (number / 10) as u8;
        table[2 * number + 1] = b'0' + (number % 10) as u8;
        number += 1;
    }
    table
};

const DIGITS_SIZE: usize = 48;

/// Digits that are written from the end.
struct Digits {
    bytes: [u8; DIGITS_SIZE],
    at: usize,
}

impl Digits {
    #[inline(always)]
    fn new() -> Digits {
        Digits { bytes: [0; DIGITS_SIZE], at: DIGITS_SIZE }
    }

    #[inline(always)]
    fn put(&mut self, mut value: u64) {
        let (bytes, mut at) = (&mut self.bytes, self.at);
        while value >= 100 {
            let pair = (value % 100) as usize * 2;
            value /= 100;
            at -= 2;
            bytes[at..at + 2].copy_from_slice(&PAIRS[pair..pair + 2]);
        }
        if value >= 10 {
            at -= 2;
            bytes[at..at + 2].copy_from_slice(&PAIRS[value as usize * 2..value as usize * 2 + 2]);
        } else {
            at -= 1;
            bytes[at] = b'0' + value as u8;
        }
        self.at = at;
    }

    fn put_wide(&mut self, mut value: u128) {
        const PART: u128 = 10u128.pow(19);
        while value >= PART {
            let end = self.at;
            self.put((value % PART) as u64);
            value /= PART;
            self.bytes[end - 19..self.at].fill(b'0');
            self.at = end - 19;
        }
        self.put(value as u64);
    }

    /// Pushes the number with decimal places, without zeros at its end.
    #[inline(always)]
    fn push_decimal(&mut self, out: &mut Vec<u8>, is_negative: bool, mut places: usize) {
        if is_negative {
            out.push(b'-');
        }
        let bytes = &mut self.bytes;
        let (mut at, mut end) = (self.at, DIGITS_SIZE);
        while places > 0 && bytes[end - 1] == b'0' && end > at {
            end -= 1;
            places -= 1;
        }
        if end == at {
            return out.push(b'0');
        }
        if places == 0 {
            return out.extend_from_slice(&bytes[at..end]);
        }
        while end - at <= places {
            at -= 1;
            bytes[at] = b'0';
        }
        out.extend_from_slice(&bytes[at..end - places]);
        out.push(b'.');
        out.extend_from_slice(&bytes[end - places..end]);
    }
}

fn push_whole(out: &mut Vec<u8>, value: u64) {
    let mut digits = Digits::new();
    digits.put(value);
    out.extend_from_slice(&digits.bytes[digits.at..]);
}

impl SignalPlan {
    #[inline(always)]
    fn is_present(&self, data: &Bytes) -> bool {
        !self.is_never
            && self.chain.iter().all(|(bits, ranges)| {
                let value = bits.raw(data);
                ranges.iter().any(|&(first, last)| first <= value && value <= last)
            })
    }

    #[inline(always)]
    fn name_of(&self, raw: u64, signed: i64) -> Option<&[u8]> {
        let is_signed = self.sign < 64;
        match &self.names {
            Names::None => None,
            Names::Table(table) => {
                let index = if is_signed { signed as u64 } else { raw };
                table.get(index as usize)?.as_deref()
            }
            Names::Sorted(sorted) => {
                let number = if is_signed { signed as i128 } else { raw as i128 };
                let index = sorted.binary_search_by_key(&number, |value| value.0).ok()?;
                Some(&sorted[index].1)
            }
        }
    }

    /// Pushes the value of the signal.
    #[inline(always)]
    fn push(&self, data: &Bytes, out: &mut Vec<u8>) {
        if let Scaling::Undecoded(cause) = self.scaling {
            return out.extend_from_slice(cause);
        }
        let raw = self.bits.raw(data);
        let is_signed = self.sign < 64;
        let signed = if is_signed { ((raw << self.sign) as i64) >> self.sign } else { 0 };
        if let Some(name) = self.name_of(raw, signed) {
            return out.extend_from_slice(name);
        }
        let mut digits = Digits::new();
        match self.scaling {
            Scaling::Small { factor, offset } => {
                let value = factor * if is_signed { signed } else { raw as i64 } + offset;
                digits.put(value.unsigned_abs());
                digits.push_decimal(out, value < 0, self.places as usize);
            }
            Scaling::Big { factor, offset } => {
                let value = factor * if is_signed { signed as i128 } else { raw as i128 } + offset;
                digits.put_wide(value.unsigned_abs());
                digits.push_decimal(out, value < 0, self.places as usize);
            }
            Scaling::Undecoded(_) => {}
        }
        out.extend_from_slice(&self.unit);
    }
}

impl Plan {
    fn push_j1939(number: u32, out: &mut Vec<u8>) {
        out.extend_from_slice(b"[p");
        out.push(b'0' + (number >> 26 & 7) as u8);
        out.extend_from_slice(b" s");
        push_whole(out, (number & 255) as u64);
        if number >> 16 & 255 < 240 {
            out.extend_from_slice(b" d");
            push_whole(out, (number >> 8 & 255) as u64);
        }
        out.extend_from_slice(b"](");
    }

    #[inline(always)]
    fn push(&self, number: u32, data: &Bytes, out: &mut Vec<u8>) {
        out.extend_from_slice(b" :: ");
        out.extend_from_slice(&self.head);
        if self.is_j1939 {
            Plan::push_j1939(number, out);
        }
        let mut is_first = true;
        for signal in &self.signals {
            if signal.is_present(data) {
                out.extend_from_slice(if is_first { &signal.first } else { &signal.later });
                is_first = false;
                signal.push(data, out);
            }
        }
        out.push(b')');
    }
}

impl Decoder {
    #[inline(always)]
    fn plan_of(&self, number: u32) -> Option<&Plan> {
        let mut found = self.by_id.get(&number);
        if found.is_none() && number >> 31 == 1 {
            found = self.by_pgn.get(&pgn(number));
        }
        found.map(|&index| &self.plans[index as usize])
    }

    /// Pushes the line and its decoded frame.
    pub fn line(&self, line: &[u8], data: &mut Bytes, out: &mut Vec<u8>) {
        let line = line.strip_suffix(b"\r").unwrap_or(line);
        out.extend_from_slice(line);
        let number = match frame(line, data) {
            None => return,
            Some((Kind::Error, _)) => return out.extend_from_slice(b" :: Error frame"),
            Some((Kind::Remote, _)) => return out.extend_from_slice(b" :: Remote frame"),
            Some((Kind::Data, number)) => number,
        };
        let Some(plan) = self.plan_of(number) else {
            let number = number & 0x1FFF_FFFF;
            let _ = write!(out, " :: Unknown frame id {number} ({number:#x})");
            return;
        };
        if data.length < plan.length {
            let _ = write!(out, " :: Wrong data size: {} instead of {} bytes", data.length, plan.length);
            return;
        }
        plan.push(number, data, out);
    }
}
