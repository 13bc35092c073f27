//! A pass text on standard input, its list on standard output, as the scope writes both.
//!
//!     passlist [--build exported|platform|counted]
//!
//! The counted build prints its branch counts on standard error at the end.

mod api;
mod values;

use api::shapes::Settings;
use api::{Channel, Reference, new_window};
use std::io::{Read, Write};
use values::{Words, hex, stop};

const NAMES: &[u8] = b"rate factor mod adaptive dual bank fade nominal target";
const BLOCK_NAMES: &[u8] = b"flag samples";
const OUT_NAMES: &str = "block locked tracker fade phase frequency snr\n";
const MOST_PAIRS: usize = 2048;
const FORM: u32 = 13;

/// The lines in order. One without its newline is there, but outside the form.
struct Lines<'a> {
    rest: &'a [u8],
}

impl<'a> Lines<'a> {
    /// None at the end; Some(None) for a line that does not end with a newline.
    fn next(&mut self) -> Option<Option<&'a [u8]>> {
        if self.rest.is_empty() {
            return None;
        }
        match self.rest.iter().position(|&b| b == b'\n') {
            Some(at) => {
                let line = &self.rest[..at];
                self.rest = &self.rest[at + 1..];
                Some(Some(line))
            }
            None => {
                self.rest = &[];
                Some(None)
            }
        }
    }

    /// A line that has to be there.
    fn needed(&mut self) -> Result<&'a [u8], u32> {
        self.next().flatten().ok_or(FORM)
    }
}

/// Decimal, at most 12 digits, without leading zeros.
fn decimal(field: &[u8]) -> Result<u64, u32> {
    let good_length = (1..=12).contains(&field.len());
    let leading_zero = field.len() > 1 && field[0] == b'0';
    if !good_length || leading_zero || !field.iter().all(u8::is_ascii_digit) {
        return Err(FORM);
    }
    Ok(field.iter().fold(0, |sum, digit| 10 * sum + (digit - b'0') as u64))
}

fn switch(field: &[u8]) -> Result<u32, u32> {
    match field {
        b"0" => Ok(0),
        b"1" => Ok(1),
        _ => Err(FORM),
    }
}

fn hex_digit(b: u8) -> Result<u32, u32> {
    match b {
        b'0'..=b'9' => Ok((b - b'0') as u32),
        b'a'..=b'f' => Ok((b - b'a') as u32 + 10),
        _ => Err(FORM),
    }
}

fn samples(field: &[u8]) -> Result<Vec<f32>, u32> {
    if field == b"-" {
        return Ok(Vec::new());
    }
    if field.is_empty() || field.len() % 16 != 0 || field.len() / 16 > MOST_PAIRS {
        return Err(FORM);
    }
    let mut list = Vec::with_capacity(field.len() / 8);
    for digits in field.chunks(8) {
        let mut bits = 0;
        for &digit in digits {
            bits = bits << 4 | hex_digit(digit)?;
        }
        list.push(f32::from_bits(bits));
    }
    Ok(list)
}

fn fields<const N: usize>(line: &[u8]) -> Result<[&[u8]; N], u32> {
    let all: Vec<&[u8]> = line.split(|&b| b == b' ').collect();
    all.try_into().map_err(|_| FORM)
}

fn names(line: &[u8], expected: &[u8]) -> Result<(), u32> {
    if line == expected { Ok(()) } else { Err(FORM) }
}

/// Opens and assigns from the line of values: its form first, then its numbers.
fn channel(reference: Reference, line: &[u8]) -> Result<Channel, u32> {
    let f: [&[u8]; 9] = fields(line)?;
    let settings = Settings {
        rate: decimal(f[0])?,
        factor: decimal(f[1])?,
        modulation: decimal(f[2])?,
        adaptive: switch(f[3])?,
        dual_lock: switch(f[4])?,
        bank: switch(f[5])?,
        two: 0,
        fade: decimal(f[6])?,
        ratio: 1.0,
    };
    let (nominal, target) = (decimal(f[7])? as f64, decimal(f[8])? as f64);
    let (refusal, mut channel) = reference.open(&settings);
    if refusal != 0 {
        return Err(refusal);
    }
    match channel.assign(nominal, target, 0.0, 0.0) {
        0 => Ok(channel),
        refusal => Err(refusal),
    }
}

fn block(channel: &mut Channel, window: &mut [f64], line: &[u8], count: u64) -> Result<String, u32> {
    let f: [&[u8]; 2] = fields(line)?;
    let flag = decimal(f[0])?;
    let mut list = samples(f[1])?;
    let a = channel.block(flag, &mut list, &mut [], window);
    if a.refusal != 0 {
        return Err(a.refusal);
    }
    let (phase, frequency, snr) = (hex(a.phase), hex(a.frequency), hex(a.snr));
    Ok(format!("{count} {} {} {} {phase} {frequency} {snr}\n", a.locked, a.tracker, a.fade_count))
}

/// The list; a refusal ends it and comes with the number of its line.
fn list(reference: Reference, text: &[u8], out: &mut String) -> Result<(), (u64, u32)> {
    let mut lines = Lines { rest: text };
    let at = |line: u64| move |refusal: u32| (line, refusal);
    lines.needed().and_then(|l| names(l, NAMES)).map_err(at(1))?;
    let mut channel = lines.needed().and_then(|l| channel(reference, l)).map_err(at(2))?;
    lines.needed().and_then(|l| names(l, BLOCK_NAMES)).map_err(at(3))?;
    let mut window = new_window();
    let mut number = 4;
    while let Some(line) = lines.next() {
        let answer = line.ok_or(FORM).and_then(|l| block(&mut channel, &mut window, l, number - 3));
        *out += &answer.map_err(at(number))?;
        number += 1;
    }
    Ok(())
}

fn main() {
    let words = Words::new();
    let name = words.get("--build").unwrap_or("exported");
    let reference = Reference::named(name).unwrap_or_else(|| stop("--build exported, platform or counted"));
    let mut text = Vec::new();
    std::io::stdin().read_to_end(&mut text).expect("standard input can be read");
    let mut out = String::from(OUT_NAMES);
    if let Err((line, refusal)) = list(reference, &text, &mut out) {
        out += &format!("refused {line} {refusal}\n");
    }
    std::io::stdout().write_all(out.as_bytes()).expect("standard output can be written");
    reference.counts();
}
