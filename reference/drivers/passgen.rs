//! Seeded pass texts for `passlist`, sound and damaged.
//!
//!     passgen --seed N [--damage KIND]               one text on standard output
//!     passgen --seed N --count N --dir DIR           texts N.txt of seeds N, N + 1, ... into DIR
//!
//! Both take --blocks N, for texts of N blocks of 1 to 60 pairs each (or 1 to P, with --pairs P).
//!
//! Two of three texts of a folder are damaged. The kinds of damage are numbered 0 to KINDS - 1;
//! `damage` below says which is which.

mod values;

use std::io::Write;
use values::{Random, Signal, Words, hex32, stop};

const KINDS: u64 = 26;

struct Text {
    lines: Vec<Vec<u8>>,
    last_newline: bool,
}

impl Text {
    fn bytes(&self) -> Vec<u8> {
        let mut all = self.lines.join(&b'\n');
        if self.last_newline && !self.lines.is_empty() {
            all.push(b'\n');
        }
        all
    }
}

fn values_line(r: &mut Random) -> (String, u64, f64) {
    let factor = r.pick(&[1, 1, 1, 2, 4, 110, 4_096]);
    let any = 1_000 + r.below(99_001);
    let rate = r.pick(&[40_000, 50_000, 1_000, 100_000, 9_600, any]) * factor;
    let modulation = r.below(3);
    let fade = r.pick(&[0, 1, 2, 5, 60, 86_400]);
    let nominal = r.pick(&[0, 0, 137_500_000, 1_000_000, 100_000_000_000u64]);
    let target = r.pick(&[0, 137_500_000, 400_000_000, 1_000_000]);
    let (a, d, b) = (r.below(2), r.below(2), r.below(2));
    let line = format!("{rate} {factor} {modulation} {a} {d} {b} {fade} {nominal} {target}");
    (line, modulation, rate as f64 / factor as f64)
}

fn hex_list(list: &[f32]) -> String {
    if list.is_empty() { "-".to_string() } else { list.iter().map(|v| hex32(*v)).collect() }
}

/// How many blocks a text has, and how many pairs a block has at most; as it comes where none is given.
type Size = Option<(u64, u64)>;

/// A sound pass: the carrier comes and goes, some blocks are silent, clipped or missing.
fn pass(r: &mut Random, size: Size) -> Text {
    let (values, modulation, decimated) = values_line(r);
    let mut lines = vec![
        b"rate factor mod adaptive dual bank fade nominal target".to_vec(),
        values.into_bytes(),
        b"flag samples".to_vec(),
    ];
    let mut signal = Signal::new(r, modulation, decimated);
    let long = r.chance(2) && size.is_none();
    let mut there = true;
    let blocks = size.map_or_else(|| r.below(if long { 24 } else { 8 }), |(blocks, _)| blocks);
    for _ in 0..blocks {
        if r.chance(4) {
            there = !there;
        }
        let flag = r.pick(&[1, 1, 1, 1, 1, 1, 1, 1, 0, 2, 3, 4]);
        let pairs = if flag > 1 || r.chance(8) {
            0
        } else if long {
            2_048
        } else {
            1 + r.below(size.map_or(60, |(_, pairs)| pairs)) as usize
        };
        let list = signal.samples(r, pairs, there);
        lines.push(format!("{flag} {}", hex_list(&list)).into_bytes());
    }
    Text { lines, last_newline: true }
}

fn some_block(r: &mut Random, t: &Text) -> usize {
    if t.lines.len() < 4 { 1 } else { 3 + r.below(t.lines.len() as u64 - 3) as usize }
}

fn set_field(line: &mut Vec<u8>, field: usize, value: &[u8]) {
    let mut all: Vec<Vec<u8>> = line.split(|&b| b == b' ').map(<[u8]>::to_vec).collect();
    let last = all.len() - 1;
    all[field.min(last)] = value.to_vec();
    *line = all.join(&b' ');
}

/// Any line, but each kind of line as often as the others.
fn some_line(r: &mut Random, t: &Text) -> usize {
    match r.below(4) {
        3 => some_block(r, t),
        head => head as usize,
    }
}

fn put_byte(r: &mut Random, line: &mut Vec<u8>, byte: u8) {
    let at = match r.below(3) {
        0 => 0,
        1 => line.len(),
        _ => r.below(line.len() as u64 + 1) as usize,
    };
    line.insert(at, byte);
}

/// A space anywhere: in front, behind, doubled, or in the middle of a word.
fn put_space(r: &mut Random, line: &mut Vec<u8>) {
    put_byte(r, line, b' ');
}

fn damage(r: &mut Random, t: &mut Text, kind: u64) {
    let block = some_block(r, t);
    let any = some_line(r, t);
    match kind {
        0 => t.last_newline = false,
        1 => {
            let bytes = t.bytes();
            let cut = r.below(bytes.len() as u64 + 1) as usize;
            t.lines = bytes[..cut].split(|&b| b == b'\n').map(<[u8]>::to_vec).collect();
            t.last_newline = false;
        }
        2 => put_byte(r, &mut t.lines[any], b'\r'),
        3 => {
            let byte = r.pick(&[0, b'\t', 127, 128, 255, b'\n', b'x', b'-']);
            put_byte(r, &mut t.lines[any], byte)
        }
        4 => put_space(r, &mut t.lines[any]),
        5 => drop(t.lines.remove(any.min(t.lines.len() - 1))),
        6 => t.lines.insert(any, Vec::new()),
        7 => {
            let words = [&b"Rate"[..], b"flags", b"", b"rate"];
            let (line, word) = (r.pick(&[0, 2]), r.pick(&words));
            let field = r.below(9) as usize;
            set_field(&mut t.lines[line], field, word);
        }
        8 => {
            let word =
                r.pick(&[&b"00"[..], b"01", b"007", b"", b"-1", b"+1", b"1.0", b"1e3", b"0x1", b"1234567890123"]);
            let field = r.below(9) as usize;
            set_field(&mut t.lines[1], field, word);
        }
        9 => {
            let word = r.pick(&[&b"2"[..], b"9", b"00", b"01", b"", b"a"]);
            let field = 3 + r.below(3) as usize;
            set_field(&mut t.lines[1], field, word);
        }
        10 => t.lines[1].extend(b" 1"),
        11 => {
            let at = t.lines[1].iter().rposition(|&b| b == b' ').unwrap_or(0);
            t.lines[1].truncate(at);
        }
        12 => set_field(&mut t.lines[1], 0, r.pick(&[&b"999"[..], b"0", b"999999999999", b"100001"])),
        13 => set_field(&mut t.lines[1], 1, r.pick(&[&b"0"[..], b"4097", b"999999999999"])),
        14 => set_field(&mut t.lines[1], 2, r.pick(&[&b"3"[..], b"4294967297", b"999999999999"])),
        15 => set_field(&mut t.lines[1], 6, r.pick(&[&b"86401"[..], b"999999999999"])),
        16 => {
            let field = 7 + r.below(2) as usize;
            set_field(&mut t.lines[1], field, r.pick(&[&b"1"[..], b"999999", b"100000000001", b"999999999999"]));
        }
        17 => set_field(&mut t.lines[block], 0, r.pick(&[&b"5"[..], b"256", b"4294967297", b"999999999999"])),
        18 => set_field(&mut t.lines[block], 0, r.pick(&[&b"01"[..], b"", b"-", b"1234567890123", b"a"])),
        19 => t.lines[block] = format!("{} 3f8000003f800000", 2 + r.below(3)).into_bytes(),
        20 => {
            let bad = r.pick(&["7fc00000", "7f800000", "ff800000", "44800001", "c4800001", "44800000"]);
            let pair = if r.chance(2) { format!("{bad}00000000") } else { format!("3f800000{bad}") };
            t.lines[block] =
                format!("{} {}{pair}", r.below(2), "0000000000000000".repeat(r.below(3) as usize)).into_bytes();
        }
        21 => {
            let digits = r.pick(&[1, 7, 8, 15, 17, 24]);
            t.lines[block] = format!("1 {}", "0".repeat(digits)).into_bytes();
        }
        22 => t.lines[block] = format!("1 {}", "3f80000000000000".repeat(r.pick(&[2_048, 2_049]))).into_bytes(),
        23 => {
            t.lines[block] =
                r.pick(&["1 3F80000000000000", "1 3f8000000000000g", "1 --", "1", "1 - -", "1  -", "-"]).into()
        }
        24 => t.lines.truncate(r.below(4) as usize),
        _ => t.lines.swap(0, any.max(1)),
    }
}

fn text(seed: u64, kind: Option<u64>, size: Size) -> Vec<u8> {
    let mut r = Random::new(seed);
    let mut t = pass(&mut r, size);
    if let Some(kind) = kind {
        damage(&mut r, &mut t, kind);
        // A second damage now and then, so that the order of the refusals is met.
        if t.lines.len() > 3 && r.chance(4) {
            let second = r.below(KINDS);
            damage(&mut r, &mut t, second);
        }
    }
    t.bytes()
}

fn main() {
    let words = Words::new();
    let seed = words.number("--seed", 1);
    let size = words.get("--blocks").map(|_| (words.number("--blocks", 0), words.number("--pairs", 60)));
    match words.get("--dir") {
        None => {
            let kind = words.get("--damage").map(|_| words.number("--damage", 0) % KINDS);
            std::io::stdout().write_all(&text(seed, kind, size)).expect("standard output can be written");
        }
        Some(dir) => {
            for s in seed..seed + words.number("--count", 100) {
                let kind = (s % 3 != 0).then_some(s / 3 * 2 + s % 3 - 1).map(|k| k % KINDS);
                let path = format!("{dir}/{s}.txt");
                std::fs::write(&path, text(s, kind, size)).unwrap_or_else(|e| stop(&format!("{path}: {e}")));
            }
        }
    }
}
