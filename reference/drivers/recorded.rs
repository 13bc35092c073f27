//! Calls and the reference's answers as a run of words of 16 hexadecimal digits, one call a line, for crates/channel_vectors. README.md has the
//! words of each kind.

use crate::api::shapes::{Answer, Built, PAIRS, Settings, Tracker};
use crate::values::{bits, bits32, hex};

/// The kinds of lines, by the number that each begins with.
#[derive(Clone, Copy)]
pub enum Kind {
    Zeros,
    Fill,
    Poke,
    Open,
    Build,
    Assign,
    Block,
    Release,
    Figures,
    State,
    Ruled,
}

/// One line.
pub struct Record(String);

impl Record {
    pub fn new(kind: Kind) -> Self {
        Record(format!("{:016x}", kind as u64))
    }

    pub fn whole(mut self, n: u64) -> Self {
        self.0.push_str(&format!(" {n:016x}"));
        self
    }

    pub fn wholes(self, values: &[u64]) -> Self {
        values.iter().fold(self, |line, n| line.whole(*n))
    }

    pub fn float(mut self, v: f64) -> Self {
        self.0.push(' ');
        self.0.push_str(&hex(v));
        self
    }

    pub fn floats(self, values: &[f64]) -> Self {
        values.iter().fold(self, |line, v| line.float(*v))
    }

    pub fn float32(self, v: f32) -> Self {
        self.whole(bits32(v) as u64)
    }

    pub fn floats32(self, values: &[f32]) -> Self {
        values.iter().fold(self, |line, v| line.float32(*v))
    }

    /// A list with its count.
    pub fn list(self, values: &[f32]) -> Self {
        self.whole(values.len() as u64).floats32(values)
    }

    pub fn print(self) {
        println!("{}", self.0);
    }
}

/// Many numbers in one.
fn mixed_bits(values: impl Iterator<Item = u64>) -> u64 {
    const PRIME: u64 = (1 << 59) - 55;
    values.fold(0, |sum, v| (sum % PRIME) * 31 + v % PRIME)
}

fn mixed(values: &[f64]) -> u64 {
    mixed_bits(values.iter().map(|v| bits(*v)))
}

fn mixed32(values: &[f32]) -> u64 {
    mixed_bits(values.iter().map(|v| bits32(*v) as u64))
}

/// Samples by a rule that needs no sine, so that a long list is told by six numbers: a carrier that turns by (cos, sin) from sample to sample, and noise.
#[derive(Clone, Copy, Default)]
pub struct Rule {
    pub re: f64,
    pub im: f64,
    pub cos: f64,
    pub sin: f64,
    pub noise: f64,
    pub seed: u64,
}

impl Rule {
    /// A carrier of this size, and noise up to half of `noise` to either side.
    pub fn carrier(size: f64, hertz: f64, rate: f64, noise: f64, seed: u64) -> Rule {
        let turn = std::f64::consts::TAU * hertz / rate;
        Rule { re: size, im: 0.0, cos: turn.cos(), sin: turn.sin(), noise, seed: seed % NOISES }
    }

    fn noise(&mut self) -> f64 {
        self.seed = (self.seed * 1_103_515_245 + 12_345) % NOISES;
        self.seed as f64 / NOISES as f64 - 0.5
    }

    /// So many samples; the rule then goes on behind them.
    pub fn samples(&mut self, pairs: usize) -> Vec<f32> {
        let mut list = Vec::with_capacity(2 * pairs);
        for _ in 0..pairs {
            let (re, im) = (self.re, self.im);
            list.push((re + self.noise * self.noise()) as f32);
            list.push((im + self.noise * self.noise()) as f32);
            self.re = re * self.cos - im * self.sin;
            self.im = re * self.sin + im * self.cos;
        }
        list
    }

    fn told(&self, line: Record, pairs: usize) -> Record {
        line.whole(pairs as u64).floats(&[self.re, self.im, self.cos, self.sin, self.noise]).whole(self.seed)
    }
}

/// Noise has 31 bits.
const NOISES: u64 = 1 << 31;

/// What place i of the window memory holds after a fill by `start`.
pub fn filled(start: u64, i: u64) -> f64 {
    ((7 * i + start) % 64) as f64 / 64.0
}

/// How many pairs were pushed since the reset, as the port counts them.
pub fn pushed(t: &Tracker) -> u64 {
    if (t.window_fill as usize) < PAIRS { t.window_fill as u64 } else { PAIRS as u64 + t.window_start as u64 }
}

pub fn open(s: &Settings, refusal: u32) {
    let switches = [s.adaptive, s.dual_lock, s.bank, s.two].map(|v| v as u64);
    let line = Record::new(Kind::Open).wholes(&[s.rate, s.factor, s.modulation]).wholes(&switches);
    line.whole(s.fade).float(s.ratio).whole(refusal as u64).print();
}

pub fn assign(f: [f64; 4], refusal: u32) {
    Record::new(Kind::Assign).floats(&f).whole(refusal as u64).print();
}

/// The words before the answer.
pub fn asked(flag: u64, first: &[f32], second: &[f32], length: usize) -> Record {
    Record::new(Kind::Block).whole(flag).list(first).list(second).whole(length as u64)
}

fn answer(asked: Record, a: &Answer) -> Record {
    let marks = [a.refusal as u64, a.locked as u64, a.tracker as u64, a.in_fade as u64, a.fade_count, a.ended as u64];
    asked.wholes(&marks).floats(&[a.phase, a.frequency, a.snr, a.electrons, a.metric])
}

pub fn answered(asked: Record, a: &Answer, first: &[f32], second: &[f32], window: &[f64]) {
    answer(asked, a).floats32(first).floats32(second).whole(mixed(window)).print();
}

/// The words before the answer of a block whose lists are made by rules, each with its pairs.
pub fn asked_by_rule(flag: u64, first: (&Rule, usize), second: (&Rule, usize), length: usize) -> Record {
    let line = first.0.told(Record::new(Kind::Ruled).whole(flag), first.1);
    second.0.told(line, second.1).whole(length as u64)
}

/// The lists that were left are mixed into a word each.
pub fn answered_by_rule(asked: Record, a: &Answer, first: &[f32], second: &[f32], window: &[f64]) {
    answer(asked, a).whole(mixed32(first)).whole(mixed32(second)).whole(mixed(window)).print();
}

/// A tracker to be built: what differs from a new one. The covariance is left out where it is the new one's.
fn tracker(line: Record, t: &Tracker, start: &Tracker) -> Record {
    let new = t.p.iter().zip(&start.p).all(|(a, b)| bits(*a) == bits(*b));
    let line = line.floats(&t.x).whole(!new as u64);
    let line = if new { line } else { line.floats(&t.p) };
    let line = line.floats(&[t.metric, t.envelope, t.sum_abs_i, t.sum_q_sq, t.ratio]);
    line.wholes(&[pushed(t), t.guard, t.locked as u64, t.adaptive as u64, t.dual_lock as u64])
}

pub fn build(b: &Built, start: &Tracker) {
    let line = Record::new(Kind::Build).wholes(&[b.rate, b.factor, b.modulation as u64, b.bank as u64, b.two as u64]);
    let line = line.whole(b.assigned as u64).floats(&[b.nominal, b.target, b.target2, b.frequency2]);
    let line = line.whole(b.locked as u64).whole(b.ever_locked as u64).float32(b.last_snr);
    let line = line.wholes(&[b.tracker as u64, b.in_fade as u64, b.ended as u64, b.fade_count, b.fade_steps]);
    let line = line.floats(&[b.phase, b.frequency, b.snr, b.electrons]);
    let line = tracker(line, &b.pll, start);
    b.trackers.iter().fold(line, |line, t| tracker(line, t, start)).print();
}

/// A tracker as it stands: its mark and metric, its counts, and the rest mixed into one word.
fn standing(line: Record, t: &Tracker) -> Record {
    let rest = [t.envelope, t.sum_abs_i, t.sum_q_sq, t.ts, t.ratio];
    let all: Vec<f64> = t.x.iter().chain(&t.p).chain(&rest).copied().collect();
    line.whole(t.locked as u64).float(t.metric).wholes(&[pushed(t), t.guard]).whole(mixed(&all))
}

/// The channel as it stands; the bank's part only where there is one.
pub fn state(b: &Built) {
    let line = Record::new(Kind::State).wholes(&[b.assigned as u64, b.locked as u64, b.ever_locked as u64]);
    let line = line.float32(b.last_snr).floats(&[b.phase, b.frequency, b.snr, b.electrons]);
    let line = standing(line.floats(&[b.nominal, b.target, b.target2, b.frequency2]), &b.pll);
    if b.bank == 0 {
        return line.print();
    }
    let line = line.wholes(&[b.tracker as u64, b.in_fade as u64, b.fade_count, b.fade_steps, b.ended as u64]);
    b.trackers.iter().fold(line, standing).print();
}
