//! Channels built from plain numbers, which no calls make: three unlike trackers, pruning, trackers 1 and 2 in use, any marks, NaN and infinities.
//! Each is given a few blocks, in the reference and in the port, and all that they answer and leave is compared bit for bit.
//!
//!     built [--build exported|counted] [--seed N] [--count N] [--longest PAIRS] [--words 1] [--ruled 1]
//!     built --ends 1 [--build exported|counted] [--words 1]
//!
//! With `--ends 1` the channels are others: their trackers stand still at an end of the phase's range or beside it, and a block of one pair wraps it.
//!
//! With `--words 1`, or `--ruled 1` if the blocks' lists are to be told by rules, the port is left out, and the channels, the blocks and what the reference answers are written as words, for
//! crates/channel_vectors (README.md has their form). The window memory is then filled by a rule, so that it need not be written.

mod api;
mod beside;
mod port;
mod recorded;
mod values;

use api::Reference;
use api::shapes::{Built, MEMORY, PAIRS, STRETCH, Tracker};
use beside::{Beside, Tally};
use recorded::{Kind, Record, Rule};
use values::{Random, Signal, Words, built, built_f32, stop};

const TURN: f64 = 2.0 * std::f64::consts::PI;

/// A covariance: as a start has it, of ordinary size, or any numbers.
fn covariance(r: &mut Random, start: &Tracker) -> [f64; 36] {
    let mut p = start.p;
    match r.below(4) {
        0 => {}
        1 => (0..6).for_each(|i| p[7 * i] = r.unit() * 10.0),
        2 => {
            for i in 0..6 {
                for j in 0..6 {
                    p[6 * i + j] = r.noise();
                }
            }
        }
        _ => p = [0; 36].map(|_| built(r, 100.0)),
    }
    p
}

fn tracker(r: &mut Random, start: &Tracker, hertz: f64, plain: bool) -> Tracker {
    let mut t = *start;
    t.x = [r.noise(), TURN * (hertz + r.noise()), r.noise() * 10.0, r.noise(), TURN * hertz, r.noise() * 10.0];
    if !plain {
        t.x = t.x.map(|v| if r.chance(6) { built(r, 300.0) } else { v });
    }
    t.p = covariance(r, start);
    t.metric = r.pick(&[0.5, 0.5, 0.9, 0.1, 0.05, 0.02, 0.0, -0.5, -1.0, f64::NAN]);
    if r.chance(2) {
        t.metric = r.unit();
    }
    t.envelope = if plain { 0.5 + r.unit() } else { built(r, 1.0) };
    t.ratio = r.pick(&[1.0, 1.0, 0.25, 4.0, 2.5]);
    t.guard = r.pick(&[0, 0, 1, 7, 2_048]);
    t.locked = !r.chance(4) as u32;
    t.adaptive = r.below(2) as u32;
    t.dual_lock = r.below(2) as u32;
    t.window_fill = r.pick(&[0, 1, 500, 1_023, 1_024, 1_024]);
    t.window_start = if t.window_fill as usize == PAIRS { r.below(PAIRS as u64) as u32 } else { 0 };
    t.sum_abs_i = if plain { r.unit() * 900.0 } else { built(r, 500.0) };
    t.sum_q_sq = if plain { r.unit() * 900.0 } else { built(r, 500.0) };
    t
}

fn frequency(r: &mut Random) -> f64 {
    r.pick(&[0.0, 137.5e6, 400e6, 1e6, 137.5e6 + 1e-6])
}

fn channel(r: &mut Random, reference: Reference) -> Built {
    let factor = r.pick(&[1, 2, 3, 110]);
    let rate = factor * r.pick(&[1_000, 40_000, 48_017, 100_000]);
    let modulation = r.below(3) as u32;
    let start = reference.tracker(rate as f64 / factor as f64, modulation as u64);
    let plain = r.chance(2);
    let hertz = r.noise() * 100.0;
    let apart = r.pick(&[0.0, 100.0, 149.0, 160.0, 500.0, 1e5]);
    let mut trackers = [0, 1, 2].map(|_| {
        let off = r.noise().signum() * apart;
        tracker(r, &start, hertz + off, plain)
    });
    if r.chance(3) {
        (1..3).for_each(|i| trackers[i].metric = trackers[0].metric);
    }
    if r.chance(6) {
        trackers[1] = trackers[0];
        trackers[2] = trackers[0];
    }
    Built {
        rate,
        factor,
        modulation,
        bank: !r.chance(5) as u32,
        two: r.chance(3) as u32,
        assigned: !r.chance(10) as u32,
        nominal: frequency(r),
        target: frequency(r),
        target2: frequency(r),
        frequency2: frequency(r),
        locked: r.below(2) as u32,
        ever_locked: r.below(2) as u32,
        last_snr: if r.chance(3) { built_f32(r) } else { r.noise() as f32 },
        tracker: r.below(4) as u32,
        in_fade: r.below(2) as u32,
        ended: r.below(2) as u32,
        fade_count: r.below(6),
        fade_steps: r.below(6),
        phase: built(r, 1.0),
        frequency: built(r, 1e6),
        snr: built(r, 10.0),
        electrons: built(r, 10.0),
        pll: tracker(r, &start, hertz, plain),
        trackers,
    }
}

/// A tracker that stands still at a phase: it has no frequency, and beside such an envelope a sample counts for next to nothing.
fn still(start: &Tracker, phase: f64) -> Tracker {
    let mut t = *start;
    t.x = [phase, 0.0, 0.0, phase, 0.0, 0.0];
    (t.envelope, t.guard, t.locked) = (1e9, 2_048, 1);
    t
}

/// A locked channel of such trackers.
fn still_channel(reference: Reference, modulation: u32, bank: u32, two: u32, phase: f64) -> Built {
    let t = still(&reference.tracker(40_000.0, modulation as u64), phase);
    Built {
        rate: 40_000,
        factor: 1,
        modulation,
        bank,
        two,
        assigned: 1,
        nominal: 137.5e6,
        target: 137.5e6,
        target2: 400e6,
        frequency2: 400e6,
        locked: 1,
        ever_locked: 1,
        last_snr: 0.0,
        tracker: 0,
        in_fade: 0,
        ended: 0,
        fade_count: 0,
        fade_steps: 5,
        phase: 0.0,
        frequency: 137.5e6,
        snr: 0.0,
        electrons: 0.0,
        pll: t,
        trackers: [t; 3],
    }
}

/// Half the phase's range of each modulation, and a sample at minus half of it.
const ENDS: [(f64, [f32; 2]); 3] = [
    (std::f64::consts::PI, [-1.0, 0.0]),
    (std::f64::consts::PI, [0.0, 1.0]),
    (std::f64::consts::FRAC_PI_4, [1.0, -1.0]),
];

/// Window memory for a run with the port: any numbers.
fn any_window(r: &mut Random, odd: bool) -> Vec<f64> {
    (0..MEMORY).map(|_| if odd { built(r, 1.0) } else { r.unit() }).collect()
}

/// Window memory that words can tell: by the rule, and some odd pairs where the trackers look next.
fn told_window(r: &mut Random, odd: bool, b: &Built) -> Vec<f64> {
    let start = r.below(64);
    Record::new(Kind::Fill).whole(start).print();
    let mut window: Vec<f64> = (0..MEMORY as u64).map(|i| recorded::filled(start, i)).collect();
    let trackers = [&b.pll, &b.trackers[0], &b.trackers[1], &b.trackers[2]];
    for (k, t) in trackers.iter().enumerate().filter(|_| odd) {
        let pair = STRETCH * k + 2 * (recorded::pushed(t) as usize % PAIRS);
        for place in [pair, pair + 1] {
            window[place] = built(r, 1.0);
            Record::new(Kind::Poke).whole(place as u64).float(window[place]).print();
        }
    }
    window
}

struct Run {
    reference: Reference,
    as_words: bool,
    by_rule: bool,
    longest: u64,
    tally: Tally,
}

impl Run {
    fn told(&self, both: &Beside) {
        if self.as_words {
            recorded::state(&both.read());
        }
    }

    fn block(&mut self, both: &mut Beside, flag: u64, first: &mut [f32], second: &mut [f32], window: &mut [f64]) {
        let asked = self.as_words.then(|| recorded::asked(flag, first, second, MEMORY));
        let a = both.block(flag, first, second, window, &mut self.tally);
        if let Some(line) = asked {
            recorded::answered(line, &a, first, second, window);
        }
        self.told(both);
    }

    /// A block whose lists are made by rules.
    fn ruled(&mut self, both: &mut Beside, flag: u64, rules: &mut [Rule; 2], pairs: [usize; 2], window: &mut [f64]) {
        let line = recorded::asked_by_rule(flag, (&rules[0], pairs[0]), (&rules[1], pairs[1]), MEMORY);
        let (mut first, mut second) = (rules[0].samples(pairs[0]), rules[1].samples(pairs[1]));
        let a = both.block(flag, &mut first, &mut second, window, &mut self.tally);
        recorded::answered_by_rule(line, &a, &first, &second, window);
        self.told(both);
    }

    fn figures(&mut self, both: &Beside) {
        let twelve = both.figures(&mut self.tally);
        if self.as_words {
            Record::new(Kind::Figures).floats32(&twelve).print();
        }
    }

    fn release(&mut self, both: &mut Beside) {
        both.release(&mut self.tally);
        if self.as_words {
            Record::new(Kind::Release).print();
        }
        self.told(both);
    }

    fn build(&mut self, b: &Built) -> Beside {
        if self.as_words {
            recorded::build(b, &self.reference.tracker(b.rate as f64 / b.factor as f64, b.modulation as u64));
        }
        Beside::build(self.reference, !self.as_words, b, &mut self.tally)
    }

    /// Each modulation, with and without a bank, on one frequency and on two, at the phase next below minus half and at its two neighbours.
    fn ends(&mut self) {
        for (n, modulation) in (0..12).flat_map(|n| [(n, 0), (n, 1), (n, 2)]) {
            let (half, sample) = ENDS[modulation as usize];
            let below = (-half).next_down();
            let phase = [below, -half, below.next_down()][n as usize % 3];
            let b = still_channel(self.reference, modulation, n / 3 % 2, n / 6, phase);
            let mut r = Random::new(n as u64);
            let mut window = if self.as_words { told_window(&mut r, false, &b) } else { any_window(&mut r, false) };
            let mut both = self.build(&b);
            let mut second = if b.two != 0 { sample.to_vec() } else { Vec::new() };
            self.block(&mut both, 1, &mut sample.to_vec(), &mut second, &mut window);
        }
    }

    /// One channel with its blocks.
    fn one(&mut self, seed: u64) {
        let mut r = Random::new(seed);
        let b = channel(&mut r, self.reference);
        let odd = r.chance(3);
        let mut window = if self.as_words { told_window(&mut r, odd, &b) } else { any_window(&mut r, odd) };
        let decimated = b.rate as f64 / b.factor as f64;
        let mut signals = [0, 1].map(|_| Signal::new(&mut r, b.modulation as u64, decimated));
        let mut both = self.build(&b);
        for _ in 0..1 + r.below(4) {
            let flag = r.pick(&[1, 1, 1, 1, 1, 1, 0, 2, 3, 4]);
            let pairs = if flag > 1 { 0 } else { r.below(self.longest + 1) as usize };
            let pairs = if r.chance(3) { 0 } else { pairs };
            let there = !r.chance(4);
            if self.by_rule {
                let mut rules = [0, 1].map(|_| Rule::carrier(there as u8 as f64 * 0.7, r.noise() * 100.0, decimated, 0.3, r.bits()));
                self.ruled(&mut both, flag, &mut rules, [pairs, pairs * b.two as usize], &mut window);
                continue;
            }
            let mut first = signals[0].samples(&mut r, pairs, there);
            let mut second = if b.two != 0 { signals[1].samples(&mut r, pairs, there) } else { Vec::new() };
            self.block(&mut both, flag, &mut first, &mut second, &mut window);
            if r.chance(4) {
                self.figures(&both);
            }
        }
        if r.chance(3) {
            self.release(&mut both);
        }
    }
}

fn main() {
    let words = Words::new();
    let name = words.get("--build").unwrap_or("exported");
    let reference = Reference::named(name).unwrap_or_else(|| stop("--build exported or counted"));
    let (seed, count) = (words.number("--seed", 1), words.number("--count", 1_000));
    let longest = words.number("--longest", 300).min(4_096);
    let by_rule = words.number("--ruled", 0) != 0;
    let as_words = by_rule || words.number("--words", 0) != 0;
    let mut run = Run { reference, as_words, by_rule, longest, tally: Tally::default() };
    if words.number("--ends", 0) != 0 {
        run.ends();
    } else {
        (seed..seed + count).for_each(|seed| run.one(seed));
    }
    reference.counts();
    if !as_words {
        run.tally.print();
        std::process::exit((run.tally.differing != 0) as i32);
    }
}
