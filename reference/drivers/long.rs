//! Passes of long blocks, written as words for crates/channel_vectors, whose samples are told by a rule (README.md, kind 10): for each modulation, with and
//! without a bank, on one frequency and on two. The blocks are so long that the window goes round, the guard ends and the lock is kept without it; then the
//! signal goes away until the lock is lost and, with a bank, a fade has run out; after a restart it is there again.
//!
//!     long [--build exported|platform|counted]

mod api;
mod recorded;
#[allow(dead_code)] // of the generators a part is used here
mod values;

use api::shapes::{MEMORY, Settings};
use api::{Channel, Reference};
use recorded::{Kind, Record, Rule};
use values::{Words, stop};

const RATE: u64 = 40_000;

struct Pass {
    channel: Channel,
    window: Vec<f64>,
    two: bool,
}

impl Pass {
    fn new(reference: Reference, modulation: u64, bank: bool, two: bool) -> Pass {
        let ratio = if two { 1.5 } else { 1.0 };
        let (bank, two_too) = (bank as u32, two as u32);
        let settings = Settings { rate: RATE, factor: 1, modulation, adaptive: 1, dual_lock: 1, bank, two: two_too, fade: 3, ratio };
        Record::new(Kind::Zeros).print();
        let (refusal, mut channel) = reference.open(&settings);
        recorded::open(&settings, refusal);
        let f = if two { [150e6, 150e6, 400e6, 400e6] } else { [0.0, 137.5e6, 0.0, 0.0] };
        let refusal = channel.assign(f[0], f[1], f[2], f[3]);
        recorded::assign(f, refusal);
        Pass { channel, window: vec![0.0; MEMORY], two }
    }

    fn block(&mut self, flag: u64, pairs: usize, rules: &mut [Rule; 2]) {
        let second = if self.two { pairs } else { 0 };
        let line = recorded::asked_by_rule(flag, (&rules[0], pairs), (&rules[1], second), MEMORY);
        let (mut a, mut b) = (rules[0].samples(pairs), rules[1].samples(second));
        let answer = self.channel.block(flag, &mut a, &mut b, &mut self.window);
        recorded::answered_by_rule(line, &answer, &a, &b, &self.window);
    }

    fn look(&self) {
        Record::new(Kind::Figures).floats32(&self.channel.figures()).print();
        recorded::state(&self.channel.read());
    }

    fn run(&mut self, seed: u64) {
        let mut signal = [0, 1].map(|i| Rule::carrier(0.7, 210.0 + 105.0 * i as f64, RATE as f64, 0.2, seed + i));
        let mut noise = [2, 3].map(|i| Rule::carrier(0.0, 0.0, RATE as f64, 1.0, seed + i));
        for pairs in [300, 1_000, 2_000, 4_096] {
            self.block(1, pairs, &mut signal);
        }
        self.look();
        for pairs in [1_500, 1_500, 1_500, 200, 200, 200, 200, 200] {
            self.block(1, pairs, &mut noise);
        }
        self.look();
        self.block(0, 0, &mut noise);
        for pairs in [400, 2_100, 3] {
            self.block(1, pairs, &mut signal);
        }
        self.look();
        self.channel.release();
        Record::new(Kind::Release).print();
        recorded::state(&self.channel.read());
    }
}

fn main() {
    let words = Words::new();
    let name = words.get("--build").unwrap_or("exported");
    let reference = Reference::named(name).unwrap_or_else(|| stop("--build exported, platform or counted"));
    for modulation in 0..3 {
        for (bank, two) in [(false, false), (false, true), (true, false), (true, true)] {
            Pass::new(reference, modulation, bank, two).run(10 * modulation);
        }
    }
    reference.counts();
}
