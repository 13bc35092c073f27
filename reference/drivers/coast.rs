//! Passes whose signal goes away for hours, so that a bank coasts on what it knew: the port beside the reference, call by call, and how far the phase ran.
//!
//!     coast [--build exported|counted] [--minutes N] [--rate N] [--hertz N]
//!
//! For each modulation, on one frequency and on two: a carrier at that many Hz until it is locked, noise for so many minutes in the longest blocks, and the
//! carrier again. The rate is the decimated one. A fade cannot last longer than 147 minutes: 86,400 seconds in blocks of 4,096 pairs. What differs is told on
//! standard error, and one line for each pass goes to standard output: modulation, frequencies, blocks in a fade, and the largest phase that a block answered.

mod api;
mod beside;
mod port;
#[allow(dead_code)] // only the rules are used here
mod recorded;
#[allow(dead_code)] // of the generators a part is used here
mod values;

use api::shapes::Settings;
use api::{Reference, new_window};
use beside::{Beside, Tally};
use recorded::Rule;
use values::{Words, stop};

const LONGEST: usize = 4_096;

struct Pass {
    both: Beside,
    window: Vec<f64>,
    two: bool,
    faded: u64,
    farthest: f64,
}

impl Pass {
    fn new(reference: Reference, modulation: u64, two: bool, rate: u64, tally: &mut Tally) -> Pass {
        let ratio = if two { 1.5 } else { 1.0 };
        let settings = Settings { rate, factor: 1, modulation, adaptive: 1, dual_lock: 1, bank: 1, two: two as u32, fade: 86_400, ratio };
        let (_, mut both) = Beside::open(reference, true, &settings, tally);
        let f = if two { [150e6, 150e6, 400e6, 400e6] } else { [0.0, 137.5e6, 0.0, 0.0] };
        both.assign(f, tally);
        Pass { both, window: new_window(), two, faded: 0, farthest: 0.0 }
    }

    fn block(&mut self, pairs: usize, rules: &mut [Rule; 2], tally: &mut Tally) {
        let second = if self.two { pairs } else { 0 };
        let (mut a, mut b) = (rules[0].samples(pairs), rules[1].samples(second));
        let answer = self.both.block(1, &mut a, &mut b, &mut self.window, tally);
        self.faded += answer.in_fade as u64;
        if answer.phase.abs() > self.farthest {
            self.farthest = answer.phase.abs();
        }
    }

    fn run(&mut self, rate: f64, hertz: f64, coasting: u64, tally: &mut Tally) {
        let mut signal = [0, 1].map(|i| Rule::carrier(0.7, hertz * (1.0 + i as f64 / 2.0), rate, 0.05, 7 + i));
        let mut noise = [2, 3].map(|i| Rule::carrier(0.0, 0.0, rate, 1.0, 7 + i));
        for _ in 0..4 {
            self.block(1_000, &mut signal, tally);
        }
        for _ in 0..coasting {
            self.block(LONGEST, &mut noise, tally);
        }
        for pairs in [1_000, 2_000, LONGEST, 10] {
            self.block(pairs, &mut signal, tally);
        }
        self.both.figures(tally);
        self.both.release(tally);
    }
}

fn main() {
    let words = Words::new();
    let name = words.get("--build").unwrap_or("exported");
    let reference = Reference::named(name).unwrap_or_else(|| stop("--build exported or counted"));
    let (minutes, rate, hertz) = (words.number("--minutes", 120), words.number("--rate", 1_000), words.number("--hertz", 210));
    let coasting = (minutes * 60 * rate).div_ceil(LONGEST as u64);
    let mut tally = Tally::default();
    for modulation in 0..3 {
        for two in [false, true] {
            let mut pass = Pass::new(reference, modulation, two, rate, &mut tally);
            pass.run(rate as f64, hertz as f64, coasting, &mut tally);
            println!("modulation {modulation}, {} frequencies: {} blocks in a fade, the phase up to {}", 1 + two as u32, pass.faded, pass.farthest);
        }
    }
    tally.print();
    reference.counts();
}
