//! Seeded lists of calls and their answers, as text on standard output.
//!
//!     calls [--build exported|platform|counted] [--seed N] [--lists N] [--longest PAIRS] [--brief 1] [--port 1] [--words 1]
//!
//! One call a line, ` = ` before its answer. Lines:
//!
//!     list SEED                                               a new window memory, all zeros
//!     open RATE FACTOR MOD ADAPTIVE DUAL BANK TWO FADE RATIO = REFUSAL
//!     assign NOMINAL TARGET TARGET2 FREQUENCY2 = REFUSAL
//!     poke PLACE VALUE                                        foreign contents in the window memory
//!     block FLAG FIRST SECOND LENGTH = REFUSAL LOCKED TRACKER IN_FADE COUNT ENDED PHASE FREQUENCY
//!           SNR ELECTRONS METRIC FIRST SECOND WINDOW          (one line; LENGTH of window memory)
//!     release
//!     figures = twelve f32
//!
//! Lists are run-on hexadecimal f32, `-` if empty, and `same` in the answer if no bit changed.
//! WINDOW is the digest of the 8,192 numbers (values.rs, `digest`). With `--brief 1` lists are
//! written as their digest, so that long runs can be compared without their samples. With `--port 1` nothing is
//! written: each call is made to the port too, and all that differs in a bit is told on standard error. With `--words 1`
//! the calls are written as words, for crates/channel_vectors (README.md has their form).

mod api;
mod beside;
mod port;
mod recorded;
mod values;

use api::shapes::{MEMORY, STRETCH, Settings};
use api::{Reference, new_window};
use beside::{Beside, Tally};
use recorded::{Kind, Record};
use std::io::Write;
use values::{ODD, Random, Signal, Words, digest, hex, hex32, stop};

struct Run<'a, W: Write> {
    reference: Reference,
    with_port: bool,
    tally: &'a mut Tally,
    random: Random,
    window: Vec<f64>,
    settings: Settings,
    brief: bool,
    as_words: bool,
    longest: u64,
    out: &'a mut W,
}

fn usual_settings(r: &mut Random) -> Settings {
    let factor = r.pick(&[1, 1, 2, 3, 7, 110, 4096]);
    let rate = factor * 1_000 + r.below(factor * 99_000 + 1);
    let rate = r.pick(&[rate, 40_000 * factor, 1_000 * factor, 100_000 * factor, 50_000 * factor, 1_004 * factor]);
    Settings {
        rate,
        factor,
        modulation: r.below(3),
        adaptive: r.below(2) as u32,
        dual_lock: r.below(2) as u32,
        bank: r.below(2) as u32,
        two: r.chance(3) as u32,
        fade: r.pick(&[0, 1, 2, 5, 60, 86_400]),
        ratio: r.pick(&[1.0, 1.0, 0.25, 4.0, 1.0 + 9e-7, 1.0 + 1.1e-6, 2.5]),
    }
}

/// One setting past its limit, or just within.
fn odd_settings(r: &mut Random) -> Settings {
    let mut s = usual_settings(r);
    match r.below(8) {
        0 => s.factor = r.pick(&[0, 1, 4096, 4097, u64::MAX]),
        1 => s.rate = r.pick(&[1_000 * s.factor - 1, 100_000 * s.factor + 1, 0, u64::MAX]),
        2 => s.modulation = r.pick(&[2, 3, 4_294_967_296, 4_294_967_297, u64::MAX]),
        3 => s.fade = r.pick(&[86_400, 86_401, u64::MAX]),
        4 => s.ratio = r.pick(&[0.25, 4.0, 0.25f64.next_down(), 4.0f64.next_up()]),
        5 => s.ratio = r.pick(&ODD),
        6 => (s.modulation, s.fade, s.ratio) = (3, 86_401, f64::NAN),
        _ => (s.factor, s.modulation) = (0, 3),
    }
    s
}

fn frequency(r: &mut Random) -> f64 {
    match r.below(12) {
        0 => r.pick(&ODD),
        1 => r.pick(&[1e6, 1e11, 1e6f64.next_down(), 1e11f64.next_up(), -137.5e6]),
        2 => -0.0,
        3..=5 => 0.0,
        6 => r.between(1e6, 1e11),
        _ => r.pick(&[137.5e6, 400e6, 137.5e6 + 1e-6]),
    }
}

fn usual_frequency(r: &mut Random) -> f64 {
    if r.chance(3) { 0.0 } else { r.pick(&[137.5e6, 400e6, 1e6, 1e11, 137_500_001.5]) }
}

impl<W: Write> Run<'_, W> {
    fn line(&mut self, text: &str) {
        if !self.with_port && !self.as_words {
            writeln!(self.out, "{text}").expect("standard output can be written");
        }
    }

    fn written(&self, list: &[f32]) -> String {
        if list.is_empty() {
            "-".to_string()
        } else if self.brief {
            let wide: Vec<f64> = list.iter().map(|v| *v as f64).collect();
            format!("{}:{:016x}", list.len(), digest(&wide))
        } else {
            list.iter().map(|v| hex32(*v)).collect()
        }
    }

    fn open(&mut self) -> Beside {
        let s = if self.random.chance(4) { odd_settings(&mut self.random) } else { usual_settings(&mut self.random) };
        let (refusal, channel) = Beside::open(self.reference, self.with_port, &s, self.tally);
        self.settings = s;
        if refusal != 0 {
            self.settings = Settings { rate: 1_000, factor: 1, modulation: 0, two: 0, bank: 0, ..s };
        }
        if self.as_words {
            recorded::open(&s, refusal);
        }
        let ratio = hex(s.ratio);
        self.line(&format!(
            "open {} {} {} {} {} {} {} {} {ratio} = {refusal}",
            s.rate, s.factor, s.modulation, s.adaptive, s.dual_lock, s.bank, s.two, s.fade
        ));
        channel
    }

    fn assign(&mut self, channel: &mut Beside, odd: bool) {
        let r = &mut self.random;
        let f: [f64; 4] = [0; 4].map(|_| if odd { frequency(r) } else { usual_frequency(r) });
        let refusal = channel.assign(f, self.tally);
        if self.as_words {
            recorded::assign(f, refusal);
        }
        self.line(&format!("assign {} {} {} {} = {refusal}", hex(f[0]), hex(f[1]), hex(f[2]), hex(f[3])));
    }

    /// Foreign contents, a few in a row, mostly in the stretches that the channel uses.
    fn poke(&mut self) {
        let r = &mut self.random;
        let stretch = if self.settings.bank != 0 { 1 + r.below(3) } else { 0 };
        let stretch = if r.chance(4) { r.below(4) } else { stretch } as usize;
        let start = r.below(STRETCH as u64) as usize;
        for offset in 0..1 + self.random.below(12) as usize {
            let place = STRETCH * stretch + (start + offset) % STRETCH;
            let value = if self.random.chance(6) { self.random.pick(&ODD) } else { self.random.noise() };
            self.window[place] = value;
            if self.as_words {
                Record::new(Kind::Poke).whole(place as u64).float(value).print();
            }
            self.line(&format!("poke {place} {}", hex(value)));
        }
    }

    fn block(
        &mut self,
        channel: &mut Beside,
        flag: u64,
        mut first: Vec<f32>,
        mut second: Vec<f32>,
        length: usize,
    ) -> u32 {
        if self.with_port {
            return channel.block(flag, &mut first, &mut second, &mut self.window[..length], self.tally).locked;
        }
        if self.as_words {
            let asked = recorded::asked(flag, &first, &second, length);
            let a = channel.block(flag, &mut first, &mut second, &mut self.window[..length], self.tally);
            recorded::answered(asked, &a, &first, &second, &self.window[..MEMORY]);
            return a.locked;
        }
        let (first_before, second_before) = (self.written(&first), self.written(&second));
        let bits = |list: &[f32]| list.iter().map(|v| v.to_bits()).collect::<Vec<u32>>();
        let (bits1, bits2) = (bits(&first), bits(&second));
        let a = channel.block(flag, &mut first, &mut second, &mut self.window[..length], self.tally);
        let first_after = if bits(&first) == bits1 { "same".to_string() } else { self.written(&first) };
        let second_after = if bits(&second) == bits2 { "same".to_string() } else { self.written(&second) };
        let window = digest(&self.window[..MEMORY]);
        let floats = [a.phase, a.frequency, a.snr, a.electrons, a.metric].map(hex).join(" ");
        self.line(&format!(
            "block {flag} {first_before} {second_before} {length} = {} {} {} {} {} {} {floats} {first_after} {second_after} {window:016x}",
            a.refusal, a.locked, a.tracker, a.in_fade, a.fade_count, a.ended
        ));
        a.locked
    }

    fn figures(&mut self, channel: &Beside) {
        let twelve = channel.figures(self.tally);
        if self.as_words {
            Record::new(Kind::Figures).floats32(&twelve).print();
            recorded::state(&channel.read());
        }
        let twelve = twelve.map(hex32).join(" ");
        self.line(&format!("figures = {twelve}"));
    }

    fn release(&mut self, channel: &mut Beside) {
        channel.release(self.tally);
        if self.as_words {
            Record::new(Kind::Release).print();
        }
        self.line("release");
    }

    /// A block with something wrong in it, for every refusal from 7 to 12.
    fn odd_block(&mut self, channel: &mut Beside) {
        let r = &mut self.random;
        let pairs = r.below(4) as usize;
        let some = |r: &mut Random, n: usize| (0..n).map(|_| r.noise() as f32).collect::<Vec<f32>>();
        let two = self.settings.two != 0;
        let (mut flag, mut length) = (r.below(5), MEMORY);
        let mut first = if flag < 2 { some(r, 2 * pairs) } else { Vec::new() };
        let mut second = if two { some(r, first.len()) } else { Vec::new() };
        for _ in 0..1 + r.below(2) {
            match r.below(9) {
                0 => flag = r.pick(&[5, 255, 256, 4_294_967_296, u64::MAX]),
                1 => first.push(0.5),
                2 => second.push(0.5),
                3 => first = vec![0.25; r.pick(&[8_192, 8_193, 8_194])],
                4 => (flag, first) = (2 + r.below(3), some(r, 2)),
                5 => second = some(r, 2 + 2 * pairs),
                6 if !first.is_empty() => {
                    let at = r.below(first.len() as u64) as usize;
                    first[at] =
                        r.pick(&[f32::NAN, f32::INFINITY, f32::NEG_INFINITY, 1024.0f32.next_up(), -1025.0, 1024.0]);
                }
                7 if !second.is_empty() => {
                    let at = r.below(second.len() as u64) as usize;
                    second[at] = r.pick(&[f32::NAN, f32::INFINITY, 1024.0f32.next_up(), -1024.0]);
                }
                _ => length = r.pick(&[0, 1, 2_048, 8_191, 8_193]),
            }
        }
        self.block(channel, flag, first, second, length);
    }

    /// Samples that are no signal: zeros of both signs, constants, too small, any bits in the limits,
    /// and those that an estimate finds hard.
    fn odd_samples(&mut self, pairs: usize) -> Vec<f32> {
        let r = &mut self.random;
        let kind = r.below(7);
        let one = [r.noise() as f32, r.noise() as f32];
        let turn = r.pick(&[0.0, 1e-20, -1e-20]);
        (0..2 * pairs)
            .map(|i| match kind {
                0 => r.pick(&[0.0, -0.0]),
                1 => one[i % 2],
                2 => (r.noise() * 1e-6) as f32,
                // strong and weak in turn: the lowest signal-to-noise ratio
                3 => {
                    if i % 4 < 2 {
                        0.5
                    } else {
                        0.0005
                    }
                }
                // half the rate, from either side: the estimate meets its clamp
                4 => [1.0, i as f32 * turn, -1.0, i as f32 * -turn][i % 4] * (0.5 + 0.03 * (i / 2 % 3) as f32),
                // the first dwarfs the rest: no estimate
                5 => {
                    if i == 0 {
                        1000.0
                    } else {
                        1e-5
                    }
                }
                _ => {
                    let v = f32::from_bits(r.bits() as u32);
                    if v.abs() <= 1024.0 { v } else { -0.0 }
                }
            })
            .collect()
    }

    fn pairs(&mut self) -> usize {
        let most = self.random.pick(&[12, 60, 500, 2_100, 4_096]).min(self.longest);
        self.random.below(most + 1) as usize
    }

    /// Assign, blocks of a signal that comes and goes, flags in between, release or not.
    fn pass(&mut self, channel: &mut Beside) {
        self.assign(channel, false);
        let decimated = self.settings.rate as f64 / self.settings.factor as f64;
        let modulation = self.settings.modulation;
        let mut signals = [0, 1].map(|_| Signal::new(&mut self.random, modulation, decimated));
        let two = self.settings.two != 0;
        let long = self.random.chance(3);
        let mut there = true;
        for _ in 0..3 + self.random.below(14) {
            if self.random.chance(4) {
                there = !there;
            }
            let flag = self.random.pick(&[1, 1, 1, 1, 1, 1, 1, 1, 1, 0, 2, 3, 4]);
            let pairs = if flag > 1 {
                0
            } else if long && self.longest >= 4_096 && !self.random.chance(8) {
                4_096
            } else {
                self.pairs()
            };
            let mut first = signals[0].samples(&mut self.random, pairs, there);
            if self.random.chance(8) {
                first = self.odd_samples(pairs);
            }
            let second = match two {
                true if self.random.chance(8) => self.odd_samples(pairs),
                true => signals[1].samples(&mut self.random, pairs, there),
                false => Vec::new(),
            };
            self.block(channel, flag, first, second, MEMORY);
            match self.random.below(12) {
                0 => self.odd_block(channel),
                1 => self.figures(channel),
                2 => self.poke(),
                3 => self.assign(channel, true),
                _ => {}
            }
        }
        self.figures(channel);
        if !self.random.chance(4) {
            self.release(channel);
            self.figures(channel);
        }
    }

    fn idle_calls(&mut self, channel: &mut Beside) {
        for flag in 0..5 {
            let list = if flag < 2 && self.settings.two == 0 { vec![0.5, 0.5] } else { Vec::new() };
            self.block(channel, flag, list, Vec::new(), MEMORY);
        }
        self.odd_block(channel);
        self.assign(channel, true);
        self.release(channel);
    }
}

fn main() {
    let words = Words::new();
    let name = words.get("--build").unwrap_or("exported");
    let reference = Reference::named(name).unwrap_or_else(|| stop("--build exported, platform or counted"));
    let (seed, lists) = (words.number("--seed", 1), words.number("--lists", 10));
    let longest = words.number("--longest", 4_096).min(4_096);
    let brief = words.number("--brief", 0) != 0;
    let with_port = words.number("--port", 0) != 0;
    let as_words = words.number("--words", 0) != 0;
    let mut tally = Tally::default();
    let mut out = std::io::BufWriter::new(std::io::stdout());
    for list in seed..seed + lists {
        let mut window = new_window();
        window.push(0.0); // so that one number too many can be lent
        let mut random = Random::new(list);
        let settings = usual_settings(&mut random);
        let mut run = Run {
            reference,
            with_port,
            tally: &mut tally,
            random,
            window,
            settings,
            brief,
            as_words,
            longest,
            out: &mut out,
        };
        if as_words {
            Record::new(Kind::Zeros).print();
        }
        run.line(&format!("list {list}"));
        let mut channel = run.open();
        if run.random.chance(2) {
            run.idle_calls(&mut channel);
        }
        for _ in 0..1 + run.random.below(3) {
            run.pass(&mut channel);
        }
    }
    out.flush().expect("standard output can be written");
    reference.counts();
    if with_port {
        tally.print();
        std::process::exit((tally.differing != 0) as i32);
    }
}
