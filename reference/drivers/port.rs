//! The port's own channel, through the C interface of include/gibsumac.h, beside a build of the reference: every call is made to both, and all
//! that they answer and leave in lent memory is compared bit for bit (any NaN equals any NaN).

use crate::api::shapes::{Answer, Built, PAIRS, Settings, Tracker};

#[path = "../../include/gibsumac.rs"]
mod gibsumac;

use gibsumac::{gibsumac_assign, gibsumac_figures, gibsumac_open, gibsumac_release};

#[link(name = "gibsumac", kind = "static")]
unsafe extern "C" {}

/// Whether two floats are the same bits, or both NaN.
pub fn same(a: f64, b: f64) -> bool {
    a.to_bits() == b.to_bits() || (a.is_nan() && b.is_nan())
}

pub fn same32(a: f32, b: f32) -> bool {
    a.to_bits() == b.to_bits() || (a.is_nan() && b.is_nan())
}

fn all_same(a: &[f64], b: &[f64]) -> bool {
    a.len() == b.len() && a.iter().zip(b).all(|(x, y)| same(*x, *y))
}

fn all_same32(a: &[f32], b: &[f32]) -> bool {
    a.len() == b.len() && a.iter().zip(b).all(|(x, y)| same32(*x, *y))
}

/// How many pairs were pushed since the reset, as the port counts them, from the place of the oldest and their number.
fn pushed(t: &Tracker) -> usize {
    if (t.window_fill as usize) < PAIRS { t.window_fill as usize } else { PAIRS + t.window_start as usize }
}

impl gibsumac::Tracker {
    fn of(t: &Tracker) -> gibsumac::Tracker {
        gibsumac::Tracker {
            modulation: t.modulation as u64,
            tuning: gibsumac::Tuning {
                q_phase: t.q_phase,
                q_freq: t.q_freq,
                q_chirp: t.q_chirp,
                r_meas: t.r_meas,
                ts: t.ts,
                frequency_ratio: t.ratio,
                adaptive_ekf: t.adaptive != 0,
                dual_lock: t.dual_lock != 0,
            },
            x: t.x,
            p: t.p,
            envelope_ema: t.envelope,
            power: gibsumac::PowerSums { pushed: pushed(t), sum_abs_i: t.sum_abs_i, sum_q_sq: t.sum_q_sq },
            lock_metric: t.metric,
            is_locked: t.locked != 0,
            convergence_guard: t.guard as usize,
        }
    }

    /// What differs from a tracker of the reference.
    fn unlike(&self, t: &Tracker) -> Option<&'static str> {
        let o = gibsumac::Tracker::of(t);
        let (k, l) = (&self.tuning, &o.tuning);
        let floats = [
            (k.q_phase, l.q_phase),
            (k.q_freq, l.q_freq),
            (k.q_chirp, l.q_chirp),
            (k.r_meas, l.r_meas),
            (k.ts, l.ts),
            (k.frequency_ratio, l.frequency_ratio),
            (self.envelope_ema, o.envelope_ema),
            (self.power.sum_abs_i, o.power.sum_abs_i),
            (self.power.sum_q_sq, o.power.sum_q_sq),
            (self.lock_metric, o.lock_metric),
        ];
        let wholes = [
            (self.modulation, o.modulation),
            (k.adaptive_ekf as u64, l.adaptive_ekf as u64),
            (k.dual_lock as u64, l.dual_lock as u64),
            (self.power.pushed as u64, o.power.pushed as u64),
            (self.is_locked as u64, o.is_locked as u64),
            (self.convergence_guard as u64, o.convergence_guard as u64),
        ];
        if !all_same(&self.x, &o.x) {
            Some("states")
        } else if !all_same(&self.p, &o.p) {
            Some("covariance")
        } else if floats.iter().any(|(a, b)| !same(*a, *b)) {
            Some("a tracker's number")
        } else if wholes.iter().any(|(a, b)| a != b) {
            Some("a tracker's mark or count")
        } else {
            None
        }
    }
}

/// The port's channel, and how often it was compared.
#[derive(Clone)]
pub struct Port {
    channel: gibsumac::Channel,
}

impl Port {
    pub fn open(s: &Settings) -> (u32, Port) {
        let r = gibsumac_open(gibsumac::Settings {
            rate: s.rate,
            factor: s.factor,
            modulation: s.modulation,
            adaptive: s.adaptive != 0,
            dual_lock: s.dual_lock != 0,
            bank: s.bank != 0,
            two: s.two != 0,
            fade: s.fade,
            ratio: s.ratio,
        });
        (r.refusal as u32, Port { channel: r.channel })
    }

    /// A channel from plain numbers; without a bank the three trackers are those of `pll`.
    pub fn build(b: &Built) -> Port {
        let t = |i: usize| gibsumac::Tracker::of(&b.trackers[i]);
        Port {
            channel: gibsumac::Channel {
                setup: gibsumac::Setup { rate: b.rate, factor: b.factor, bank: b.bank != 0, two: b.two != 0 },
                idle: b.assigned == 0,
                carriers: gibsumac::Carriers {
                    nominal: b.nominal,
                    target: b.target,
                    target2: b.target2,
                    frequency2: b.frequency2,
                },
                pll: gibsumac::Tracker::of(&b.pll),
                t0: t(0),
                t1: t(1),
                t2: t(2),
                active_idx: b.tracker as u64,
                in_fade: b.in_fade != 0,
                fade_counter: b.fade_count,
                max_fade_steps: b.fade_steps,
                terminated_in_fade: b.ended != 0,
                ever_locked: b.ever_locked != 0,
                last_snr: b.last_snr,
                is_locked: b.locked != 0,
                reading: gibsumac::Reading { phase: b.phase, frequency: b.frequency, snr: b.snr, electrons: b.electrons },
            },
        }
    }

    pub fn assign(&mut self, nominal: f64, target: f64, target2: f64, frequency2: f64) -> u32 {
        let r = gibsumac_assign(self.channel, gibsumac::Carriers { nominal, target, target2, frequency2 });
        self.channel = r.channel;
        r.refusal as u32
    }

    pub fn block(&mut self, flag: u64, first: &mut [f32], second: &mut [f32], windows: &mut [f64]) -> Answer {
        let a = gibsumac::block(&mut self.channel, flag, first, second, windows);
        Answer {
            refusal: a.refusal as u32,
            locked: a.locked as u32,
            tracker: a.tracker as u32,
            in_fade: a.in_fade as u32,
            fade_count: a.fade_count,
            ended: a.ended as u32,
            unused: 0,
            phase: a.phase,
            frequency: a.frequency,
            snr: a.snr,
            electrons: a.electrons,
            metric: a.metric,
        }
    }

    pub fn release(&mut self) {
        self.channel = gibsumac_release(self.channel);
    }

    pub fn figures(&self) -> [f32; 12] {
        gibsumac_figures(self.channel).values
    }

    /// What differs from a channel of the reference. Without a bank its trackers and marks are not compared: the Rust has none.
    pub fn unlike(&self, b: &Built) -> Option<&'static str> {
        let c = &self.channel;
        let o = Port::build(b).channel;
        let floats = [
            (c.carriers.nominal, o.carriers.nominal),
            (c.carriers.target, o.carriers.target),
            (c.carriers.target2, o.carriers.target2),
            (c.carriers.frequency2, o.carriers.frequency2),
            (c.reading.phase, o.reading.phase),
            (c.reading.frequency, o.reading.frequency),
            (c.reading.snr, o.reading.snr),
            (c.reading.electrons, o.reading.electrons),
        ];
        let wholes = [
            (c.setup.rate, o.setup.rate),
            (c.setup.factor, o.setup.factor),
            (c.setup.bank as u64, o.setup.bank as u64),
            (c.setup.two as u64, o.setup.two as u64),
            (c.idle as u64, o.idle as u64),
            (c.ever_locked as u64, o.ever_locked as u64),
            (c.is_locked as u64, o.is_locked as u64),
        ];
        let marks = [
            (c.active_idx, o.active_idx),
            (c.fade_counter, o.fade_counter),
            (c.max_fade_steps, o.max_fade_steps),
            (c.in_fade as u64, o.in_fade as u64),
            (c.terminated_in_fade as u64, o.terminated_in_fade as u64),
        ];
        let bank = || {
            if marks.iter().any(|(a, b)| a != b) {
                return Some("a mark of the bank");
            }
            [&c.t0, &c.t1, &c.t2].iter().zip(&b.trackers).find_map(|(t, u)| t.unlike(u))
        };
        if floats.iter().any(|(a, b)| !same(*a, *b)) || !same32(c.last_snr, o.last_snr) {
            Some("a number of the channel")
        } else if wholes.iter().any(|(a, b)| a != b) {
            Some("a mark of the channel")
        } else {
            c.pll.unlike(&b.pll).or_else(|| if c.setup.bank { bank() } else { None })
        }
    }
}

/// What differs in two answers.
pub fn unlike_answers(a: &Answer, b: &Answer) -> Option<&'static str> {
    let wholes = [
        ("refusal", a.refusal as u64, b.refusal as u64),
        ("locked", a.locked as u64, b.locked as u64),
        ("tracker", a.tracker as u64, b.tracker as u64),
        ("in fade", a.in_fade as u64, b.in_fade as u64),
        ("fade count", a.fade_count, b.fade_count),
        ("ended", a.ended as u64, b.ended as u64),
    ];
    let floats = [
        ("phase", a.phase, b.phase),
        ("frequency", a.frequency, b.frequency),
        ("SNR", a.snr, b.snr),
        ("electron content", a.electrons, b.electrons),
        ("metric", a.metric, b.metric),
    ];
    let whole = wholes.iter().find(|(_, x, y)| x != y).map(|w| w.0);
    whole.or_else(|| floats.iter().find(|(_, x, y)| !same(*x, *y)).map(|f| f.0))
}

/// What differs in what two blocks left in lent memory.
pub fn unlike_memory(a: (&[f32], &[f32], &[f64]), b: (&[f32], &[f32], &[f64])) -> Option<&'static str> {
    if !all_same32(a.0, b.0) {
        Some("first list")
    } else if !all_same32(a.1, b.1) {
        Some("second list")
    } else if !all_same(a.2, b.2) {
        Some("window memory")
    } else {
        None
    }
}
