//! Single functions of the patched text on built values.

use crate::calls::{channel, modulation, pairs};
use crate::dsp::{ChannelStatus, DemodChannel, Modulation, estimate_frequency_esprit};
use crate::ekf::{CarrierPllEkf, EkfTrackingBank};
use crate::shapes::{Built, NONE, STRETCH, Settings, Tracker};
use crate::window::Lent;
use num_complex::Complex;

fn number(m: Modulation) -> u32 {
    match m {
        Modulation::Carrier => 0,
        Modulation::Bpsk => 1,
        Modulation::Qpsk => 2,
    }
}

pub fn to_rust(t: &Tracker, window: &[f64]) -> CarrierPllEkf {
    let mut rust = CarrierPllEkf::new(1.0, modulation(t.modulation as u64));
    for r in 0..6 {
        rust.x[r] = t.x[r];
        for c in 0..6 {
            rust.p[(r, c)] = t.p[6 * r + c];
        }
    }
    rust.q_phase = t.q_phase;
    rust.q_freq = t.q_freq;
    rust.q_chirp = t.q_chirp;
    rust.r_meas = t.r_meas;
    rust.ts = t.ts;
    rust.lock_metric = t.metric;
    rust.is_locked = t.locked != 0;
    rust.envelope_ema = t.envelope;
    rust.adaptive_ekf = t.adaptive != 0;
    rust.dual_lock = t.dual_lock != 0;
    rust.pr_window = Lent::filled(t.window_start as usize, t.window_fill as usize, window);
    rust.pr_sum_abs_i = t.sum_abs_i;
    rust.pr_sum_q_sq = t.sum_q_sq;
    rust.convergence_guard = t.guard as usize;
    rust.frequency_ratio = t.ratio;
    rust
}

/// All but the window's place.
fn from_rust(rust: &CarrierPllEkf) -> Tracker {
    let (start, fill) = rust.pr_window.place();
    let mut t = Tracker {
        x: [0.0; 6],
        p: [0.0; 36],
        q_phase: rust.q_phase,
        q_freq: rust.q_freq,
        q_chirp: rust.q_chirp,
        r_meas: rust.r_meas,
        ts: rust.ts,
        metric: rust.lock_metric,
        envelope: rust.envelope_ema,
        sum_abs_i: rust.pr_sum_abs_i,
        sum_q_sq: rust.pr_sum_q_sq,
        ratio: rust.frequency_ratio,
        guard: rust.convergence_guard as u64,
        locked: rust.is_locked as u32,
        modulation: number(rust.modulation),
        adaptive: rust.adaptive_ekf as u32,
        dual_lock: rust.dual_lock as u32,
        window_start: start as u32,
        window_fill: fill as u32,
    };
    for r in 0..6 {
        t.x[r] = rust.x[r];
        for c in 0..6 {
            t.p[6 * r + c] = rust.p[(r, c)];
        }
    }
    t
}

/// Runs `step` on a tracker; `pushes` is how many pairs it pushes into the window.
pub fn on_tracker<A>(
    t: &mut Tracker,
    window: &mut [f64],
    pushes: usize,
    step: impl FnOnce(&mut CarrierPllEkf) -> A,
) -> A {
    let mut rust = to_rust(t, window);
    let answer = step(&mut rust);
    let (start, fill) = (t.window_start as usize, t.window_fill as usize);
    *t = from_rust(&rust);
    let (start, fill) = rust.pr_window.give(start, fill, pushes, window);
    t.window_start = start as u32;
    t.window_fill = fill as u32;
    answer
}

pub fn fresh(rate: f64, number: u64) -> Tracker {
    from_rust(&CarrierPllEkf::new(rate, modulation(number)))
}

pub fn estimate(list: &[f32], rate: f64) -> f64 {
    estimate_frequency_esprit(&pairs(list), rate, 10)
}

fn assigned(bank: u32) -> DemodChannel {
    let settings =
        Settings { rate: 1000, factor: 1, modulation: 0, adaptive: 0, dual_lock: 0, bank, two: 0, fade: 0, ratio: 1.0 };
    let mut channel = channel(&settings);
    channel.status = ChannelStatus::Acquisition;
    channel
}

/// A flag 0 block answers the list's signal-to-noise ratio and looks at nothing else.
pub fn snr(list: &[f32]) -> f64 {
    let mut channel = assigned(0);
    channel.decimated_samples = pairs(list);
    channel.process_decimated(0);
    channel.snr
}

/// A flag 1 block of a channel that may not start and is not locked normalises and does no more.
pub fn normalise(list: &mut [f32]) {
    let mut channel = assigned(0);
    channel.ever_locked = true;
    channel.decimated_samples = pairs(list);
    channel.process_decimated(1);
    for (pair, place) in channel.decimated_samples.iter().zip(list.chunks_exact_mut(2)) {
        place[0] = pair.re;
        place[1] = pair.im;
    }
}

pub fn bank(trackers: &[Tracker; 3]) -> EkfTrackingBank {
    let no_window = [0.0; STRETCH];
    let mut bank = assigned(1).tracking_bank.expect("opened with a bank");
    bank.trackers = [0, 1, 2].map(|i| to_rust(&trackers[i], &no_window));
    bank
}

pub fn build(b: &Built) -> DemodChannel {
    let settings = Settings {
        rate: b.rate,
        factor: b.factor,
        modulation: b.modulation as u64,
        adaptive: b.pll.adaptive,
        dual_lock: b.pll.dual_lock,
        bank: b.bank,
        two: b.two,
        fade: 0,
        ratio: b.pll.ratio,
    };
    let no_window = [0.0; STRETCH];
    let mut channel = channel(&settings);
    channel.status = if b.assigned != 0 { ChannelStatus::Acquisition } else { ChannelStatus::Idle };
    channel.nominal_freq = b.nominal;
    channel.target_freq = b.target;
    channel.target_freq2 = b.target2;
    channel.frequency2 = b.frequency2;
    channel.is_locked = b.locked != 0;
    channel.ever_locked = b.ever_locked != 0;
    channel.last_snr = b.last_snr;
    channel.phase = b.phase;
    channel.frequency = b.frequency;
    channel.snr = b.snr;
    channel.current_tec = b.electrons;
    channel.pll_tracker = to_rust(&b.pll, &no_window);
    if let Some(bank) = &mut channel.tracking_bank {
        bank.trackers = [0, 1, 2].map(|i| to_rust(&b.trackers[i], &no_window));
        bank.active_idx = (b.tracker < NONE).then_some(b.tracker as usize);
        bank.in_fade = b.in_fade != 0;
        bank.fade_counter = b.fade_count as usize;
        bank.max_fade_steps = b.fade_steps as usize;
        bank.terminated_in_fade = b.ended != 0;
    }
    channel
}

pub fn read(channel: &DemodChannel) -> Built {
    let mut b = Built {
        rate: channel.sample_rate as u64,
        factor: channel.decimator.decimation_factor as u64,
        modulation: number(channel.modulation),
        bank: channel.tracking_bank.is_some() as u32,
        two: channel.is_dual as u32,
        assigned: (channel.status != ChannelStatus::Idle) as u32,
        nominal: channel.nominal_freq,
        target: channel.target_freq,
        target2: channel.target_freq2,
        frequency2: channel.frequency2,
        locked: channel.is_locked as u32,
        ever_locked: channel.ever_locked as u32,
        last_snr: channel.last_snr,
        tracker: NONE,
        in_fade: 0,
        ended: 0,
        fade_count: 0,
        fade_steps: 0,
        phase: channel.phase,
        frequency: channel.frequency,
        snr: channel.snr,
        electrons: channel.current_tec,
        pll: from_rust(&channel.pll_tracker),
        trackers: [from_rust(&channel.pll_tracker); 3],
    };
    if let Some(bank) = &channel.tracking_bank {
        b.trackers = [0, 1, 2].map(|i| from_rust(&bank.trackers[i]));
        b.tracker = bank.active_idx.map_or(NONE, |i| i as u32);
        b.in_fade = bank.in_fade as u32;
        b.ended = bank.terminated_in_fade as u32;
        b.fade_count = bank.fade_counter as u64;
        b.fade_steps = bank.max_fade_steps as u64;
    }
    b
}
