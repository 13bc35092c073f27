//! The five calls of the scope over the patched channel, with their refusals.

use crate::dsp::{ChannelStatus, DemodChannel, Modulation};
use crate::ekf::CarrierPllEkf;
use crate::shapes::{Answer, MEMORY, NONE, STRETCH, Settings};
use crate::window::Lent;
use num_complex::Complex;

const MOST_PAIRS: usize = 4096;
const MOST_SIZE: f32 = 1024.0;

/// What a refused open answers with.
const PLAIN: Settings =
    Settings { rate: 1000, factor: 1, modulation: 0, adaptive: 0, dual_lock: 0, bank: 0, two: 0, fade: 0, ratio: 1.0 };

pub fn modulation(number: u64) -> Modulation {
    match number {
        0 => Modulation::Carrier,
        1 => Modulation::Bpsk,
        _ => Modulation::Qpsk,
    }
}

fn open_refusal(s: &Settings) -> u32 {
    if !(1..=4096).contains(&s.factor) || s.rate < 1_000 * s.factor || s.rate > 100_000 * s.factor {
        1
    } else if s.modulation > 2 {
        2
    } else if s.fade > 86_400 {
        3
    } else if !(0.25 <= s.ratio && s.ratio <= 4.0) {
        4
    } else {
        0
    }
}

pub fn channel(s: &Settings) -> DemodChannel {
    let symbol_rate = 10_000.0; // only the symbol timing reads it
    let (least_snr, taps, clutter) = (3.0, Vec::new(), false); // only the cut front reads them
    let mut channel = DemodChannel::new_prod(
        0,
        s.rate as f64,
        symbol_rate,
        modulation(s.modulation),
        s.adaptive == 0,
        s.dual_lock == 0,
        true, // no symbol timing
        s.bank == 0,
        least_snr,
        s.fade as f64,
        taps,
        s.factor as usize,
        clutter,
    );
    channel.is_dual = s.two != 0;
    for tracker in trackers(&mut channel) {
        tracker.set_frequency_ratio(s.ratio);
    }
    channel
}

/// `pll_tracker`, then the bank's: the order of their stretches in the window memory.
fn trackers(channel: &mut DemodChannel) -> Vec<&mut CarrierPllEkf> {
    let mut all = vec![&mut channel.pll_tracker];
    if let Some(bank) = &mut channel.tracking_bank {
        all.extend(&mut bank.trackers);
    }
    all
}

pub fn open(s: &Settings) -> (u32, DemodChannel) {
    match open_refusal(s) {
        0 => (0, channel(s)),
        refusal => (refusal, channel(&PLAIN)),
    }
}

fn is_frequency(f: f64) -> bool {
    f == 0.0 || (1e6 <= f && f <= 1e11)
}

pub fn assign(channel: &mut DemodChannel, nominal: f64, target: f64, target2: f64, frequency2: f64) -> u32 {
    if ![nominal, target, target2, frequency2].into_iter().all(is_frequency) {
        return 5;
    }
    if channel.status != ChannelStatus::Idle {
        return 6;
    }
    channel.nominal_freq = nominal;
    channel.target_freq = target;
    channel.target_freq2 = target2;
    channel.frequency2 = frequency2;
    channel.status = ChannelStatus::Acquisition;
    0
}

fn block_refusal(two: bool, flag: u64, first: &[f32], second: &[f32], window: &[f64]) -> u32 {
    let bad_length = |list: &[f32]| list.len() % 2 != 0 || list.len() > 2 * MOST_PAIRS;
    let bad_size = |list: &[f32]| list.iter().any(|v| !(v.abs() <= MOST_SIZE));
    let second_unlike = if two { second.len() != first.len() } else { !second.is_empty() };
    if flag > 4 {
        7
    } else if bad_length(first) || bad_length(second) {
        8
    } else if flag >= 2 && !first.is_empty() {
        9
    } else if second_unlike {
        10
    } else if bad_size(first) || bad_size(second) {
        11
    } else if window.len() != MEMORY {
        12
    } else {
        0
    }
}

pub fn pairs(list: &[f32]) -> Vec<Complex<f32>> {
    list.chunks_exact(2).map(|p| Complex::new(p[0], p[1])).collect()
}

fn put_back(from: &[Complex<f32>], list: &mut [f32]) {
    for (pair, place) in from.iter().zip(list.chunks_exact_mut(2)) {
        place[0] = pair.re;
        place[1] = pair.im;
    }
}

pub fn block(
    channel: &mut DemodChannel,
    flag: u64,
    first: &mut [f32],
    second: &mut [f32],
    window: &mut [f64],
) -> Answer {
    let refusal = block_refusal(channel.is_dual, flag, first, second, window);
    if refusal != 0 {
        return Answer { refusal, tracker: NONE, ..Answer::default() };
    }
    take_windows(channel, window);
    channel.decimated_samples.clear();
    channel.decimated_samples.extend(first.chunks_exact(2).map(|p| Complex::new(p[0], p[1])));
    channel.decimated_samples2.clear();
    channel.decimated_samples2.extend(second.chunks_exact(2).map(|p| Complex::new(p[0], p[1])));
    channel.process_decimated(flag);
    put_back(&channel.decimated_samples, first);
    put_back(&channel.decimated_samples2, second);
    give_windows(channel, window);
    answer(channel)
}

fn in_blocks<W: Lent>(_: &W) -> bool {
    W::IN_BLOCKS
}

fn take_windows(channel: &mut DemodChannel, memory: &[f64]) {
    if !in_blocks(&channel.pll_tracker.pr_window) {
        return;
    }
    for (tracker, stretch) in trackers(channel).into_iter().zip(memory.chunks(STRETCH)) {
        tracker.pr_window.take(stretch);
    }
}

fn give_windows(channel: &mut DemodChannel, memory: &mut [f64]) {
    if !in_blocks(&channel.pll_tracker.pr_window) {
        return;
    }
    for (tracker, stretch) in trackers(channel).into_iter().zip(memory.chunks_mut(STRETCH)) {
        let (start, fill) = tracker.pr_window.place();
        tracker.pr_window.give(start, fill, 0, stretch);
    }
}

/// The channel's state after the call.
pub fn answer(channel: &DemodChannel) -> Answer {
    let mut a = Answer {
        locked: channel.is_locked as u32,
        tracker: NONE,
        phase: channel.phase,
        frequency: channel.frequency,
        snr: channel.snr,
        electrons: channel.current_tec,
        ..Answer::default()
    };
    if let Some(bank) = &channel.tracking_bank {
        a.tracker = bank.active_idx.map_or(NONE, |i| i as u32);
        a.in_fade = bank.in_fade as u32;
        a.fade_count = bank.fade_counter as u64;
        a.ended = bank.terminated_in_fade as u32;
    }
    if channel.is_locked {
        a.metric = metric_in_use(channel);
    }
    a
}

/// Locked with a bank that uses no tracker is a channel that no calls make: 0.
fn metric_in_use(channel: &DemodChannel) -> f64 {
    match &channel.tracking_bank {
        Some(bank) => bank.active_idx.map_or(0.0, |i| bank.trackers[i].lock_metric),
        None => channel.pll_tracker.lock_metric,
    }
}

pub fn figures(channel: &DemodChannel) -> [f32; 12] {
    let mut twelve = [0.0; 12];
    if let Some(bank) = &channel.tracking_bank {
        twelve.copy_from_slice(&bank.collect_tracker_features());
    }
    twelve
}
