//! The shapes that pass between a driver and a build: the same as in reference.h.

/// Settings of an open call. Switches: 0 off, anything else on.
#[repr(C)]
#[derive(Clone, Copy, Debug)]
pub struct Settings {
    pub rate: u64,
    pub factor: u64,
    pub modulation: u64,
    pub adaptive: u32,
    pub dual_lock: u32,
    pub bank: u32,
    pub two: u32,
    pub fade: u64,
    pub ratio: f64,
}

/// A block's answer, in the order of the scope.
#[repr(C)]
#[derive(Clone, Copy, Debug, Default)]
pub struct Answer {
    pub refusal: u32,
    pub locked: u32,
    pub tracker: u32,
    pub in_fade: u32,
    pub fade_count: u64,
    pub ended: u32,
    pub unused: u32,
    pub phase: f64,
    pub frequency: f64,
    pub snr: f64,
    pub electrons: f64,
    pub metric: f64,
}

/// A tracker as plain numbers. The covariance is by rows. Its window is lent beside it.
#[repr(C)]
#[derive(Clone, Copy, Debug)]
pub struct Tracker {
    pub x: [f64; 6],
    pub p: [f64; 36],
    pub q_phase: f64,
    pub q_freq: f64,
    pub q_chirp: f64,
    pub r_meas: f64,
    pub ts: f64,
    pub metric: f64,
    pub envelope: f64,
    pub sum_abs_i: f64,
    pub sum_q_sq: f64,
    pub ratio: f64,
    pub guard: u64,
    pub locked: u32,
    pub modulation: u32,
    pub adaptive: u32,
    pub dual_lock: u32,
    pub window_start: u32,
    pub window_fill: u32,
}

/// A whole channel as plain numbers, so that one can be built that no calls make.
#[repr(C)]
#[derive(Clone, Copy, Debug)]
pub struct Built {
    pub rate: u64,
    pub factor: u64,
    pub modulation: u32,
    pub bank: u32,
    pub two: u32,
    pub assigned: u32,
    pub nominal: f64,
    pub target: f64,
    pub target2: f64,
    pub frequency2: f64,
    pub locked: u32,
    pub ever_locked: u32,
    pub last_snr: f32,
    pub tracker: u32,
    pub in_fade: u32,
    pub ended: u32,
    pub fade_count: u64,
    pub fade_steps: u64,
    pub phase: f64,
    pub frequency: f64,
    pub snr: f64,
    pub electrons: f64,
    pub pll: Tracker,
    pub trackers: [Tracker; 3],
}

/// Pairs in one tracker's window, and numbers in the memory lent for four of them.
pub const PAIRS: usize = 1024;
pub const STRETCH: usize = 2 * PAIRS;
pub const MEMORY: usize = 4 * STRETCH;

/// The answer's number for "no tracker".
pub const NONE: u32 = 3;

// The sizes that C sees (checks/header.c).
const _: () = assert!(size_of::<Settings>() == 56 && size_of::<Answer>() == 72);
const _: () = assert!(size_of::<Tracker>() == 448 && size_of::<Built>() == 136 + 4 * 448);
