//! Gibsumac from Rust, without any crate: the structs and functions of gibsumac.h, which says what each means and what a caller owes and gets, and a
//! `Receiver` that needs no unsafe code. Take it in with `#[path = ".../gibsumac.rs"] mod gibsumac;` and link libgibsumac.a and the C library's
//! mathematics (`rustc -L native=FOLDER -l static=gibsumac -l m`). Rust 1.82 or later.
#![allow(dead_code)]

/// It goes up by one with each change of a struct, of a function, or of what a call answers.
pub const VERSION: u64 = 3;
/// The most pairs of a list, the floats of such a list, and the doubles of a channel's window memory.
pub const MAX_PAIRS: usize = 4096;
pub const MAX_FLOATS: usize = 8192;
pub const WINDOWS: usize = 8192;
/// The number of a tracker where none is in use.
pub const NO_TRACKER: u64 = 3;

/// Why a call is refused, by its number; gibsumac.h has the limits.
pub mod refusal {
    pub const ACCEPTED: u64 = 0;
    pub const RATE: u64 = 1;
    pub const MODULATION: u64 = 2;
    pub const FADE: u64 = 3;
    pub const RATIO: u64 = 4;
    pub const FREQUENCY: u64 = 5;
    pub const NOT_IDLE: u64 = 6;
    pub const FLAG: u64 = 7;
    pub const LENGTH: u64 = 8;
    pub const NOT_EMPTY: u64 = 9;
    pub const SECOND_LIST: u64 = 10;
    pub const SAMPLE: u64 = 11;
    pub const MEMORY: u64 = 12;
    /// No refusal of the core: `Receiver::open` alone answers it, where `matches()` does not hold.
    pub const OTHER_HEADER: u64 = 1000;
}

/// What a block is given as. Flags 2, 3 and 4 take no samples.
pub mod flag {
    pub const NO_SIGNAL: u64 = 0;
    pub const SIGNAL: u64 = 1;
    pub const NAN: u64 = 2;
    pub const CLIPPED: u64 = 3;
    pub const NO_SAMPLES: u64 = 4;
}

pub mod modulation {
    pub const CARRIER: u64 = 0;
    pub const BPSK: u64 = 1;
    pub const QPSK: u64 = 2;
}

#[repr(C)]
#[derive(Clone, Copy, Debug)]
pub struct Settings {
    pub rate: u64,
    pub factor: u64,
    pub modulation: u64,
    pub adaptive: bool,
    pub dual_lock: bool,
    pub bank: bool,
    pub two: bool,
    pub fade: u64,
    pub ratio: f64,
}

#[repr(C)]
#[derive(Clone, Copy, Debug, Default)]
pub struct Carriers {
    pub nominal: f64,
    pub target: f64,
    pub target2: f64,
    pub frequency2: f64,
}

#[repr(C)]
#[derive(Clone, Copy, Debug)]
pub struct Answer {
    pub refusal: u64,
    pub locked: bool,
    pub tracker: u64,
    pub in_fade: bool,
    pub fade_count: u64,
    pub ended: bool,
    pub phase: f64,
    pub frequency: f64,
    pub snr: f64,
    pub electrons: f64,
    pub metric: f64,
}

#[repr(C)]
#[derive(Clone, Copy, Debug)]
pub struct Setup {
    pub rate: u64,
    pub factor: u64,
    pub bank: bool,
    pub two: bool,
}

#[repr(C)]
#[derive(Clone, Copy, Debug)]
pub struct Reading {
    pub phase: f64,
    pub frequency: f64,
    pub snr: f64,
    pub electrons: f64,
}

#[repr(C)]
#[derive(Clone, Copy, Debug)]
pub struct Tuning {
    pub q_phase: f64,
    pub q_freq: f64,
    pub q_chirp: f64,
    pub r_meas: f64,
    pub ts: f64,
    pub frequency_ratio: f64,
    pub adaptive_ekf: bool,
    pub dual_lock: bool,
}

#[repr(C)]
#[derive(Clone, Copy, Debug)]
pub struct PowerSums {
    pub pushed: usize,
    pub sum_abs_i: f64,
    pub sum_q_sq: f64,
}

#[repr(C)]
#[derive(Clone, Copy, Debug)]
pub struct Tracker {
    pub modulation: u64,
    pub tuning: Tuning,
    pub x: [f64; 6],
    pub p: [f64; 36],
    pub envelope_ema: f64,
    pub power: PowerSums,
    pub lock_metric: f64,
    pub is_locked: bool,
    pub convergence_guard: usize,
}

#[repr(C)]
#[derive(Clone, Copy, Debug)]
pub struct Channel {
    pub setup: Setup,
    pub idle: bool,
    pub carriers: Carriers,
    pub pll: Tracker,
    pub t0: Tracker,
    pub t1: Tracker,
    pub t2: Tracker,
    pub active_idx: u64,
    pub in_fade: bool,
    pub fade_counter: u64,
    pub max_fade_steps: u64,
    pub terminated_in_fade: bool,
    pub ever_locked: bool,
    pub last_snr: f32,
    pub is_locked: bool,
    pub reading: Reading,
}

#[repr(C)]
#[derive(Clone, Copy, Debug)]
pub struct Returned {
    pub refusal: u64,
    pub channel: Channel,
}

#[repr(C)]
#[derive(Clone, Copy, Debug)]
pub struct Blocked {
    pub answer: Answer,
    pub channel: Channel,
}

#[repr(C)]
#[derive(Clone, Copy, Debug)]
pub struct Figures {
    pub values: [f32; 12],
}

const _: () = assert!(size_of::<Settings>() == 48 && size_of::<Answer>() == 88 && size_of::<Tracker>() == 456 && size_of::<Channel>() == 1968);

unsafe extern "C" {
    pub safe fn gibsumac_version() -> u64;
    pub safe fn gibsumac_channel_size() -> usize;
    pub safe fn gibsumac_sin(theta: f64) -> f64;
    pub safe fn gibsumac_cos(theta: f64) -> f64;
    pub safe fn gibsumac_atan2(y: f64, x: f64) -> f64;
    pub safe fn gibsumac_log10(x: f64) -> f64;
    pub safe fn gibsumac_hypot(x: f64, y: f64) -> f64;
    pub safe fn gibsumac_hypotf(x: f32, y: f32) -> f32;
    pub safe fn gibsumac_sqrt(x: f64) -> f64;
    pub fn gibsumac_survey(raw: *const f32, length: usize) -> u64;
    pub safe fn gibsumac_open(settings: Settings) -> Returned;
    pub safe fn gibsumac_assign(channel: Channel, carriers: Carriers) -> Returned;
    pub fn gibsumac_block(
        channel: Channel,
        flag: u64,
        first: *mut f32,
        first_length: usize,
        second: *mut f32,
        second_length: usize,
        windows: *mut f64,
        windows_length: usize,
    ) -> Blocked;
    pub safe fn gibsumac_release(channel: Channel) -> Channel;
    pub safe fn gibsumac_figures(channel: Channel) -> Figures;
}

/// Whether the archive that is linked is the one of this file. Where it is not, no other function may be called.
pub fn matches() -> bool {
    gibsumac_version() == VERSION && gibsumac_channel_size() == size_of::<Channel>()
}

/// The flag of raw samples.
pub fn survey(raw: &[f32]) -> u64 {
    // SAFETY: a slice is valid for its length, aligned and not null, also when it is empty.
    unsafe { gibsumac_survey(raw.as_ptr(), raw.len()) }
}

/// One block. The memory is lent for the call; the channel is given back changed.
pub fn block(channel: &mut Channel, flag: u64, first: &mut [f32], second: &mut [f32], windows: &mut [f64]) -> Answer {
    // SAFETY: slices are valid for their lengths, aligned and not null; three that can be written to do not overlap.
    let r = unsafe {
        gibsumac_block(*channel, flag, first.as_mut_ptr(), first.len(), second.as_mut_ptr(), second.len(), windows.as_mut_ptr(), windows.len())
    };
    *channel = r.channel;
    r.answer
}

/// How much of a list goes with a flag: nothing with 2, 3 and 4, unless its length is wrong, which is then refused (8) as with any other flag.
fn taken(flag: u64, length: usize) -> usize {
    if flag > flag::SIGNAL && length % 2 == 0 && length <= MAX_FLOATS { 0 } else { length }
}

/// A channel with its window memory: what a program holds for each satellite. An `Err` is the number of a refusal.
#[derive(Clone)]
pub struct Receiver {
    pub channel: Channel,
    windows: Vec<f64>,
}

impl Receiver {
    pub fn open(settings: Settings) -> Result<Receiver, u64> {
        if !matches() {
            return Err(refusal::OTHER_HEADER);
        }
        let r = gibsumac_open(settings);
        if r.refusal == 0 { Ok(Receiver { channel: r.channel, windows: vec![0.0; WINDOWS] }) } else { Err(r.refusal) }
    }

    pub fn assign(&mut self, carriers: Carriers) -> Result<(), u64> {
        let r = gibsumac_assign(self.channel, carriers);
        self.channel = r.channel;
        if r.refusal == 0 { Ok(()) } else { Err(r.refusal) }
    }

    /// A block with a flag of the caller's.
    pub fn block(&mut self, flag: u64, first: &mut [f32], second: &mut [f32]) -> Result<Answer, u64> {
        let answer = block(&mut self.channel, flag, first, second, &mut self.windows);
        if answer.refusal == 0 { Ok(answer) } else { Err(answer.refusal) }
    }

    /// A block of samples, surveyed here: for whoever has no raw samples to survey.
    pub fn track(&mut self, samples: &mut [f32]) -> Result<Answer, u64> {
        let flag = survey(samples);
        let length = taken(flag, samples.len());
        self.block(flag, &mut samples[..length], &mut [])
    }

    /// The same with two frequencies. The flag is the first list's, unless the second has a NaN or is clipped.
    pub fn track_two(&mut self, first: &mut [f32], second: &mut [f32]) -> Result<Answer, u64> {
        let mut flag = survey(first);
        let other = survey(second);
        if flag <= flag::SIGNAL && (other == flag::NAN || other == flag::CLIPPED) {
            flag = other;
        }
        let (n, m) = (taken(flag, first.len()), taken(flag, second.len()));
        self.block(flag, &mut first[..n], &mut second[..m])
    }

    pub fn release(&mut self) {
        self.channel = gibsumac_release(self.channel);
    }

    pub fn figures(&self) -> [f32; 12] {
        gibsumac_figures(self.channel).values
    }
}
