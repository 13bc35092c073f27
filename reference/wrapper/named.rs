//! The C functions of reference.h. The build script sets the prefix of their names.

use crate::calls;
use crate::counts;
use crate::dsp::DemodChannel;
use crate::ekf::AppletonHartreeDispersion;
use crate::shapes::{Answer, Built, STRETCH, Settings, Tracker};
use crate::single;
use crate::survey::survey;
use num_complex::Complex;
use std::slice::{from_raw_parts, from_raw_parts_mut};

macro_rules! named {
    ($name:literal, $(#[$doc:meta])* fn $f:ident($($a:ident: $t:ty),* $(,)?) $(-> $r:ty)? $body:block) => {
        $(#[$doc])*
        #[unsafe(export_name = concat!(env!("REFERENCE_PREFIX"), $name))]
        pub unsafe extern "C" fn $f($($a: $t),*) $(-> $r)? { unsafe { $body } }
    };
}

/// A list lent by C; an empty one may come as a null pointer.
unsafe fn list<'a, T>(at: *const T, length: usize) -> &'a [T] {
    if length == 0 { &[] } else { unsafe { from_raw_parts(at, length) } }
}

unsafe fn list_mut<'a, T>(at: *mut T, length: usize) -> &'a mut [T] {
    if length == 0 { &mut [] } else { unsafe { from_raw_parts_mut(at, length) } }
}

fn sample(at: &[f32]) -> Complex<f32> {
    Complex::new(at[0], at[1])
}

named!(
    "open",
    fn open(settings: *const Settings, channel: *mut *mut DemodChannel) -> u32 {
        let (refusal, opened) = calls::open(&*settings);
        *channel = Box::into_raw(Box::new(opened));
        refusal
    }
);

named!(
    "close",
    fn close(channel: *mut DemodChannel) {
        drop(Box::from_raw(channel));
    }
);

named!(
    "assign",
    fn assign(channel: *mut DemodChannel, nominal: f64, target: f64, target2: f64, frequency2: f64) -> u32 {
        calls::assign(&mut *channel, nominal, target, target2, frequency2)
    }
);

named!(
    "block",
    fn block(
        channel: *mut DemodChannel,
        flag: u64,
        first: *mut f32,
        first_length: usize,
        second: *mut f32,
        second_length: usize,
        window: *mut f64,
        window_length: usize,
        answer: *mut Answer,
    ) -> u32 {
        let first = list_mut(first, first_length);
        let second = list_mut(second, second_length);
        let window = list_mut(window, window_length);
        *answer = calls::block(&mut *channel, flag, first, second, window);
        (*answer).refusal
    }
);

named!(
    "release",
    fn release(channel: *mut DemodChannel) {
        (*channel).reset_to_idle();
    }
);

named!(
    "figures",
    fn figures(channel: *const DemodChannel, twelve: *mut f32) {
        list_mut(twelve, 12).copy_from_slice(&calls::figures(&*channel));
    }
);

named!(
    "build",
    fn build(built: *const Built) -> *mut DemodChannel {
        Box::into_raw(Box::new(single::build(&*built)))
    }
);

named!(
    "read",
    fn read(channel: *const DemodChannel, built: *mut Built) {
        *built = single::read(&*channel);
    }
);

named!(
    "tracker_new",
    fn tracker_new(rate: f64, modulation: u64, tracker: *mut Tracker) {
        *tracker = single::fresh(rate, modulation);
    }
);

named!(
    "tracker_reset",
    fn tracker_reset(tracker: *mut Tracker, window: *mut f64, phase: f64, frequency: f64, chirp: f64) {
        single::on_tracker(&mut *tracker, list_mut(window, STRETCH), 0, |t| t.reset(phase, frequency, chirp))
    }
);

named!(
    "tracker_predict",
    fn tracker_predict(tracker: *mut Tracker) {
        let mut no_window = [0.0; STRETCH];
        let (start, fill) = ((*tracker).window_start, (*tracker).window_fill);
        single::on_tracker(&mut *tracker, &mut no_window, 0, |t| t.predict());
        (*tracker).window_start = start;
        (*tracker).window_fill = fill;
    }
);

named!(
    "tracker_correct",
    fn tracker_correct(
        tracker: *mut Tracker,
        window: *mut f64,
        channel: u32,
        s: *const f32,
        in_phase: *mut f64,
        ratio: *mut f64,
    ) -> u32 {
        let s = sample(list(s, 2));
        let pushes = (channel == 0) as usize;
        let answer = single::on_tracker(&mut *tracker, list_mut(window, STRETCH), pushes, |t| {
            t.update_channel(channel as usize, s)
        });
        match answer {
            Some(pair) => {
                (*in_phase, *ratio) = pair;
                1
            }
            None => 0,
        }
    }
);

named!(
    "tracker_update",
    fn tracker_update(tracker: *mut Tracker, window: *mut f64, s: *const f32) {
        let s = sample(list(s, 2));
        single::on_tracker(&mut *tracker, list_mut(window, STRETCH), 1, |t| t.update(s))
    }
);

named!(
    "tracker_update_dual",
    fn tracker_update_dual(tracker: *mut Tracker, window: *mut f64, s1: *const f32, s2: *const f32) {
        let (s1, s2) = (sample(list(s1, 2)), sample(list(s2, 2)));
        single::on_tracker(&mut *tracker, list_mut(window, STRETCH), 1, |t| t.update_dual(s1, s2))
    }
);

// A prediction and an update for each sample of one list or of two, so that a loop is timed without what a single call puts around it.
named!(
    "tracker_track",
    fn tracker_track(tracker: *mut Tracker, window: *mut f64, first: *const f32, second: *const f32, length: usize) {
        let first = list(first, length);
        let second = if second.is_null() { &[][..] } else { list(second, length) };
        single::on_tracker(&mut *tracker, list_mut(window, STRETCH), length / 2, |t| {
            for k in 0..length / 2 {
                t.predict();
                if second.is_empty() {
                    t.update(sample(&first[2 * k..2 * k + 2]));
                } else {
                    t.update_dual(sample(&first[2 * k..2 * k + 2]), sample(&second[2 * k..2 * k + 2]));
                }
            }
        })
    }
);

named!(
    "estimate",
    fn estimate(samples: *const f32, length: usize, rate: f64) -> f64 {
        single::estimate(list(samples, length), rate)
    }
);

named!(
    "snr",
    fn snr(samples: *const f32, length: usize) -> f64 {
        single::snr(list(samples, length))
    }
);

named!(
    "survey",
    fn raw_survey(raw: *const f32, length: usize) -> u64 {
        survey(&calls::pairs(list(raw, length)))
    }
);

named!(
    "normalise",
    fn normalise(samples: *mut f32, length: usize) {
        single::normalise(list_mut(samples, length))
    }
);

named!(
    "discrepancy",
    fn discrepancy(trackers: *const Tracker) -> f32 {
        single::bank(&*(trackers as *const [Tracker; 3])).compute_tracker_discrepancy()
    }
);

named!(
    "differences",
    fn differences(trackers: *const Tracker, three: *mut f32) {
        let bank = single::bank(&*(trackers as *const [Tracker; 3]));
        list_mut(three, 3).copy_from_slice(&bank.compute_tracker_frequency_diffs());
    }
);

named!(
    "features",
    fn features(trackers: *const Tracker, twelve: *mut f32) {
        let bank = single::bank(&*(trackers as *const [Tracker; 3]));
        list_mut(twelve, 12).copy_from_slice(&bank.collect_tracker_features());
    }
);

named!(
    "cancel",
    fn cancel(f1: f64, f2: f64, offset1: f64, offset2: f64) -> f64 {
        AppletonHartreeDispersion::cancel(f1, f2, offset1, offset2)
    }
);

named!(
    "counts",
    fn print_counts() {
        eprint!("{}", counts::report());
    }
);
