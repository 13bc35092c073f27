//! The functions of reference.h for a Rust program, and the choice between the three builds.

#[path = "../wrapper/shapes.rs"]
pub mod shapes;

use shapes::{Answer, Built, MEMORY, STRETCH, Settings, Tracker};

pub enum Raw {}

macro_rules! functions {
    ($($name:literal $f:ident($($a:ident: $t:ty),*) $(-> $r:ty)?;)*) => {
        #[derive(Clone, Copy)]
        pub struct Functions {
            $($f: unsafe extern "C" fn($($t),*) $(-> $r)?,)*
        }
        build_module!(exported "refx_" $($name $f($($a: $t),*) $(-> $r)?;)*);
        build_module!(platform "refp_" $($name $f($($a: $t),*) $(-> $r)?;)*);
        build_module!(counted "refc_" $($name $f($($a: $t),*) $(-> $r)?;)*);
    };
}

macro_rules! build_module {
    ($module:ident $prefix:literal $($name:literal $f:ident($($a:ident: $t:ty),*) $(-> $r:ty)?;)*) => {
        mod $module {
            use super::*;
            #[link(name = "reference")]
            unsafe extern "C" {
                $(#[link_name = concat!($prefix, $name)] fn $f($($a: $t),*) $(-> $r)?;)*
            }
            pub const FUNCTIONS: Functions = Functions { $($f,)* };
        }
    };
}

functions! {
    "open" open(settings: *const Settings, channel: *mut *mut Raw) -> u32;
    "close" close(channel: *mut Raw);
    "assign" assign(channel: *mut Raw, nominal: f64, target: f64, target2: f64, frequency2: f64) -> u32;
    "block" block(channel: *mut Raw, flag: u64, first: *mut f32, nfirst: usize, second: *mut f32,
                  nsecond: usize, window: *mut f64, nwindow: usize, answer: *mut Answer) -> u32;
    "release" release(channel: *mut Raw);
    "figures" figures(channel: *const Raw, twelve: *mut f32);
    "build" build(built: *const Built) -> *mut Raw;
    "read" read(channel: *const Raw, built: *mut Built);
    "tracker_new" tracker_new(rate: f64, modulation: u64, tracker: *mut Tracker);
    "tracker_reset" tracker_reset(tracker: *mut Tracker, window: *mut f64, phase: f64, frequency: f64, chirp: f64);
    "tracker_predict" tracker_predict(tracker: *mut Tracker);
    "tracker_correct" tracker_correct(tracker: *mut Tracker, window: *mut f64, channel: u32, sample: *const f32,
                                      in_phase: *mut f64, ratio: *mut f64) -> u32;
    "tracker_update" tracker_update(tracker: *mut Tracker, window: *mut f64, sample: *const f32);
    "tracker_update_dual" tracker_update_dual(tracker: *mut Tracker, window: *mut f64, s1: *const f32, s2: *const f32);
    "estimate" estimate(samples: *const f32, length: usize, rate: f64) -> f64;
    "snr" snr(samples: *const f32, length: usize) -> f64;
    "survey" survey(raw: *const f32, length: usize) -> u64;
    "normalise" normalise(samples: *mut f32, length: usize);
    "discrepancy" discrepancy(three: *const Tracker) -> f32;
    "differences" differences(three: *const Tracker, out: *mut f32);
    "features" features(three: *const Tracker, twelve: *mut f32);
    "cancel" cancel(f1: f64, f2: f64, offset1: f64, offset2: f64) -> f64;
    "counts" counts();
}

/// One of the three builds.
#[derive(Clone, Copy)]
pub struct Reference {
    f: Functions,
}

pub struct Channel {
    reference: Reference,
    raw: *mut Raw,
}

impl Reference {
    pub fn named(name: &str) -> Option<Reference> {
        let f = match name {
            "exported" => exported::FUNCTIONS,
            "platform" => platform::FUNCTIONS,
            "counted" => counted::FUNCTIONS,
            _ => return None,
        };
        Some(Reference { f })
    }

    pub fn open(self, settings: &Settings) -> (u32, Channel) {
        let mut raw = std::ptr::null_mut();
        let refusal = unsafe { (self.f.open)(settings, &mut raw) };
        (refusal, Channel { reference: self, raw })
    }

    pub fn build(self, built: &Built) -> Channel {
        Channel { reference: self, raw: unsafe { (self.f.build)(built) } }
    }

    pub fn tracker(self, rate: f64, modulation: u64) -> Tracker {
        let mut tracker = std::mem::MaybeUninit::uninit();
        unsafe {
            (self.f.tracker_new)(rate, modulation, tracker.as_mut_ptr());
            tracker.assume_init()
        }
    }

    pub fn reset(self, t: &mut Tracker, w: &mut [f64; STRETCH], phase: f64, frequency: f64, chirp: f64) {
        unsafe { (self.f.tracker_reset)(t, w.as_mut_ptr(), phase, frequency, chirp) }
    }

    pub fn predict(self, t: &mut Tracker) {
        unsafe { (self.f.tracker_predict)(t) }
    }

    /// The pair of in-phase value and power ratio, or lost.
    pub fn correct(self, t: &mut Tracker, w: &mut [f64; STRETCH], channel: u32, s: [f32; 2]) -> Option<(f64, f64)> {
        let (mut in_phase, mut ratio) = (0.0, 0.0);
        let kept =
            unsafe { (self.f.tracker_correct)(t, w.as_mut_ptr(), channel, s.as_ptr(), &mut in_phase, &mut ratio) };
        (kept != 0).then_some((in_phase, ratio))
    }

    pub fn update(self, t: &mut Tracker, w: &mut [f64; STRETCH], s: [f32; 2]) {
        unsafe { (self.f.tracker_update)(t, w.as_mut_ptr(), s.as_ptr()) }
    }

    pub fn update_dual(self, t: &mut Tracker, w: &mut [f64; STRETCH], s1: [f32; 2], s2: [f32; 2]) {
        unsafe { (self.f.tracker_update_dual)(t, w.as_mut_ptr(), s1.as_ptr(), s2.as_ptr()) }
    }

    pub fn estimate(self, samples: &[f32], rate: f64) -> f64 {
        unsafe { (self.f.estimate)(samples.as_ptr(), samples.len(), rate) }
    }

    pub fn snr(self, samples: &[f32]) -> f64 {
        unsafe { (self.f.snr)(samples.as_ptr(), samples.len()) }
    }

    pub fn survey(self, raw: &[f32]) -> u64 {
        unsafe { (self.f.survey)(raw.as_ptr(), raw.len()) }
    }

    pub fn normalise(self, samples: &mut [f32]) {
        unsafe { (self.f.normalise)(samples.as_mut_ptr(), samples.len()) }
    }

    pub fn discrepancy(self, three: &[Tracker; 3]) -> f32 {
        unsafe { (self.f.discrepancy)(three.as_ptr()) }
    }

    pub fn differences(self, three: &[Tracker; 3]) -> [f32; 3] {
        let mut out = [0.0; 3];
        unsafe { (self.f.differences)(three.as_ptr(), out.as_mut_ptr()) };
        out
    }

    pub fn features(self, three: &[Tracker; 3]) -> [f32; 12] {
        let mut out = [0.0; 12];
        unsafe { (self.f.features)(three.as_ptr(), out.as_mut_ptr()) };
        out
    }

    pub fn cancel(self, f1: f64, f2: f64, offset1: f64, offset2: f64) -> f64 {
        unsafe { (self.f.cancel)(f1, f2, offset1, offset2) }
    }

    pub fn counts(self) {
        unsafe { (self.f.counts)() }
    }
}

impl Channel {
    pub fn assign(&mut self, nominal: f64, target: f64, target2: f64, frequency2: f64) -> u32 {
        unsafe { (self.reference.f.assign)(self.raw, nominal, target, target2, frequency2) }
    }

    pub fn block(&mut self, flag: u64, first: &mut [f32], second: &mut [f32], window: &mut [f64]) -> Answer {
        let mut answer = Answer::default();
        unsafe {
            (self.reference.f.block)(
                self.raw,
                flag,
                first.as_mut_ptr(),
                first.len(),
                second.as_mut_ptr(),
                second.len(),
                window.as_mut_ptr(),
                window.len(),
                &mut answer,
            )
        };
        answer
    }

    pub fn release(&mut self) {
        unsafe { (self.reference.f.release)(self.raw) }
    }

    pub fn figures(&self) -> [f32; 12] {
        let mut twelve = [0.0; 12];
        unsafe { (self.reference.f.figures)(self.raw, twelve.as_mut_ptr()) };
        twelve
    }

    pub fn read(&self) -> Built {
        let mut built = std::mem::MaybeUninit::uninit();
        unsafe {
            (self.reference.f.read)(self.raw, built.as_mut_ptr());
            built.assume_init()
        }
    }
}

impl Drop for Channel {
    fn drop(&mut self) {
        unsafe { (self.reference.f.close)(self.raw) }
    }
}

pub fn new_window() -> Vec<f64> {
    vec![0.0; MEMORY]
}
