//! The elementary functions, from one of two places.
//!
//! With `--cfg exported` they are the port's own, linked from its static library;
//! without it they are those of Rust's standard library, as in the unpatched source.

#[cfg(exported)]
mod place {
    unsafe extern "C" {
        safe fn gibsumac_sin(x: f64) -> f64;
        safe fn gibsumac_cos(x: f64) -> f64;
        safe fn gibsumac_atan2(y: f64, x: f64) -> f64;
        safe fn gibsumac_log10(x: f64) -> f64;
        safe fn gibsumac_hypot(x: f64, y: f64) -> f64;
        safe fn gibsumac_hypotf(x: f32, y: f32) -> f32;
        safe fn gibsumac_sqrt(x: f64) -> f64;
    }
    #[inline]
    pub fn sin(x: f64) -> f64 {
        gibsumac_sin(x)
    }
    #[inline]
    pub fn cos(x: f64) -> f64 {
        gibsumac_cos(x)
    }
    #[inline]
    pub fn atan2(y: f64, x: f64) -> f64 {
        gibsumac_atan2(y, x)
    }
    #[inline]
    pub fn log10(x: f64) -> f64 {
        gibsumac_log10(x)
    }
    #[inline]
    pub fn hypot(x: f64, y: f64) -> f64 {
        gibsumac_hypot(x, y)
    }
    #[inline]
    pub fn hypotf(x: f32, y: f32) -> f32 {
        gibsumac_hypotf(x, y)
    }
    #[inline]
    pub fn sqrt(x: f64) -> f64 {
        gibsumac_sqrt(x)
    }
}

#[cfg(not(exported))]
mod place {
    #[inline]
    pub fn sin(x: f64) -> f64 {
        x.sin()
    }
    #[inline]
    pub fn cos(x: f64) -> f64 {
        x.cos()
    }
    #[inline]
    pub fn atan2(y: f64, x: f64) -> f64 {
        y.atan2(x)
    }
    #[inline]
    pub fn log10(x: f64) -> f64 {
        x.log10()
    }
    #[inline]
    pub fn hypot(x: f64, y: f64) -> f64 {
        x.hypot(y)
    }
    #[inline]
    pub fn hypotf(x: f32, y: f32) -> f32 {
        x.hypot(y)
    }
    #[inline]
    pub fn sqrt(x: f64) -> f64 {
        x.sqrt()
    }
}

pub use place::*;

/// What the edits put in place of the standard methods: the same call, another name.
pub trait Ported {
    fn ported_sin(self) -> f64;
    fn ported_cos(self) -> f64;
    fn ported_atan2(self, x: f64) -> f64;
    fn ported_log10(self) -> f64;
    fn ported_hypot(self, y: f64) -> f64;
    fn ported_sqrt(self) -> f64;
}

impl Ported for f64 {
    #[inline]
    fn ported_sin(self) -> f64 {
        sin(self)
    }
    #[inline]
    fn ported_cos(self) -> f64 {
        cos(self)
    }
    #[inline]
    fn ported_atan2(self, x: f64) -> f64 {
        atan2(self, x)
    }
    #[inline]
    fn ported_log10(self) -> f64 {
        log10(self)
    }
    #[inline]
    fn ported_hypot(self, y: f64) -> f64 {
        hypot(self, y)
    }
    #[inline]
    fn ported_sqrt(self) -> f64 {
        sqrt(self)
    }
}
