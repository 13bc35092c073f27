//! Branch counts of the counted build; the other builds have none.

#[cfg(counted)]
include!("points.rs");
#[cfg(not(counted))]
pub const SIZE: usize = 0;
#[cfg(not(counted))]
pub const POINTS: &[(usize, &str, u32, &str, i64)] = &[];

use std::sync::atomic::{AtomicU64, Ordering::Relaxed};

static HITS: [AtomicU64; SIZE] = [const { AtomicU64::new(0) }; SIZE];

pub fn hit(point: usize) {
    bucket(point, 0);
}

fn bucket(point: usize, which: usize) {
    HITS[3 * point + which].fetch_add(1, Relaxed);
}

fn hits(point: usize, which: usize) -> u64 {
    HITS[3 * point + which].load(Relaxed)
}

/// Steps without a block of their own: what they did is told by their result.
pub trait Counted {
    fn counted_clamp(self, point: usize, low: f64, high: f64) -> f64;
    fn counted_max(self, point: usize, other: f64) -> f64;
    fn counted_rem_euclid(self, point: usize, limit: f64) -> f64;
}

impl Counted for f64 {
    fn counted_clamp(self, point: usize, low: f64, high: f64) -> f64 {
        bucket(
            point,
            if self < low {
                1
            } else if self > high {
                2
            } else {
                0
            },
        );
        self.clamp(low, high)
    }
    fn counted_max(self, point: usize, other: f64) -> f64 {
        bucket(
            point,
            if self.is_nan() {
                2
            } else if self < other {
                1
            } else {
                0
            },
        );
        self.max(other)
    }
    fn counted_rem_euclid(self, point: usize, limit: f64) -> f64 {
        let rest = self.rem_euclid(limit);
        bucket(
            point,
            if rest == limit {
                2
            } else if rest != self {
                1
            } else {
                0
            },
        );
        rest
    }
}

fn names(kind: &str) -> [&'static str; 3] {
    match kind {
        "clamp" => ["inside", "low", "high"],
        "max" => ["kept", "raised", "NaN"],
        "rem_euclid" => ["inside", "wrapped", "equals limit"],
        _ => ["", "", ""],
    }
}

/// One line for each point: count, count of the block around it, place in the source.
pub fn report() -> String {
    let mut text = String::new();
    for &(point, file, line, kind, parent) in POINTS {
        let around = if parent < 0 { hits(point, 0) } else { hits(parent as usize, 0) };
        let several = !names(kind)[0].is_empty();
        for which in 0..if several { 3 } else { 1 } {
            let count = hits(point, which);
            let mark = if count == 0 { "never" } else { "" };
            text +=
                format!("{count:>12} of {around:>12}  {file} {line} {kind} {} {mark}", names(kind)[which]).trim_end();
            text.push('\n');
        }
    }
    text
}
