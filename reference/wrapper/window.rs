//! The power-ratio window in lent memory.
//!
//! `Ring` is a queue of at most 1,024 pairs, plus one while a push waits for its pop: the source
//! pushes first and pops after. The pair pushed n-th since the last clear lies at place n modulo
//! 1,024; place k is the numbers 2k and 2k + 1 of the tracker's stretch.

use crate::shapes::{PAIRS, STRETCH};
use std::collections::VecDeque;

type Pair = (f64, f64);

#[derive(Clone)]
pub struct Ring<T> {
    places: Vec<T>,
    start: usize,
    length: usize,
    displaced: T,
}

impl Ring<Pair> {
    pub fn new() -> Self {
        Ring { places: vec![(0.0, 0.0); PAIRS], start: 0, length: 0, displaced: (0.0, 0.0) }
    }

    #[inline]
    pub fn len(&self) -> usize {
        self.length
    }

    #[inline]
    pub fn clear(&mut self) {
        self.start = 0;
        self.length = 0;
    }

    #[inline]
    pub fn push_back(&mut self, pair: Pair) {
        assert!(self.length <= PAIRS, "a full window is popped before the next push");
        let place = (self.start + self.length) % PAIRS;
        self.displaced = self.places[place];
        self.places[place] = pair;
        self.length += 1;
    }

    /// The oldest pair. After a push into a full window it is the one that the push displaced.
    #[inline]
    pub fn pop_front(&mut self) -> Option<Pair> {
        if self.length == 0 {
            return None;
        }
        let oldest = if self.length > PAIRS { self.displaced } else { self.places[self.start] };
        self.start = (self.start + 1) % PAIRS;
        self.length -= 1;
        Some(oldest)
    }
}

/// A window that is filled from lent memory and given back to it.
pub trait Lent {
    /// Can a whole block be run on lent contents? If not, the window keeps its own.
    const IN_BLOCKS: bool;
    fn filled(start: usize, fill: usize, memory: &[f64]) -> Self;
    fn take(&mut self, memory: &[f64]);
    /// Writes what changed since `start` and `fill`, after `pushes` pushes, and answers the new two.
    fn give(&self, start: usize, fill: usize, pushes: usize, memory: &mut [f64]) -> (usize, usize);
    fn place(&self) -> (usize, usize);
}

impl Lent for Ring<Pair> {
    const IN_BLOCKS: bool = true;

    fn filled(start: usize, fill: usize, memory: &[f64]) -> Self {
        let mut ring = Ring::new();
        ring.start = start % PAIRS;
        ring.length = fill.min(PAIRS);
        ring.take(memory);
        ring
    }

    fn take(&mut self, memory: &[f64]) {
        for (place, pair) in self.places.iter_mut().zip(memory[..STRETCH].chunks(2)) {
            *place = (pair[0], pair[1]);
        }
    }

    fn give(&self, _: usize, _: usize, _: usize, memory: &mut [f64]) -> (usize, usize) {
        for (place, pair) in self.places.iter().zip(memory[..STRETCH].chunks_mut(2)) {
            (pair[0], pair[1]) = *place;
        }
        self.place()
    }

    fn place(&self) -> (usize, usize) {
        (self.start, self.length)
    }
}

/// The source's own queue, in the platform build. It has no places: single functions push at most
/// one pair, so its place is known; over a block it is not, and the queue keeps its own contents.
impl Lent for VecDeque<Pair> {
    const IN_BLOCKS: bool = false;

    fn filled(start: usize, fill: usize, memory: &[f64]) -> Self {
        let pair = |k: usize| {
            let place = (start + k) % PAIRS;
            (memory[2 * place], memory[2 * place + 1])
        };
        (0..fill.min(PAIRS)).map(pair).collect()
    }

    fn take(&mut self, _: &[f64]) {}

    fn give(&self, start: usize, fill: usize, pushes: usize, memory: &mut [f64]) -> (usize, usize) {
        if pushes == 0 {
            return if self.is_empty() { (0, 0) } else { (start, fill) };
        }
        let place = (start + fill) % PAIRS;
        if let Some(&(abs_i, q_sq)) = self.back() {
            memory[2 * place] = abs_i;
            memory[2 * place + 1] = q_sq;
        }
        if fill == PAIRS { ((start + 1) % PAIRS, PAIRS) } else { (start, fill + 1) }
    }

    fn place(&self) -> (usize, usize) {
        (0, self.len())
    }
}
