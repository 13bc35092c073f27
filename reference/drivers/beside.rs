//! A channel of the reference with, if asked for, the port's beside it: each call is made to both and compared.

use crate::api::shapes::{Answer, Built, Settings};
use crate::api::{Channel, Reference};
use crate::port::{Port, same32, unlike_answers, unlike_memory};

/// What was compared, and what differed.
#[derive(Default)]
pub struct Tally {
    pub calls: u64,
    pub blocks: u64,
    pub samples: u64,
    pub differing: u64,
    pub refusals: [u64; 13],
}

impl Tally {
    fn note(&mut self, what: Option<&'static str>, call: &str) {
        self.calls += 1;
        if let Some(what) = what {
            self.differing += 1;
            if self.differing <= 20 {
                eprintln!("differs: {what}, in call {} ({call})", self.calls);
            }
        }
    }

    fn refused(&mut self, number: u32) {
        self.refusals[number as usize % 13] += 1;
    }

    /// The last line of a run that compares.
    pub fn print(&self) {
        let refusals: Vec<String> = (1..13).map(|k| format!("{k}: {}", self.refusals[k])).collect();
        eprintln!(
            "{} calls, {} blocks with {} samples compared, {} differ; refusals {}",
            self.calls,
            self.blocks,
            self.samples,
            self.differing,
            refusals.join(", ")
        );
    }
}

pub struct Beside {
    reference: Channel,
    port: Option<Port>,
}

fn unless(same: bool, what: &'static str) -> Option<&'static str> {
    if same { None } else { Some(what) }
}

impl Beside {
    pub fn open(reference: Reference, with_port: bool, s: &Settings, tally: &mut Tally) -> (u32, Beside) {
        let (refusal, channel) = reference.open(s);
        let mut both = Beside { reference: channel, port: None };
        if with_port {
            let (number, port) = Port::open(s);
            both.port = Some(port);
            tally.refused(refusal);
            let what = unless(number == refusal, "refusal of open").or_else(|| both.unlike());
            tally.note(what, "open");
        }
        (refusal, both)
    }

    pub fn build(reference: Reference, with_port: bool, b: &Built, tally: &mut Tally) -> Beside {
        let both = Beside { reference: reference.build(b), port: with_port.then(|| Port::build(b)) };
        tally.note(both.unlike(), "build");
        both
    }

    /// What differs in the two channels as they stand.
    fn unlike(&self) -> Option<&'static str> {
        self.port.as_ref().and_then(|p| p.unlike(&self.reference.read()))
    }

    pub fn assign(&mut self, f: [f64; 4], tally: &mut Tally) -> u32 {
        let refusal = self.reference.assign(f[0], f[1], f[2], f[3]);
        if let Some(port) = &mut self.port {
            let number = port.assign(f[0], f[1], f[2], f[3]);
            tally.refused(refusal);
            let what = unless(number == refusal, "refusal of assign").or_else(|| self.unlike());
            tally.note(what, "assign");
        }
        refusal
    }

    pub fn block(
        &mut self,
        flag: u64,
        first: &mut [f32],
        second: &mut [f32],
        window: &mut [f64],
        tally: &mut Tally,
    ) -> Answer {
        let Some(port) = &mut self.port else { return self.reference.block(flag, first, second, window) };
        let (mut first2, mut second2, mut window2) = (first.to_vec(), second.to_vec(), window.to_vec());
        let a = self.reference.block(flag, first, second, window);
        let b = port.block(flag, &mut first2, &mut second2, &mut window2);
        let what = unlike_answers(&a, &b)
            .or_else(|| unlike_memory((first, second, window), (&first2, &second2, &window2)))
            .or_else(|| self.unlike());
        tally.blocks += 1;
        tally.samples += first.len() as u64 / 2;
        tally.refused(a.refusal);
        tally.note(what, "block");
        a
    }

    pub fn release(&mut self, tally: &mut Tally) {
        self.reference.release();
        if let Some(port) = &mut self.port {
            port.release();
            tally.note(self.unlike(), "release");
        }
    }

    /// The reference's channel as it stands.
    pub fn read(&self) -> Built {
        self.reference.read()
    }

    pub fn figures(&self, tally: &mut Tally) -> [f32; 12] {
        let twelve = self.reference.figures();
        if let Some(port) = &self.port {
            let ours = port.figures();
            let same = ours.iter().zip(&twelve).all(|(a, b)| same32(*a, *b));
            tally.note(unless(same, "figures"), "figures");
        }
        twelve
    }
}
