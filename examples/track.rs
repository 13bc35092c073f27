//! Tracks a pass from Rust, without any crate: BPSK at 20 samples a symbol, no bank. Block 5 has a NaN, which without a bank ends the lock until there is a
//! restart. examples/programs builds and runs it.

#[path = "../include/gibsumac.rs"]
mod gibsumac;

use gibsumac::{Carriers, Receiver, Settings, flag, modulation};

/// The samples of a block: the turn of the carrier, the count of samples and the source of symbols go on from block to block.
struct Sender {
    turn: f64,
    count: u64,
    bits: u64,
}

impl Sender {
    fn block(&mut self) -> Vec<f32> {
        let mut samples = Vec::new();
        for _ in 0..200 {
            if self.count % 20 == 0 {
                self.bits = self.bits.rotate_left(7) ^ (self.count << 3);
            }
            let sign = if self.bits & 1 == 0 { 0.7 } else { -0.7 };
            samples.extend([(sign * self.turn.cos()) as f32, (sign * self.turn.sin()) as f32]);
            self.turn += std::f64::consts::TAU * 120.0 / 20_000.0;
            self.count += 1;
        }
        samples
    }
}

/// An `Err` is the number of the refusal.
fn pass() -> Result<(), u64> {
    let settings = Settings {
        rate: 20_000,
        factor: 1,
        modulation: modulation::BPSK,
        adaptive: true,
        dual_lock: true,
        bank: false,
        two: false,
        fade: 0,
        ratio: 1.0,
    };
    let mut receiver = Receiver::open(settings)?;
    receiver.assign(Carriers { target: 400e6, ..Carriers::default() })?;
    let mut sender = Sender { turn: 0.0, count: 0, bits: 0x2545_f491_4f6c_dd1d };
    println!("block locked offset/Hz snr/dB metric");
    for block in 1..=9 {
        let mut samples = sender.block();
        if block == 5 {
            samples[100] = f32::NAN;
        }
        let a = receiver.track(&mut samples)?;
        println!("{block} {} {:.3} {:.1} {:.3}", a.locked as u8, a.frequency - 400e6, a.snr, a.metric);
        if block == 6 {
            receiver.block(flag::NO_SIGNAL, &mut [], &mut [])?; // a restart: the next block starts anew
        }
    }
    receiver.release();
    Ok(())
}

fn main() {
    if let Err(number) = pass() {
        eprintln!("refused {number}");
        std::process::exit(1);
    }
}
