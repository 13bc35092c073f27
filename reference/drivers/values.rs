//! Seeded numbers, signals and the way that numbers are written.

/// A small generator (splitmix64), so that a seed gives the same values everywhere.
pub struct Random(u64);

impl Random {
    pub fn new(seed: u64) -> Self {
        Random(seed.wrapping_mul(0x9e3779b97f4a7c15) ^ 0x5851f42d4c957f2d)
    }

    pub fn bits(&mut self) -> u64 {
        self.0 = self.0.wrapping_add(0x9e3779b97f4a7c15);
        let mut z = self.0;
        z = (z ^ (z >> 30)).wrapping_mul(0xbf58476d1ce4e5b9);
        z = (z ^ (z >> 27)).wrapping_mul(0x94d049bb133111eb);
        z ^ (z >> 31)
    }

    /// 0 to n - 1.
    pub fn below(&mut self, n: u64) -> u64 {
        self.bits() % n
    }

    pub fn chance(&mut self, one_in: u64) -> bool {
        self.below(one_in) == 0
    }

    pub fn unit(&mut self) -> f64 {
        (self.bits() >> 11) as f64 / (1u64 << 53) as f64
    }

    pub fn between(&mut self, low: f64, high: f64) -> f64 {
        low + (high - low) * self.unit()
    }

    pub fn pick<T: Copy>(&mut self, from: &[T]) -> T {
        from[self.below(from.len() as u64) as usize]
    }

    /// Normal noise, near enough: the sum of twelve.
    pub fn noise(&mut self) -> f64 {
        (0..12).map(|_| self.unit()).sum::<f64>() - 6.0
    }
}

pub const ODD: [f64; 20] = [
    0.0,
    -0.0,
    1.0,
    -1.0,
    f64::NAN,
    f64::INFINITY,
    f64::NEG_INFINITY,
    f64::MIN_POSITIVE,
    -f64::MIN_POSITIVE,
    5e-324,
    -5e-324,
    2.2e-308,
    f64::MAX,
    f64::MIN,
    1e-15,
    1e-12,
    1e-6,
    std::f64::consts::PI,
    -std::f64::consts::PI,
    -3.1415926535897936,
];

pub const ODD_F32: [f32; 15] = [
    0.0,
    -0.0,
    1.0,
    -1.0,
    f32::NAN,
    f32::INFINITY,
    f32::NEG_INFINITY,
    f32::MIN_POSITIVE,
    1e-45,
    -1e-45,
    f32::MAX,
    f32::MIN,
    1e-6,
    1024.0,
    -1024.0,
];

/// A number that a test of built values may meet: odd, any bits, or ordinary about `scale`.
pub fn built(random: &mut Random, scale: f64) -> f64 {
    match random.below(8) {
        0 => random.pick(&ODD),
        1 => f64::from_bits(random.bits()),
        _ => random.noise() * scale,
    }
}

pub fn built_f32(random: &mut Random) -> f32 {
    match random.below(8) {
        0 => random.pick(&ODD_F32),
        1 => f32::from_bits(random.bits() as u32),
        _ => random.noise() as f32,
    }
}

/// The bits of a number, any NaN as one NaN. Told apart by its bits, behind a black box: written
/// with `is_nan`, the optimiser takes the choice for the number itself and leaves a NaN's bits be.
pub fn bits(v: f64) -> u64 {
    let bits = std::hint::black_box(v.to_bits());
    if bits << 1 > 0x7ff0000000000000 << 1 { 0x7ff8000000000000 } else { bits }
}

pub fn bits32(v: f32) -> u32 {
    let bits = std::hint::black_box(v.to_bits());
    if bits << 1 > 0x7f800000 << 1 { 0x7fc00000 } else { bits }
}

/// f64 as 16 hexadecimal digits, f32 as 8.
pub fn hex(v: f64) -> String {
    format!("{:016x}", bits(v))
}

pub fn hex32(v: f32) -> String {
    format!("{:08x}", bits32(v))
}

/// A digest of many numbers by their bits (FNV-1a over 64-bit words).
pub fn digest(values: &[f64]) -> u64 {
    values.iter().fold(0xcbf29ce484222325, |sum: u64, v| (sum ^ bits(*v)).wrapping_mul(0x100000001b3))
}

/// What a received carrier does over a pass.
pub struct Signal {
    pub modulation: u64,
    pub phase: f64,
    pub step: f64,
    pub chirp: f64,
    pub amplitude: f64,
    pub noise: f64,
    pub symbol: u64,
    pub symbol_length: u64,
    count: u64,
}

impl Signal {
    pub fn new(random: &mut Random, modulation: u64, decimated_rate: f64) -> Self {
        let offset = random.between(-1.0, 1.0) * random.pick(&[10.0, 100.0, 1_000.0, 10_000.0]);
        let turn = 2.0 * std::f64::consts::PI / decimated_rate;
        Signal {
            modulation,
            phase: random.between(-3.0, 3.0),
            step: offset * turn,
            chirp: random.between(-200.0, 200.0) * turn / decimated_rate,
            amplitude: random.pick(&[0.001, 0.1, 0.5, 1.0, 20.0]),
            noise: random.pick(&[0.0, 0.01, 0.1, 0.3, 1.0, 3.0]),
            symbol: 0,
            symbol_length: 4 + random.below(28),
            count: 0,
        }
    }

    pub fn next(&mut self, random: &mut Random) -> [f32; 2] {
        if self.count % self.symbol_length == 0 {
            self.symbol = random.below(4);
        }
        self.count += 1;
        self.phase += self.step;
        self.step += self.chirp;
        let turn = match self.modulation {
            0 => 0.0,
            1 => (self.symbol % 2) as f64 * std::f64::consts::PI,
            _ => (self.symbol as f64 + 0.5) * std::f64::consts::FRAC_PI_2,
        };
        let angle = self.phase + turn;
        let part = |s: f64, r: &mut Random| {
            let v = self.amplitude * (s + self.noise * r.noise());
            v.clamp(-1024.0, 1024.0) as f32
        };
        [part(angle.cos(), random), part(angle.sin(), random)]
    }

    /// Samples of the signal, or of noise alone.
    pub fn samples(&mut self, random: &mut Random, pairs: usize, there: bool) -> Vec<f32> {
        let mut list = Vec::with_capacity(2 * pairs);
        for _ in 0..pairs {
            let s = self.next(random);
            if there {
                list.extend(s);
            } else {
                let a = self.amplitude;
                list.extend([(a * random.noise()) as f32, (a * random.noise()) as f32]);
            }
        }
        list
    }
}

/// `--name value` words of a driver.
pub struct Words(Vec<String>);

impl Words {
    pub fn new() -> Self {
        Words(std::env::args().skip(1).collect())
    }

    pub fn get(&self, name: &str) -> Option<&str> {
        let at = self.0.iter().position(|w| w == name)?;
        self.0.get(at + 1).map(String::as_str)
    }

    pub fn number(&self, name: &str, otherwise: u64) -> u64 {
        match self.get(name) {
            None => otherwise,
            Some(word) => word.parse().unwrap_or_else(|_| stop(&format!("{name} needs a number"))),
        }
    }
}

pub fn stop(message: &str) -> ! {
    eprintln!("{message}");
    std::process::exit(2)
}
