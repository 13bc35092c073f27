// Makes the part of ieee754_vectors/stdin that comes from Rust's own f64: `as usize`, rem_euclid, max, clamp. The form of a line is that of
// make_vectors.c.
const MINUS: u64 = 1 << 63;

struct Random(u64);

impl Random {
    // Marsaglia's xorshift64: the same vectors on every machine.
    fn next(&mut self) -> u64 {
        self.0 ^= self.0 << 13;
        self.0 ^= self.0 >> 7;
        self.0 ^= self.0 << 17;
        self.0
    }
}

fn bits(x: f64) -> u64 {
    if x.is_nan() { 0x7ff8_0000_0000_0000 } else { x.to_bits() }
}

fn line(op: char, a: u64, b: u64, c: u64, r: u64) {
    println!("{op} {a:016x} {b:016x} {c:016x} {r:016x}");
}

fn all(a: u64, b: u64, lo: u64, hi: u64) {
    let (x, y) = (f64::from_bits(a), f64::from_bits(b));
    line('t', a, 0, 0, x as usize as u64);
    line('e', a, b, 0, bits(x.rem_euclid(y)));
    line('m', a, b, 0, bits(x.max(y)));
    let (l, h) = (f64::from_bits(lo), f64::from_bits(hi));
    // Rust's clamp stops the program unless the limits are in order.
    if l <= h {
        line('c', a, lo, hi, bits(x.clamp(l, h)));
    }
}

fn main() {
    let edges: [u64; 24] = [
        0, 1, 0x000f_ffff_ffff_ffff, 0x0010_0000_0000_0000, 0x3fef_ffff_ffff_ffff, 0x3ff0_0000_0000_0000,
        0x3ff8_0000_0000_0000, 0x4009_21fb_5444_2d18, 0x4019_21fb_5444_2d18, 0x3fe9_21fb_5444_2d18, 0x4034_0000_0000_0000,
        0x4330_0000_0000_0000, 0x43df_ffff_ffff_ffff, 0x43e0_0000_0000_0000, 0x43ef_ffff_ffff_ffff, 0x43f0_0000_0000_0000,
        0x43f0_0000_0000_0001, 0x7fe0_0000_0000_0000, 0x7fef_ffff_ffff_ffff, 0x7ff0_0000_0000_0000, 0x7ff0_0000_0000_0001,
        0x7ff8_0000_0000_0000, 0x4011_2233_4455_6677, 0x40f8_6a00_0000_0000,
    ];
    let mut r = Random(0x2545_f491_4f6c_dd1d);
    for a in edges {
        for b in edges {
            all(a, b, 0xc034_0000_0000_0000, 0x4044_0000_0000_0000);
            all(a | MINUS, b, 0xbff0_0000_0000_0000, 0x3ff0_0000_0000_0000);
        }
    }
    let turn = 0x4019_21fb_5444_2d18;
    for _ in 0..1200 {
        let (a, b) = (r.next(), r.next());
        all(a, b, a ^ MINUS | MINUS, b & !MINUS);
        // a phase, wrapped at one turn, and a whole part of some digits
        let phase = (a & (MINUS | 0x000f_ffff_ffff_ffff)) | ((1015 + b % 20) << 52);
        all(phase, turn, 0xc113_2cbd_0fba_43a7, 0x4113_2cbd_0fba_43a7);
        let whole = (a & 0x000f_ffff_ffff_ffff) | ((1020 + b % 68) << 52);
        line('t', whole, 0, 0, f64::from_bits(whole) as usize as u64);
    }
}
