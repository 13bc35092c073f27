//! The stand-in's complex arithmetic against Debian's num-complex, bit for bit (any NaN is one).

#[path = "../drivers/values.rs"]
#[allow(dead_code)]
mod values;

use values::{Random, built, built_f32, hex, hex32};

fn same(what: &str, ours: debian::Complex<f64>, theirs: debian::Complex<f64>) {
    let (a, b) = ([hex(ours.re), hex(ours.im)], [hex(theirs.re), hex(theirs.im)]);
    assert!(a == b, "{what}: {a:?} here, {b:?} there");
}

fn same32(what: &str, ours: debian::Complex<f32>, theirs: debian::Complex<f32>) {
    let (a, b) = ([hex32(ours.re), hex32(ours.im)], [hex32(theirs.re), hex32(theirs.im)]);
    assert!(a == b, "{what}: {a:?} here, {b:?} there");
}

macro_rules! compare {
    ($same:ident, $t:ty, $draw:expr) => {{
        let v: [$t; 5] = $draw;
        let (a, b, r) = (standin::Complex::new(v[0], v[1]), standin::Complex::new(v[2], v[3]), v[4]);
        let (c, d) = (debian::Complex::new(v[0], v[1]), debian::Complex::new(v[2], v[3]));
        let to = |z: standin::Complex<$t>| debian::Complex::new(z.re, z.im);
        let real = |x: $t| debian::Complex::new(x, 0.0);
        $same("sum", to(a + b), c + d);
        $same("difference", to(a - b), c - d);
        $same("product", to(a * b), c * d);
        $same("product by a real number", to(a * r), c * r);
        $same("quotient by a real number", to(a / r), c / r);
        $same("conjugate", to(a.conj()), c.conj());
        $same("squared norm", real(a.norm_sqr()), real(c.norm_sqr()));
        $same("norm", real(a.norm()), real(c.norm()));
        let (mut e, mut f) = (a, c);
        e += b;
        f += d;
        $same("sum in place", to(e), f);
        e -= a;
        f -= c;
        $same("difference in place", to(e), f);
        e *= r;
        f *= r;
        $same("product in place", to(e), f);
    }};
}

fn main() {
    let mut random = Random::new(1);
    for _ in 0..1_000_000 {
        compare!(same, f64, [0; 5].map(|_| built(&mut random, 1.0)));
        compare!(same32, f32, [0; 5].map(|_| built_f32(&mut random)));
    }
    println!("complex: 1,000,000 draws in each width equal num-complex");
}
