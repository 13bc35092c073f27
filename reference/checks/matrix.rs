//! The transition's products against plain loops over a mask of its places, and the estimate's
//! product and norm against plain sums, bit for bit (any NaN is one).

#[path = "../drivers/values.rs"]
#[allow(dead_code)]
mod values;

use nalgebra::{DMatrix, DVector, Matrix6, Vector6};
use num_complex::Complex;
use values::{Random, built, hex};

type Six = [[Option<f64>; 6]; 6];

/// A number, or in a draw of zeros one of the two: there a sum's sign tells how it began.
fn draw(random: &mut Random, zeros: bool, scale: f64) -> f64 {
    if zeros { random.pick(&[0.0, -0.0, -0.0]) } else { built(random, scale) }
}

/// Ascending index, beginning with the first product; a place without a number is left out.
fn row_by_column(row: impl Fn(usize) -> Option<f64>, column: impl Fn(usize) -> Option<f64>) -> f64 {
    let terms: Vec<f64> = (0..6).filter_map(|k| Some(row(k)? * column(k)?)).collect();
    terms[1..].iter().fold(terms[0], |sum, term| sum + term)
}

fn product(a: &Six, b: &Six) -> Six {
    let mut out = [[None; 6]; 6];
    for r in 0..6 {
        for c in 0..6 {
            out[r][c] = Some(row_by_column(|k| a[r][k], |k| b[k][c]));
        }
    }
    out
}

fn transposed(a: &Six) -> Six {
    let mut out = [[None; 6]; 6];
    for r in 0..6 {
        for c in 0..6 {
            out[r][c] = a[c][r];
        }
    }
    out
}

fn transition(random: &mut Random) {
    let zeros = random.chance(4);
    let entries = [(0, 1), (0, 2), (1, 2), (3, 4), (3, 5), (4, 5)];
    let mut f = Matrix6::identity();
    let mut mask: Six = [[None; 6]; 6];
    (0..6).for_each(|i| mask[i][i] = Some(1.0));
    for (r, c) in entries {
        let value = if zeros { 1e-3 } else { built(random, 1e-3) };
        f[(r, c)] = value;
        mask[r][c] = Some(value);
    }
    let (mut p, mut plain) = (Matrix6::zeros(), [[None; 6]; 6]);
    let mut x = Vector6::zeros();
    for r in 0..6 {
        x[r] = draw(random, zeros, 1e3);
        for c in 0..6 {
            p[(r, c)] = draw(random, zeros, 1e3);
            plain[r][c] = Some(p[(r, c)]);
        }
    }
    let moved = f * x;
    let sandwich = f * p * f.transpose();
    let expected = product(&product(&mask, &plain), &transposed(&mask));
    for r in 0..6 {
        let state = row_by_column(|k| mask[r][k], |k| Some(x[k]));
        assert_eq!(hex(moved[r]), hex(state), "state {r}");
        for c in 0..6 {
            assert_eq!(hex(sandwich[(r, c)]), hex(expected[r][c].unwrap()), "covariance {r} {c}");
        }
    }
}

fn estimate(random: &mut Random) {
    let zeros = random.chance(4);
    let m = 10;
    let some = |r: &mut Random| Complex::new(draw(r, zeros, 1.0), draw(r, zeros, 1.0));
    let mut matrix = DMatrix::<Complex<f64>>::zeros(m, m);
    let vector = DVector::from_element(m, Complex::new(1.0, 0.0)).map(|_| some(random));
    for r in 0..m {
        for c in 0..m {
            matrix[(r, c)] = some(random);
        }
    }
    let out = &matrix * &vector;
    let mut squares = Vec::new();
    for r in 0..m {
        let mut sum = matrix[(r, 0)] * vector[0];
        (1..m).for_each(|c| sum = sum + matrix[(r, c)] * vector[c]);
        assert_eq!([hex(out[r].re), hex(out[r].im)], [hex(sum.re), hex(sum.im)], "row {r}");
        squares.push(out[r].re * out[r].re + out[r].im * out[r].im);
    }
    let sum = squares[1..].iter().fold(squares[0], |sum, s| sum + s);
    assert_eq!(hex(out.norm()), hex(sum.sqrt()), "norm");
}

/// A structural zero is no term: an infinity beside it stays out of the sum.
fn left_out() {
    let f = Matrix6::identity();
    let x = Vector6::new(-0.0, 0.0, 0.0, f64::INFINITY, 1.0, 1.0);
    let mut set = f;
    set[(0, 1)] = 1.0;
    let moved = set * x;
    assert_eq!(hex(moved[0]), hex(0.0));
    assert_eq!(hex(moved[2]), hex(0.0));
    assert_eq!(hex((f * Vector6::new(0.0, 0.0, -0.0, 0.0, 0.0, 0.0))[2]), hex(-0.0));
}

/// No zero stands in front of the estimate's product: ten terms of -0 are -0.
fn first_product() {
    let mut matrix = DMatrix::<Complex<f64>>::zeros(10, 10);
    (0..100).for_each(|i| matrix[(i / 10, i % 10)] = Complex::new(-0.0, 0.0));
    let out = &matrix * &DVector::from_element(10, Complex::new(1.0, 0.0));
    (0..10).for_each(|r| assert_eq!(hex(out[r].re), hex(-0.0), "row {r}"));
}

fn main() {
    let mut random = Random::new(2);
    for _ in 0..20_000 {
        transition(&mut random);
        estimate(&mut random);
    }
    left_out();
    first_product();
    println!("matrix: 20,000 draws of each product have the stated order");
}
