//! The matrices that the source names, with the order of sums that the scope states.
//!
//! Every product sums in ascending index and begins with its first product: no zero
//! stands in front, so a sum of -0 terms is -0.
//!
//! Terms that are 0 by structure are left out by type. The source builds its transition
//! matrix from `Matrix6::identity()` and sets single entries afterwards. Here that
//! constructor answers a `Transition`: a matrix that has ones on the diagonal, six entries
//! that may be set (the upper triangles of the two 3 x 3 blocks) and nothing else. Its
//! products therefore have exactly the structural terms in them, ascending; a write to any
//! other place stops the program. No other matrix of the filter has a structure: Q is added
//! in all 36 places, and the correction is loops in the source itself.

use num_complex::Complex;
use std::ops::{Add, AddAssign, Div, Index, IndexMut, Mul, Sub};

// ---- six states ----

#[derive(Clone, Copy, Debug, PartialEq)]
pub struct Vector6<T> {
    at: [T; 6],
}

#[derive(Clone, Copy, Debug, PartialEq)]
pub struct Matrix6<T> {
    at: [[T; 6]; 6],
}

/// Ones on the diagonal, and block b's entries above it: rows and columns 3b to 3b + 2.
#[derive(Clone, Copy, Debug)]
pub struct Transition {
    block: [TransitionBlock; 2],
}

#[derive(Clone, Copy, Debug)]
struct TransitionBlock {
    f01: f64,
    f02: f64,
    f12: f64,
}

/// The transpose of a transition, so that its products also leave the zeros out.
#[derive(Clone, Copy, Debug)]
pub struct TransitionTransposed {
    of: Transition,
}

impl Vector6<f64> {
    #[inline]
    pub fn zeros() -> Self {
        Vector6 { at: [0.0; 6] }
    }
    #[inline]
    pub fn new(a: f64, b: f64, c: f64, d: f64, e: f64, f: f64) -> Self {
        Vector6 { at: [a, b, c, d, e, f] }
    }
    #[inline]
    pub fn iter(&self) -> std::slice::Iter<'_, f64> {
        self.at.iter()
    }
}

impl<T> Index<usize> for Vector6<T> {
    type Output = T;
    #[inline]
    fn index(&self, i: usize) -> &T {
        &self.at[i]
    }
}

impl<T> IndexMut<usize> for Vector6<T> {
    #[inline]
    fn index_mut(&mut self, i: usize) -> &mut T {
        &mut self.at[i]
    }
}

impl Matrix6<f64> {
    #[inline]
    pub fn zeros() -> Self {
        Matrix6 { at: [[0.0; 6]; 6] }
    }
    /// The identity that the source goes on to fill: see the head of this file.
    #[inline]
    pub fn identity() -> Transition {
        let empty = TransitionBlock { f01: 0.0, f02: 0.0, f12: 0.0 };
        Transition { block: [empty; 2] }
    }
    #[inline]
    pub fn transpose(&self) -> Self {
        let mut out = Self::zeros();
        for r in 0..6 {
            for c in 0..6 {
                out.at[r][c] = self.at[c][r];
            }
        }
        out
    }
}

impl<T> Index<(usize, usize)> for Matrix6<T> {
    type Output = T;
    #[inline]
    fn index(&self, (r, c): (usize, usize)) -> &T {
        &self.at[r][c]
    }
}

impl<T> IndexMut<(usize, usize)> for Matrix6<T> {
    #[inline]
    fn index_mut(&mut self, (r, c): (usize, usize)) -> &mut T {
        &mut self.at[r][c]
    }
}

impl Add for Matrix6<f64> {
    type Output = Self;
    #[inline]
    fn add(mut self, o: Self) -> Self {
        for r in 0..6 {
            for c in 0..6 {
                self.at[r][c] = self.at[r][c] + o.at[r][c];
            }
        }
        self
    }
}

impl Mul<f64> for Matrix6<f64> {
    type Output = Self;
    #[inline]
    fn mul(mut self, factor: f64) -> Self {
        for r in 0..6 {
            for c in 0..6 {
                self.at[r][c] = self.at[r][c] * factor;
            }
        }
        self
    }
}

impl Transition {
    #[inline]
    pub fn transpose(&self) -> TransitionTransposed {
        TransitionTransposed { of: *self }
    }
}

/// Reading is only there because Rust asks it of whatever can be written.
impl Index<(usize, usize)> for Transition {
    type Output = f64;
    fn index(&self, _: (usize, usize)) -> &f64 {
        unreachable!("the source reads no entry of its transition matrix")
    }
}

impl IndexMut<(usize, usize)> for Transition {
    #[inline]
    fn index_mut(&mut self, (r, c): (usize, usize)) -> &mut f64 {
        let block = &mut self.block[r / 3];
        match (r % 3, c.wrapping_sub(r - r % 3)) {
            (0, 1) => &mut block.f01,
            (0, 2) => &mut block.f02,
            (1, 2) => &mut block.f12,
            _ => panic!("entry ({r}, {c}) of the transition matrix is 0 or 1 by structure"),
        }
    }
}

impl Mul<Vector6<f64>> for Transition {
    type Output = Vector6<f64>;
    #[inline]
    fn mul(self, x: Vector6<f64>) -> Vector6<f64> {
        let mut out = x;
        for b in 0..2 {
            let f = self.block[b];
            let i = 3 * b;
            out.at[i] = x.at[i] + f.f01 * x.at[i + 1] + f.f02 * x.at[i + 2];
            out.at[i + 1] = x.at[i + 1] + f.f12 * x.at[i + 2];
        }
        out
    }
}

impl Mul<Matrix6<f64>> for Transition {
    type Output = Matrix6<f64>;
    #[inline]
    fn mul(self, p: Matrix6<f64>) -> Matrix6<f64> {
        let mut out = p;
        for b in 0..2 {
            let f = self.block[b];
            let i = 3 * b;
            for c in 0..6 {
                out.at[i][c] = p.at[i][c] + f.f01 * p.at[i + 1][c] + f.f02 * p.at[i + 2][c];
                out.at[i + 1][c] = p.at[i + 1][c] + f.f12 * p.at[i + 2][c];
            }
        }
        out
    }
}

impl Mul<TransitionTransposed> for Matrix6<f64> {
    type Output = Matrix6<f64>;
    #[inline]
    fn mul(self, t: TransitionTransposed) -> Matrix6<f64> {
        let mut out = self;
        for b in 0..2 {
            let f = t.of.block[b];
            let i = 3 * b;
            for r in 0..6 {
                let row = &self.at[r];
                out.at[r][i] = row[i] + row[i + 1] * f.f01 + row[i + 2] * f.f02;
                out.at[r][i + 1] = row[i + 1] + row[i + 2] * f.f12;
            }
        }
        out
    }
}

// ---- the frequency estimate ----

#[derive(Clone, Debug)]
pub struct DMatrix<T> {
    columns: usize,
    at: Vec<T>,
}

#[derive(Clone, Debug)]
pub struct DVector<T> {
    at: Vec<T>,
}

impl DMatrix<Complex<f64>> {
    #[inline]
    pub fn zeros(rows: usize, columns: usize) -> Self {
        DMatrix { columns, at: vec![Complex::new(0.0, 0.0); rows * columns] }
    }
}

impl<T> Index<(usize, usize)> for DMatrix<T> {
    type Output = T;
    #[inline]
    fn index(&self, (r, c): (usize, usize)) -> &T {
        &self.at[r * self.columns + c]
    }
}

impl<T> IndexMut<(usize, usize)> for DMatrix<T> {
    #[inline]
    fn index_mut(&mut self, (r, c): (usize, usize)) -> &mut T {
        &mut self.at[r * self.columns + c]
    }
}

impl<T: Copy> DVector<T> {
    #[inline]
    pub fn from_element(length: usize, element: T) -> Self {
        DVector { at: vec![element; length] }
    }
    #[inline]
    pub fn map<F: FnMut(T) -> T>(&self, f: F) -> Self {
        DVector { at: self.at.iter().copied().map(f).collect() }
    }
}

impl DVector<Complex<f64>> {
    /// The root of the sum, over ascending places, of re² + im².
    #[inline]
    pub fn norm(&self) -> f64 {
        let mut sum = self.at[0].norm_sqr();
        for value in &self.at[1..] {
            sum = sum + value.norm_sqr();
        }
        elementary::sqrt(sum)
    }
}

impl<T> Index<usize> for DVector<T> {
    type Output = T;
    #[inline]
    fn index(&self, i: usize) -> &T {
        &self.at[i]
    }
}

impl Mul<&DVector<Complex<f64>>> for &DMatrix<Complex<f64>> {
    type Output = DVector<Complex<f64>>;
    #[inline]
    fn mul(self, v: &DVector<Complex<f64>>) -> DVector<Complex<f64>> {
        let row_times = |row: &[Complex<f64>]| {
            let mut sum = row[0] * v.at[0];
            for j in 1..row.len() {
                sum = sum + row[j] * v.at[j];
            }
            sum
        };
        DVector { at: self.at.chunks(self.columns).map(row_times).collect() }
    }
}

// ---- two states: the clock filter, which the port does not have; it only has to compile ----

#[derive(Clone, Copy, Debug)]
pub struct Vector2<T> {
    at: [T; 2],
}

#[derive(Clone, Copy, Debug)]
pub struct Matrix2<T> {
    at: [[T; 2]; 2],
}

impl Vector2<f64> {
    pub fn new(a: f64, b: f64) -> Self {
        Vector2 { at: [a, b] }
    }
    pub fn zeros() -> Self {
        Self::new(0.0, 0.0)
    }
}

impl Index<usize> for Vector2<f64> {
    type Output = f64;
    fn index(&self, i: usize) -> &f64 {
        &self.at[i]
    }
}

impl Sub for Vector2<f64> {
    type Output = Self;
    fn sub(self, o: Self) -> Self {
        Self::new(self.at[0] - o.at[0], self.at[1] - o.at[1])
    }
}

impl AddAssign for Vector2<f64> {
    fn add_assign(&mut self, o: Self) {
        *self = Self::new(self.at[0] + o.at[0], self.at[1] + o.at[1]);
    }
}

impl Mul<f64> for Vector2<f64> {
    type Output = Self;
    fn mul(self, factor: f64) -> Self {
        Self::new(self.at[0] * factor, self.at[1] * factor)
    }
}

impl Div<f64> for Vector2<f64> {
    type Output = Self;
    fn div(self, divisor: f64) -> Self {
        Self::new(self.at[0] / divisor, self.at[1] / divisor)
    }
}

impl Matrix2<f64> {
    pub fn new(a: f64, b: f64, c: f64, d: f64) -> Self {
        Matrix2 { at: [[a, b], [c, d]] }
    }
    pub fn identity() -> Self {
        Self::new(1.0, 0.0, 0.0, 1.0)
    }
    pub fn transpose(&self) -> Self {
        Self::new(self.at[0][0], self.at[1][0], self.at[0][1], self.at[1][1])
    }
    pub fn column(&self, c: usize) -> Vector2<f64> {
        Vector2::new(self.at[0][c], self.at[1][c])
    }
    pub fn try_inverse(&self) -> Option<Self> {
        let [[a, b], [c, d]] = self.at;
        let determinant = a * d - b * c;
        if determinant == 0.0 {
            return None;
        }
        Some(Self::new(d / determinant, -b / determinant, -c / determinant, a / determinant))
    }
}

impl Index<(usize, usize)> for Matrix2<f64> {
    type Output = f64;
    fn index(&self, (r, c): (usize, usize)) -> &f64 {
        &self.at[r][c]
    }
}

impl IndexMut<(usize, usize)> for Matrix2<f64> {
    fn index_mut(&mut self, (r, c): (usize, usize)) -> &mut f64 {
        &mut self.at[r][c]
    }
}

impl Add for Matrix2<f64> {
    type Output = Self;
    fn add(self, o: Self) -> Self {
        let (m, n) = (self.at, o.at);
        Self::new(m[0][0] + n[0][0], m[0][1] + n[0][1], m[1][0] + n[1][0], m[1][1] + n[1][1])
    }
}

impl Sub for Matrix2<f64> {
    type Output = Self;
    fn sub(self, o: Self) -> Self {
        let (m, n) = (self.at, o.at);
        Self::new(m[0][0] - n[0][0], m[0][1] - n[0][1], m[1][0] - n[1][0], m[1][1] - n[1][1])
    }
}

impl Mul for Matrix2<f64> {
    type Output = Self;
    fn mul(self, o: Self) -> Self {
        let cell = |r: usize, c: usize| self.at[r][0] * o.at[0][c] + self.at[r][1] * o.at[1][c];
        Self::new(cell(0, 0), cell(0, 1), cell(1, 0), cell(1, 1))
    }
}

impl Mul<Vector2<f64>> for Matrix2<f64> {
    type Output = Vector2<f64>;
    fn mul(self, v: Vector2<f64>) -> Vector2<f64> {
        let cell = |r: usize| self.at[r][0] * v.at[0] + self.at[r][1] * v.at[1];
        Vector2::new(cell(0), cell(1))
    }
}
