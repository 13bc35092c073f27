//! Complex numbers with the textbook arithmetic, one rounding for each operation.
//! `check` compares it with Debian's num-complex where that is installed.

use std::ops::{Add, AddAssign, Div, Mul, MulAssign, Neg, Sub, SubAssign};

#[repr(C)]
#[derive(Clone, Copy, Debug, Default, PartialEq)]
pub struct Complex<T> {
    pub re: T,
    pub im: T,
}

/// The real numbers that a component can be.
pub trait Real:
    Copy + Add<Output = Self> + Sub<Output = Self> + Mul<Output = Self> + Div<Output = Self> + Neg<Output = Self>
{
    fn hypotenuse(self, other: Self) -> Self;
}

impl Real for f32 {
    #[inline]
    fn hypotenuse(self, other: f32) -> f32 {
        elementary::hypotf(self, other)
    }
}

impl Real for f64 {
    #[inline]
    fn hypotenuse(self, other: f64) -> f64 {
        elementary::hypot(self, other)
    }
}

impl<T> Complex<T> {
    #[inline]
    pub const fn new(re: T, im: T) -> Self {
        Complex { re, im }
    }
}

impl<T: Real> Complex<T> {
    #[inline]
    pub fn conj(&self) -> Self {
        Complex::new(self.re, -self.im)
    }
    #[inline]
    pub fn norm_sqr(&self) -> T {
        self.re * self.re + self.im * self.im
    }
    #[inline]
    pub fn norm(&self) -> T {
        self.re.hypotenuse(self.im)
    }
}

impl<T: Real> Add for Complex<T> {
    type Output = Self;
    #[inline]
    fn add(self, o: Self) -> Self {
        Complex::new(self.re + o.re, self.im + o.im)
    }
}

impl<T: Real> Sub for Complex<T> {
    type Output = Self;
    #[inline]
    fn sub(self, o: Self) -> Self {
        Complex::new(self.re - o.re, self.im - o.im)
    }
}

impl<T: Real> Mul for Complex<T> {
    type Output = Self;
    #[inline]
    fn mul(self, o: Self) -> Self {
        Complex::new(self.re * o.re - self.im * o.im, self.re * o.im + self.im * o.re)
    }
}

impl<T: Real> Mul<T> for Complex<T> {
    type Output = Self;
    #[inline]
    fn mul(self, factor: T) -> Self {
        Complex::new(self.re * factor, self.im * factor)
    }
}

impl<T: Real> Div<T> for Complex<T> {
    type Output = Self;
    #[inline]
    fn div(self, divisor: T) -> Self {
        Complex::new(self.re / divisor, self.im / divisor)
    }
}

impl<T: Real> AddAssign for Complex<T> {
    #[inline]
    fn add_assign(&mut self, o: Self) {
        *self = *self + o;
    }
}

impl<T: Real> SubAssign for Complex<T> {
    #[inline]
    fn sub_assign(&mut self, o: Self) {
        *self = *self - o;
    }
}

impl<T: Real> MulAssign<T> for Complex<T> {
    #[inline]
    fn mul_assign(&mut self, factor: T) {
        *self = *self * factor;
    }
}
