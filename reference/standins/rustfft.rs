//! Fourier transforms: the port has none. These only have to compile.

use num_complex::Complex;
use std::marker::PhantomData;

pub struct FftPlanner<T> {
    number: PhantomData<T>,
}

pub struct Plan;

impl FftPlanner<f64> {
    pub fn new() -> Self {
        FftPlanner { number: PhantomData }
    }
    pub fn plan_fft_forward(&mut self, _: usize) -> Plan {
        Plan
    }
    pub fn plan_fft_inverse(&mut self, _: usize) -> Plan {
        Plan
    }
}

impl Plan {
    pub fn process(&self, _: &mut [Complex<f64>]) {
        unreachable!("the port has no Fourier transform")
    }
}
