//! Times: the port has none. These only have to compile.

use std::marker::PhantomData;

#[derive(Clone, Copy, Debug)]
pub struct Utc;

#[derive(Clone, Copy, Debug)]
pub struct DateTime<Zone> {
    seconds: i64,
    zone: PhantomData<Zone>,
}

pub struct Span {
    seconds: i64,
}

impl<Zone> std::ops::Sub for DateTime<Zone> {
    type Output = Span;
    fn sub(self, o: Self) -> Span {
        Span { seconds: self.seconds - o.seconds }
    }
}

impl Span {
    pub fn num_seconds(&self) -> i64 {
        self.seconds
    }
}
