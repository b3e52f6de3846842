//! Stands in for `num`: the two numbers every scalar has. Certain.

pub trait Zero {
    fn zero() -> Self;
}

pub trait One {
    fn one() -> Self;
}

impl Zero for f32 {
    #[inline(always)]
    fn zero() -> Self {
        0.0
    }
}

impl One for f32 {
    #[inline(always)]
    fn one() -> Self {
        1.0
    }
}
