//! A vector of two numbers: the pair's impulses, and in two dimensions a direction or a velocity.

use num::Zero;
use simba::simd::{SimdBool, SimdRealField, SimdValue};
use std::ops::{Add, AddAssign, Div, Index, IndexMut, Mul, Neg, Sub, SubAssign};

#[derive(Copy, Clone, Debug, Default, PartialEq)]
pub struct Vector2<T> {
    pub x: T,
    pub y: T,
}

impl<T> Vector2<T> {
    #[inline(always)]
    pub fn new(x: T, y: T) -> Self {
        Self { x, y }
    }
}

impl Vector2<f32> {
    /// Named in a function of utils/mod.rs that nothing here calls.
    pub fn length(self) -> f32 {
        (self.x * self.x + self.y * self.y).sqrt()
    }
}

impl<T: SimdRealField + Copy> Vector2<T> {
    /// Shortened to `max` where it is longer. Only three dimensions call it. The rounding is a guess.
    #[inline(always)]
    pub fn simd_cap_magnitude(self, max: T) -> Self {
        let length = (self.x * self.x + self.y * self.y).simd_sqrt();
        let scaled = self * (max / length);
        let long = length.simd_gt(max);
        Self::new(scaled.x.select(long, self.x), scaled.y.select(long, self.y))
    }
}

/// Certain. The condition is noted: see `notes`.
impl<T: SimdValue> SimdValue for Vector2<T> {
    type Element = Vector2<T::Element>;
    type SimdBool = T::SimdBool;

    #[inline(always)]
    fn splat(val: Self::Element) -> Self {
        Self::new(T::splat(val.x), T::splat(val.y))
    }

    #[inline(always)]
    fn select(self, cond: T::SimdBool, other: Self) -> Self {
        crate::notes::note(cond.any());
        Self::new(self.x.select(cond, other.x), self.y.select(cond, other.y))
    }
}

impl<T: Zero> Zero for Vector2<T> {
    #[inline(always)]
    fn zero() -> Self {
        Self::new(T::zero(), T::zero())
    }
}

impl<T: Add<Output = T>> Add for Vector2<T> {
    type Output = Self;

    #[inline(always)]
    fn add(self, other: Self) -> Self {
        Self::new(self.x + other.x, self.y + other.y)
    }
}

impl<T: Sub<Output = T>> Sub for Vector2<T> {
    type Output = Self;

    #[inline(always)]
    fn sub(self, other: Self) -> Self {
        Self::new(self.x - other.x, self.y - other.y)
    }
}

impl<T: AddAssign> AddAssign for Vector2<T> {
    #[inline(always)]
    fn add_assign(&mut self, other: Self) {
        self.x += other.x;
        self.y += other.y;
    }
}

impl<T: SubAssign> SubAssign for Vector2<T> {
    #[inline(always)]
    fn sub_assign(&mut self, other: Self) {
        self.x -= other.x;
        self.y -= other.y;
    }
}

impl<T: Neg<Output = T>> Neg for Vector2<T> {
    type Output = Self;

    #[inline(always)]
    fn neg(self) -> Self {
        Self::new(-self.x, -self.y)
    }
}

impl<T: Mul<Output = T> + Copy> Mul<T> for Vector2<T> {
    type Output = Self;

    #[inline(always)]
    fn mul(self, by: T) -> Self {
        Self::new(self.x * by, self.y * by)
    }
}

impl<T: Div<Output = T> + Copy> Div<T> for Vector2<T> {
    type Output = Self;

    #[inline(always)]
    fn div(self, by: T) -> Self {
        Self::new(self.x / by, self.y / by)
    }
}

impl<T> Index<usize> for Vector2<T> {
    type Output = T;

    #[inline(always)]
    fn index(&self, at: usize) -> &T {
        [&self.x, &self.y][at]
    }
}

impl<T> IndexMut<usize> for Vector2<T> {
    #[inline(always)]
    fn index_mut(&mut self, at: usize) -> &mut T {
        [&mut self.x, &mut self.y][at]
    }
}
