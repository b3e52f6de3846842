//! A vector of one number: the tangent's impulse in two dimensions.

use num::Zero;
use std::ops::{Add, Index, IndexMut, Sub};

#[derive(Copy, Clone, Debug, Default, PartialEq)]
pub struct Vector1<T> {
    pub x: T,
}

impl<T> Vector1<T> {
    #[inline(always)]
    pub fn new(x: T) -> Self {
        Self { x }
    }
}

impl<T: Zero> Zero for Vector1<T> {
    #[inline(always)]
    fn zero() -> Self {
        Self::new(T::zero())
    }
}

impl<T: Add<Output = T>> Add for Vector1<T> {
    type Output = Self;

    #[inline(always)]
    fn add(self, other: Self) -> Self {
        Self::new(self.x + other.x)
    }
}

impl<T: Sub<Output = T>> Sub for Vector1<T> {
    type Output = Self;

    #[inline(always)]
    fn sub(self, other: Self) -> Self {
        Self::new(self.x - other.x)
    }
}

impl<T> Index<usize> for Vector1<T> {
    type Output = T;

    #[inline(always)]
    fn index(&self, at: usize) -> &T {
        assert!(at == 0);
        &self.x
    }
}

impl<T> IndexMut<usize> for Vector1<T> {
    #[inline(always)]
    fn index_mut(&mut self, at: usize) -> &mut T {
        assert!(at == 0);
        &mut self.x
    }
}
