//! Stands in for `simba`, which is not here: the traits of lanes, for one lane of f32.
//! How certain each body is stands beside it.

pub mod simd {
    use num::{One, Zero};
    use std::ops::{Add, BitAnd, Div, Mul, Neg, Sub};

    /// What a comparison of lanes gives. Certain: for one lane it is a `bool`.
    pub trait SimdBool: Copy + BitAnd<Output = Self> {
        fn any(self) -> bool;
    }

    impl SimdBool for bool {
        #[inline(always)]
        fn any(self) -> bool {
            self
        }
    }

    /// Certain: `splat` repeats a number over the lanes, `select` keeps `self` where the condition holds.
    pub trait SimdValue: Sized {
        type Element;
        type SimdBool: SimdBool;
        fn splat(val: Self::Element) -> Self;
        fn select(self, cond: Self::SimdBool, other: Self) -> Self;
    }

    impl SimdValue for f32 {
        type Element = f32;
        type SimdBool = bool;

        #[inline(always)]
        fn splat(val: f32) -> f32 {
            val
        }

        #[inline(always)]
        fn select(self, cond: bool, other: f32) -> f32 {
            if cond { self } else { other }
        }
    }

    /// Comparisons: certain, they are those of f32, false where a side is NaN.
    pub trait SimdPartialOrd: SimdValue {
        fn simd_gt(self, other: Self) -> Self::SimdBool;
        fn simd_lt(self, other: Self) -> Self::SimdBool;
        fn simd_ge(self, other: Self) -> Self::SimdBool;
        fn simd_max(self, other: Self) -> Self;
        fn simd_clamp(self, min: Self, max: Self) -> Self;
    }

    impl SimdPartialOrd for f32 {
        #[inline(always)]
        fn simd_gt(self, other: f32) -> bool {
            self > other
        }

        #[inline(always)]
        fn simd_lt(self, other: f32) -> bool {
            self < other
        }

        #[inline(always)]
        fn simd_ge(self, other: f32) -> bool {
            self >= other
        }

        /// Certain for numbers that differ. Not known: which of two zeros stays, and what a NaN gives that stands on
        /// the left, the only side the user's files have it on. The standard library leaves the zeros open for
        /// `f32::max`, which gives the other number for a NaN. With `max-left` the left zero stays, as a `>=` would
        /// have it; with `max-nan` the NaN does, as in a max that passes NaNs on.
        #[inline(always)]
        fn simd_max(self, other: f32) -> f32 {
            if cfg!(feature = "max-nan") && self.is_nan() {
                self
            } else if cfg!(feature = "max-left") {
                if self >= other { self } else { other }
            } else {
                self.max(other)
            }
        }

        /// Document 01's rule: below the lower end, else above the upper end, else kept, NaN too. Likely: it is what
        /// a clamp by comparisons does. The ends are not exchanged where they are the wrong way round.
        #[inline(always)]
        fn simd_clamp(self, min: f32, max: f32) -> f32 {
            if self < min {
                min
            } else if self > max {
                max
            } else {
                self
            }
        }
    }

    /// A field of reals. Only `simd_sqrt` is called, and that only in three dimensions; the others are named in
    /// functions of utils/mod.rs that nothing here calls.
    pub trait SimdRealField:
        SimdPartialOrd
        + Zero
        + One
        + Add<Output = Self>
        + Sub<Output = Self>
        + Mul<Output = Self>
        + Div<Output = Self>
        + Neg<Output = Self>
    {
        fn simd_sqrt(self) -> Self;
        fn simd_abs(self) -> Self;
        fn simd_signum(self) -> Self;
        fn simd_two_pi() -> Self;
    }

    impl SimdRealField for f32 {
        #[inline(always)]
        fn simd_sqrt(self) -> f32 {
            self.sqrt()
        }

        #[inline(always)]
        fn simd_abs(self) -> f32 {
            self.abs()
        }

        #[inline(always)]
        fn simd_signum(self) -> f32 {
            self.signum()
        }

        #[inline(always)]
        fn simd_two_pi() -> f32 {
            std::f32::consts::TAU
        }
    }
}
