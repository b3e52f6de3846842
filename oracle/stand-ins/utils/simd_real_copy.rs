//! Stands in for "a real that is copied". Certain: its numbers are f32.

use crate::math::Real;
use simba::simd::SimdRealField;
use std::fmt::Debug;

pub trait SimdRealCopy: SimdRealField<Element = Real> + Copy + Debug + Default {}

impl SimdRealCopy for f32 {}
