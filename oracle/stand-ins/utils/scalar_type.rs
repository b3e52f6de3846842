//! Stands in for the scalar's types: what a direction, an angular velocity and an inertia are. Certain for one lane of
//! f32 in two dimensions: a vector of two, a number, a number.

use super::{AngularInertiaOps, ComponentMul, DotProduct, SimdRealCopy};
use std::fmt::Debug;
use std::ops::{Add, AddAssign, Mul, Sub, SubAssign};

pub trait ScalarType: SimdRealCopy {
    type Vector: Copy
        + Debug
        + Default
        + Add<Output = Self::Vector>
        + AddAssign
        + Mul<Self, Output = Self::Vector>
        + ComponentMul
        + DotProduct<Self::Vector, Result = Self>;
    type AngVector: Copy
        + Debug
        + Default
        + Add<Output = Self::AngVector>
        + Sub<Output = Self::AngVector>
        + AddAssign
        + SubAssign
        + Mul<Self, Output = Self::AngVector>;
    type AngInertia: Copy + Debug + Default + AngularInertiaOps<Self::AngVector>;
}

#[cfg(feature = "dim2")]
impl ScalarType for f32 {
    type Vector = na::Vector2<f32>;
    type AngVector = f32;
    type AngInertia = f32;
}

#[cfg(feature = "dim3")]
impl ScalarType for f32 {
    type Vector = na::Vector3<f32>;
    type AngVector = na::Vector3<f32>;
    type AngInertia = na::Matrix3<f32>;
}
