//! Stands in for the crate's `math`: the numbers, and vectors and lanes of this build, which is one lane of f32.

pub type Real = f32;
pub type SimdReal = f32;
pub const SIMD_WIDTH: usize = 1;

#[cfg(feature = "dim2")]
mod dim {
    pub const DIM: usize = 2;
    pub const MAX_MANIFOLD_POINTS: usize = 2;
    pub type TangentImpulse<N> = na::Vector1<N>;
    pub type SimdVector<N> = na::Vector2<N>;
    pub type Matrix = na::Matrix2<f32>;
}

#[cfg(feature = "dim3")]
mod dim {
    pub const DIM: usize = 3;
    pub const MAX_MANIFOLD_POINTS: usize = 4;
    pub type TangentImpulse<N> = na::Vector2<N>;
    pub type SimdVector<N> = na::Vector3<N>;

    /// A matrix by its columns, as utils/mod.rs reads it.
    #[derive(Copy, Clone, Debug, Default)]
    pub struct Matrix {
        pub x_axis: na::Vector3<f32>,
        pub y_axis: na::Vector3<f32>,
        pub z_axis: na::Vector3<f32>,
    }
}

pub use dim::*;
pub type Vector = SimdVector<Real>;
