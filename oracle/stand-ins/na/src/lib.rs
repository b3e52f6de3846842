//! Stands in for `nalgebra`, which is not here: vectors of one, two and three numbers and two matrices.
//! Every operator works component by component, which is certain; what is not certain says so.

mod matrix;
pub mod notes;
mod vector1;
mod vector2;
mod vector3;

pub use matrix::{Matrix2, Matrix3};
pub use vector1::Vector1;
pub use vector2::Vector2;
pub use vector3::Vector3;

/// The zero of a type. Certain.
#[inline(always)]
pub fn zero<T: num::Zero>() -> T {
    T::zero()
}

/// A vector of two from its numbers; the user's files use no other length. Certain.
#[macro_export]
macro_rules! vector {
    ($x: expr, $y: expr $(,)?) => {
        $crate::Vector2::new($x, $y)
    };
}
