//! The user's contact routines, compiled as they stand in the folder beside the repository, over small stand-ins of our
//! own for what that folder lacks. `Tables` runs them over bodies and contacts.
//!
//! Features: `dim2` or `dim3` (the latter is only compiled), `block-solver`, `f32`, `notes` (the pair's branch numbers).

mod dynamics;
mod math;

#[allow(dead_code, unused_imports)]
mod utils_of_the_user {
    include!(concat!(env!("OUT_DIR"), "/utils_file.rs"));
}
pub(crate) use utils_of_the_user::utils;

/// What the driver's text, cut out of its file, names.
pub(crate) mod driver_needs {
    #![allow(unused_imports)]
    pub(crate) use crate::dynamics::solver::contact_constraint::contact_constraint_element::*;
    pub(crate) use crate::dynamics::solver::{ContactRef, SolverBodies};
    pub(crate) use crate::math::{MAX_MANIFOLD_POINTS, SIMD_WIDTH, SimdReal};
    pub(crate) use crate::utils::{CrossProduct, OrthonormalBasis, ScalarType};
}

#[cfg(all(feature = "dim2", feature = "block-solver"))]
mod tables;
#[cfg(all(feature = "dim2", feature = "block-solver"))]
pub use tables::{Contact, FLOOR, Normal, Tables, Tangent};
