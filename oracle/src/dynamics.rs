//! Stands in for the parts of the crate's `dynamics` that the user's routines name: a solver's velocities, and where they
//! are kept. The user's files themselves are taken in here.

pub mod solver {
    use crate::math::{Real, SIMD_WIDTH, SimdReal};
    use crate::utils::ScalarType;

    /// The velocity of a body, laid out as the crate's own is. Certain.
    #[repr(C, align(16))]
    #[derive(Copy, Clone, Debug, Default)]
    pub struct SolverVel<T: ScalarType> {
        pub linear: T::Vector,
        pub angular: T::AngVector,
    }

    /// The velocities of the bodies. As in the crate, one out of range reads as zero and is not written. Certain.
    #[derive(Clone, Debug, Default)]
    pub struct SolverBodies {
        pub vels: Vec<SolverVel<Real>>,
    }

    impl SolverBodies {
        #[inline(always)]
        pub fn gather_vels(&self, ids: [u32; SIMD_WIDTH]) -> SolverVel<SimdReal> {
            self.vels.get(ids[0] as usize).copied().unwrap_or_default()
        }

        #[inline(always)]
        pub fn scatter_vels(&mut self, ids: [u32; SIMD_WIDTH], vels: SolverVel<SimdReal>) {
            if let Some(vel) = self.vels.get_mut(ids[0] as usize) {
                *vel = vels;
            }
        }
    }

    /// Which manifold a contact came from: no routine here reads it.
    #[derive(Copy, Clone, Debug, Default)]
    pub struct ContactRef;

    #[allow(dead_code, unused_imports)]
    pub(crate) mod contact_constraint {
        include!(concat!(env!("OUT_DIR"), "/oracle_files.rs"));
    }
}
