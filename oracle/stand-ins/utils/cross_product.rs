//! Stands in for `gcross`. Only three dimensions use it, which are compiled here and never run.

pub trait CrossProduct<Other> {
    type Result;
    fn gcross(&self, other: Other) -> Self::Result;
}

impl CrossProduct<Self> for na::Vector3<f32> {
    type Result = Self;

    #[inline(always)]
    fn gcross(&self, other: Self) -> Self {
        Self::new(
            self.y * other.z - self.z * other.y,
            self.z * other.x - self.x * other.z,
            self.x * other.y - self.y * other.x,
        )
    }
}
