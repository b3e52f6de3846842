//! Stands in for the tangent of a direction: (-y, x), by document 01. The other sign would be as plausible a rule.

pub trait OrthonormalBasis {
    fn orthonormal_vector(&self) -> Self;
}

impl OrthonormalBasis for na::Vector2<f32> {
    #[inline(always)]
    fn orthonormal_vector(&self) -> Self {
        Self::new(-self.y, self.x)
    }
}
