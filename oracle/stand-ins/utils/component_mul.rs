//! Stands in for the product by component. Certain.

pub trait ComponentMul {
    fn component_mul(&self, other: &Self) -> Self;
}

impl ComponentMul for na::Vector2<f32> {
    #[inline(always)]
    fn component_mul(&self, other: &Self) -> Self {
        Self::new(self.x * other.x, self.y * other.y)
    }
}

impl ComponentMul for na::Vector3<f32> {
    #[inline(always)]
    fn component_mul(&self, other: &Self) -> Self {
        Self::new(self.x * other.x, self.y * other.y, self.z * other.z)
    }
}
