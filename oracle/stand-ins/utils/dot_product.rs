//! Stands in for `gdot`. Of numbers it is the product: certain. Of vectors the products are added left to right, by
//! document 01; a body that fused or reordered would round differently.

pub trait DotProduct<Other> {
    type Result;
    fn gdot(&self, other: Other) -> Self::Result;
}

/// Exported by utils/mod.rs; nothing here uses it.
pub trait SimdLength {}

impl DotProduct<f32> for f32 {
    type Result = f32;

    #[inline(always)]
    fn gdot(&self, other: f32) -> f32 {
        *self * other
    }
}

impl DotProduct<Self> for na::Vector2<f32> {
    type Result = f32;

    #[inline(always)]
    fn gdot(&self, other: Self) -> f32 {
        self.x * other.x + self.y * other.y
    }
}

impl DotProduct<Self> for na::Vector3<f32> {
    type Result = f32;

    #[inline(always)]
    fn gdot(&self, other: Self) -> f32 {
        self.x * other.x + self.y * other.y + self.z * other.z
    }
}
