//! Stands in for an inertia's action on an angular velocity. Only three dimensions use it, which are compiled here and
//! never run.

pub trait AngularInertiaOps<Ang> {
    fn transform_vector(&self, by: Ang) -> Ang;
}

impl AngularInertiaOps<f32> for f32 {
    #[inline(always)]
    fn transform_vector(&self, by: f32) -> f32 {
        *self * by
    }
}

impl AngularInertiaOps<na::Vector3<f32>> for na::Matrix3<f32> {
    #[inline(always)]
    fn transform_vector(&self, by: na::Vector3<f32>) -> na::Vector3<f32> {
        let row = |at: usize| {
            let [x, y, z] = self.rows[at];
            x * by.x + y * by.y + z * by.z
        };
        na::Vector3::new(row(0), row(1), row(2))
    }
}
