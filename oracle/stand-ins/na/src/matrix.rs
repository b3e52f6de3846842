//! Two matrices that utils/mod.rs names in functions that nothing here calls.

#[derive(Copy, Clone, Debug, Default, PartialEq)]
pub struct Matrix2<T> {
    pub rows: [[T; 2]; 2],
}

#[derive(Copy, Clone, Debug, Default, PartialEq)]
pub struct Matrix3<T> {
    pub rows: [[T; 3]; 3],
}

impl<T> Matrix3<T> {
    /// From its numbers, row by row.
    #[allow(clippy::too_many_arguments)]
    pub fn new(a: T, b: T, c: T, d: T, e: T, f: T, g: T, h: T, i: T) -> Self {
        Self { rows: [[a, b, c], [d, e, f], [g, h, i]] }
    }
}
