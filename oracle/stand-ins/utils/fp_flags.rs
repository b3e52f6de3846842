//! Stands in for the switch of floating-point exceptions, which changes no number. Certain.

pub struct DisableFloatingPointExceptionsFlags;

impl DisableFloatingPointExceptionsFlags {
    #[inline(always)]
    pub fn disable_floating_point_exceptions() -> Self {
        Self
    }
}
