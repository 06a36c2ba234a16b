//! Vectors of space.

/// A vector, or the normal of a line in a face's u, v, w.
#[derive(Clone, Copy, Debug, PartialEq)]
#[repr(C)]
pub struct Vector {
    /// The first coordinate, or u.
    pub x: f64,
    /// The second coordinate, or v.
    pub y: f64,
    /// The third coordinate, or w.
    pub z: f64,
}

impl Vector {
    /// Any three floats; it is the questions asked of it that refuse some.
    pub const fn new(x: f64, y: f64, z: f64) -> Self {
        Vector { x, y, z }
    }
}
