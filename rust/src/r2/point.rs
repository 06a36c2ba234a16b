//! Points of the plane.

use crate::{ffi, Refusal};
use std::ops::{Add, Mul, Sub};

/// A point of the plane, or (u, v) of a face.
#[derive(Clone, Copy, Debug, PartialEq)]
#[repr(C)]
pub struct Point {
    /// The first coordinate.
    pub x: f64,
    /// The second coordinate.
    pub y: f64,
}

/// Each is refused with [`Refusal::NotFinite`] for a float that is not finite, and else answered, as the operators are.
impl Point {
    /// A point of two finite floats.
    pub fn new(x: f64, y: f64) -> Result<Self, Refusal> {
        ffi::umb_point_new(x, y)
    }

    /// A quarter turn against the clock.
    pub fn ortho(&self) -> Result<Self, Refusal> {
        ffi::umb_point_ortho(*self)
    }

    /// x by x and y by y, added.
    pub fn dot(&self, other: &Self) -> Result<f64, Refusal> {
        ffi::umb_point_dot(*self, *other)
    }

    /// The z of the two's cross product.
    pub fn cross(&self, other: &Self) -> Result<f64, Refusal> {
        ffi::umb_point_cross(*self, *other)
    }
}

impl Add for Point {
    type Output = Result<Point, Refusal>;
    fn add(self, other: Point) -> Self::Output {
        ffi::umb_point_add(self, other)
    }
}

impl Sub for Point {
    type Output = Result<Point, Refusal>;
    fn sub(self, other: Point) -> Self::Output {
        ffi::umb_point_sub(self, other)
    }
}

impl Mul<f64> for Point {
    type Output = Result<Point, Refusal>;
    fn mul(self, factor: f64) -> Self::Output {
        ffi::umb_point_mul(self, factor)
    }
}
