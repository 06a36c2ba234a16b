//! Rectangles of the plane.

use crate::r1::interval::Interval;
use crate::r2::point::Point;
use crate::{ffi, Refusal};

/// Closed, its sides along the axes. Empty ones are admitted, axis by axis.
#[derive(Clone, Copy, Debug, PartialEq)]
#[repr(C)]
pub struct Rect {
    /// Its x from low to high.
    pub x: Interval,
    /// Its y from low to high.
    pub y: Interval,
}

/// Each is refused with [`Refusal::NotFinite`] for a float that is not finite, and else answered.
impl Rect {
    /// The empty rectangle: 1..0 on both axes.
    pub fn empty() -> Self {
        ffi::umb_rect_empty()
    }

    /// The box of two points; a's coordinate where two compare equal.
    pub fn from_points(a: Point, b: Point) -> Result<Self, Refusal> {
        ffi::umb_rect_from_points(a, b)
    }

    /// Whether x is empty; y is not asked.
    pub fn is_empty(&self) -> Result<bool, Refusal> {
        ffi::umb_rect_is_empty(*self)
    }

    /// The corners from the low one against the clock.
    pub fn vertices(&self) -> Result<[Point; 4], Refusal> {
        ffi::umb_rect_vertices(*self)
    }

    /// The corner at the low x where i is 0, else at the high, and so for y and j.
    pub fn vertex_ij(&self, i: u64, j: u64) -> Result<Point, Refusal> {
        ffi::umb_rect_vertex_ij(*self, i, j)
    }

    /// The low corner.
    pub fn lo(&self) -> Result<Point, Refusal> {
        ffi::umb_rect_lo(*self)
    }

    /// The high corner.
    pub fn hi(&self) -> Result<Point, Refusal> {
        ffi::umb_rect_hi(*self)
    }

    /// Whether p lies in it, its sides included.
    pub fn contains_point(&self, p: &Point) -> Result<bool, Refusal> {
        ffi::umb_rect_contains_point(*self, *p)
    }

    /// Whether the other lies in it, on each axis.
    pub fn contains(&self, other: &Self) -> Result<bool, Refusal> {
        ffi::umb_rect_contains(*self, *other)
    }

    /// Whether the two share a point.
    pub fn intersects(&self, other: &Self) -> Result<bool, Refusal> {
        ffi::umb_rect_intersects(*self, *other)
    }

    /// The union of each axis.
    pub fn union(&self, other: &Self) -> Result<Self, Refusal> {
        ffi::umb_rect_union(*self, *other)
    }

    /// What both contain; [`Rect::empty`] where either axis comes out empty.
    pub fn intersection(&self, other: &Self) -> Result<Self, Refusal> {
        ffi::umb_rect_intersection(*self, *other)
    }
}
