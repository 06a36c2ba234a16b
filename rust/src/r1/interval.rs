//! Closed intervals of the line.

use crate::{ffi, Refusal};

/// From lo to hi; empty where lo > hi. An empty one holds nothing, lies in every interval and adds nothing to a union.
#[derive(Clone, Copy, Debug, PartialEq)]
#[repr(C)]
pub struct Interval {
    /// The low end.
    pub lo: f64,
    /// The high end.
    pub hi: f64,
}

/// Each is refused with [`Refusal::NotFinite`] for a float that is not finite, and else answered.
impl Interval {
    /// Any two floats; it is the questions asked of it that refuse some.
    pub const fn new(lo: f64, hi: f64) -> Self {
        Interval { lo, hi }
    }

    /// From the lesser to the greater, p1 where the two compare equal.
    pub fn from_point_pair(p1: f64, p2: f64) -> Result<Self, Refusal> {
        ffi::umb_interval_from_point_pair(p1, p2)
    }

    /// Whether lo > hi.
    pub fn is_empty(&self) -> Result<bool, Refusal> {
        ffi::umb_interval_is_empty(*self)
    }

    /// Whether p lies in it, its ends included.
    pub fn contains(&self, p: f64) -> Result<bool, Refusal> {
        ffi::umb_interval_contains(*self, p)
    }

    /// Whether all of the other lies in it.
    pub fn contains_interval(&self, other: &Self) -> Result<bool, Refusal> {
        ffi::umb_interval_contains_interval(*self, *other)
    }

    /// Whether the two share a number.
    pub fn intersects(&self, other: &Self) -> Result<bool, Refusal> {
        ffi::umb_interval_intersects(*self, *other)
    }

    /// The least interval that contains both; its own end where two compare equal.
    pub fn union(&self, other: &Self) -> Result<Self, Refusal> {
        ffi::umb_interval_union(*self, *other)
    }

    /// What both contain; its own end where two compare equal.
    pub fn intersection(&self, other: &Self) -> Result<Self, Refusal> {
        ffi::umb_interval_intersection(*self, *other)
    }
}
