//! The refusal that every module shares. Which floats are admitted is the module's own: every finite one, but in module
//! 4 fewer (see `clip.rs`).

use crate::number::{Answer, NOT_FINITE};
use crate::r1::interval::Interval;
use crate::r2::{point::Point, rect::Rect};
use crate::r3::vector::Vector;

/// A value made of floats.
pub trait Floats {
    fn all(&self, admitted: fn(f64) -> bool) -> bool;
}

/// Refuses where a float among the values is a NaN or an infinity.
pub fn admit_finite(values: &[&dyn Floats]) -> Answer<()> {
    admit_floats(values, f64::is_finite)
}

pub fn admit_floats(values: &[&dyn Floats], admitted: fn(f64) -> bool) -> Answer<()> {
    if values.iter().all(|value| value.all(admitted)) {
        Ok(())
    } else {
        Err(NOT_FINITE)
    }
}

impl Floats for f64 {
    fn all(&self, admitted: fn(f64) -> bool) -> bool {
        admitted(*self)
    }
}

impl Floats for Point {
    fn all(&self, admitted: fn(f64) -> bool) -> bool {
        admitted(self.x) && admitted(self.y)
    }
}

impl Floats for Interval {
    fn all(&self, admitted: fn(f64) -> bool) -> bool {
        admitted(self.lo) && admitted(self.hi)
    }
}

impl Floats for Rect {
    fn all(&self, admitted: fn(f64) -> bool) -> bool {
        self.x.all(admitted) && self.y.all(admitted)
    }
}

impl Floats for Vector {
    fn all(&self, admitted: fn(f64) -> bool) -> bool {
        admitted(self.x) && admitted(self.y) && admitted(self.z)
    }
}
