//! Document 01's module 6, the line tests: its refusals in order, then the crate, checked against whole numbers.

use crate::agree::{components, must_hold};
use crate::cube::{admit_face, admit_nonzero};
use crate::finite::admit_finite;
use crate::number::{Answer, ZERO};
use crate::r2::point::Point;
use crate::r3::vector::Vector;
use crate::s2::edge_clipping::private;
use crate::whole;
use crate::words::{Argument, Arguments, Shown};

#[derive(Clone, Copy, PartialEq)]
pub enum Axis {
    U,
    V,
}

impl Argument for Axis {
    fn take(arguments: &mut Arguments) -> Axis {
        if arguments.take() {
            Axis::V
        } else {
            Axis::U
        }
    }
}

impl Shown for Axis {
    fn push_to(&self, words: &mut Vec<u64>) {
        (*self == Axis::V).push_to(words);
    }
}

pub fn sum_equal(u: f64, v: f64, w: f64) -> Answer<bool> {
    admit_finite(&[&u, &v, &w])?;
    let equal = private::sum_equal(u, v, w);
    must_hold(equal == whole::sum_equal(u, v, w), "sum_equal is exact", &[u, v, w]);
    Ok(equal)
}

pub fn intersects_face(normal: Vector) -> Answer<bool> {
    admit_finite(&[&normal])?;
    let meets = private::intersects_face(normal);
    must_hold(meets == whole::intersects_face(normal), "intersects_face is exact", &components(normal));
    Ok(meets)
}

pub fn intersects_opposite_edges(normal: Vector) -> Answer<bool> {
    admit_finite(&[&normal])?;
    let passes = private::intersects_opposite_edges(normal);
    let exact = whole::intersects_opposite_edges(normal);
    must_hold(passes == exact, "intersects_opposite_edges is exact", &components(normal));
    Ok(passes)
}

pub fn exit_axis(normal: Vector) -> Answer<Axis> {
    admit_finite(&[&normal])?;
    admit_nonzero(normal)?;
    Ok(private::exit_axis(normal))
}

pub fn exit_point(normal: Vector, axis: Axis) -> Answer<Point> {
    admit_finite(&[&normal])?;
    admit_nonzero(normal)?;
    let divisor = match axis {
        Axis::U => normal.y,
        Axis::V => normal.x,
    };
    if divisor == 0.0 {
        return Err(ZERO);
    }
    Ok(private::exit_point(normal, axis))
}

pub fn next_face(face: u64, exit: Point, axis: Axis, normal: Vector, target: u64) -> Answer<u8> {
    let (face, target) = (admit_face(face)?, admit_face(target)?);
    admit_finite(&[&exit, &normal])?;
    admit_nonzero(normal)?;
    Ok(private::next_face(face, exit, axis, normal, target))
}
