//! Doors to the private functions of the crate's edge clipping, under their own names and with nothing added.
//! The crate wraps a normal as a point of the sphere and has an axis that is private: both stay in here.

// The parent's silence is for the crate's text, not for ours.
#![warn(unused)]

use super::FaceSegment;
use crate::line::Axis;
use crate::number::{Answer, FACE_MISSED, TARGET_NOT_REACHED};
use crate::point::Point;
use crate::r1::interval::Interval;
use crate::r2::{self, rect::Rect};
use crate::r3::vector::Vector;

#[cfg(test)]
pub const EDGE_CLIP_ERROR_UV_COORD: f64 = super::EDGE_CLIP_ERROR_UV_COORD;
#[cfg(test)]
pub const INTERSECT_RECT_ERROR_UV_DIST: f64 = super::INTERSECT_RECT_ERROR_UV_DIST;

/// The functions that take values from a line, as one text has them: the crate's, or that of `clamped.rs`.
#[allow(clippy::type_complexity)]
pub struct Cut {
    pub interpolate: fn(f64, f64, f64, f64, f64) -> f64,
    pub clip_bound_axis: fn(f64, f64, Interval, f64, f64, Interval, bool, Interval) -> (Interval, Interval, bool),
    pub clip_edge_bound: fn(r2::point::Point, r2::point::Point, Rect, Rect) -> (Rect, bool),
    pub clip_edge: fn(r2::point::Point, r2::point::Point, Rect) -> (r2::point::Point, r2::point::Point, bool),
}

pub const CRATES: Cut = Cut {
    interpolate: super::interpolate,
    clip_bound_axis: super::clip_bound_axis,
    clip_edge_bound: super::clip_edge_bound,
    clip_edge: super::clip_edge,
};

pub fn update_endpoint(bound: Interval, high: bool, value: f64) -> (Interval, bool) {
    super::update_endpoint(bound, high, value)
}

pub fn edge_intersects_rect(a: r2::point::Point, b: r2::point::Point, window: &Rect) -> bool {
    super::edge_intersects_rect(a, b, window)
}

pub fn sum_equal(u: f64, v: f64, w: f64) -> bool {
    super::sum_equal(u, v, w)
}

pub fn intersects_face(normal: Vector) -> bool {
    Point(normal).intersects_face()
}

pub fn intersects_opposite_edges(normal: Vector) -> bool {
    Point(normal).intersects_opposite_edges()
}

pub fn exit_axis(normal: Vector) -> Axis {
    match Point(normal).exit_axis() {
        super::Axis::AxisU => Axis::U,
        super::Axis::AxisV => Axis::V,
    }
}

pub fn exit_point(normal: Vector, axis: Axis) -> r2::point::Point {
    Point(normal).exit_point(private_axis(axis))
}

pub fn next_face(face: u8, exit: r2::point::Point, axis: Axis, normal: Vector, target: u8) -> u8 {
    super::next_face(face, exit, private_axis(axis), Point(normal), target)
}

fn private_axis(axis: Axis) -> super::Axis {
    match axis {
        Axis::U => super::Axis::AxisU,
        Axis::V => super::Axis::AxisV,
    }
}

/// The crate's walk over at most `limit` faces, with document 01's face test and limit before each turn.
pub fn walk(
    face: u8,
    a: r2::point::Point,
    target: u8,
    b: r2::point::Point,
    normal: Vector,
    limit: usize,
) -> Answer<Vec<FaceSegment>> {
    follow(face, a, target, b, normal, |face, closed| {
        if !super::stuv::face_xyz_to_uvw(face, &Point(normal)).intersects_face() {
            Err(FACE_MISSED)
        } else if closed + 1 == limit {
            Err(TARGET_NOT_REACHED)
        } else {
            Ok(())
        }
    })
}

/// The crate's loop, from point `a` on the first face to point `b` on the target: a turn is the body of its own loop,
/// cut out of its text. The loop may never end, so `before` is asked ahead of each turn, with the face and the count of
/// segments that are closed, and its number ends the walk.
pub fn follow(
    mut face: u8,
    a: r2::point::Point,
    target: u8,
    b: r2::point::Point,
    normal: Vector,
    mut before: impl FnMut(u8, usize) -> Answer<()>,
) -> Answer<Vec<FaceSegment>> {
    // The names that the body uses.
    use super::{next_face, stuv, PointUVW};
    let (ab, b_face) = (Point(normal), target);
    let mut segment = FaceSegment { face, a, b };
    let mut segments = Vec::new();
    while face != b_face {
        before(face, segments.len())?;
        include!(concat!(env!("OUT_DIR"), "/walk_body.rs"))
    }
    segment.b = b;
    segments.push(segment);
    Ok(segments)
}
