//! Cutting an edge to a window; a line on a face of the cube, by its normal in the face's u, v, w; the walk from face
//! to face. "Refused with" names refusals in the order in which they are tried. Cutting admits floats up to 2^500 in
//! magnitude: one beyond it is refused as one that is not finite.

use crate::ffi::{self, Pair};
use crate::r1::interval::Interval;
use crate::r2::{point::Point, rect::Rect};
use crate::r3::vector::Vector;
use crate::Refusal;

/// The part of the edge from a to b that lies in the window: its two points lie in the window and in the edge's own
/// box. Where a or b lies in the window the edge is kept and that end comes back as it was, so an edge inside the
/// window does (where a and b compare equal on an axis, both with a's coordinate). A point that was cut lies exactly on
/// a side of the window that its own end is beyond. Of coordinates of a and b in -1..1 it is within 2^-50 of the exact
/// line through them, along one of the axes, as long as they are at least 2^-500 apart on the axis that is cut (where a
/// corner of the window is kept, on both); of coordinates up to 2^k, for a whole k from 0 to 500, within 2^(k-50).
/// Refused with NotFinite, BadWindow, Missed.
pub fn clip_edge(a: Point, b: Point, clip: Rect) -> Result<(Point, Point), Refusal> {
    ffi::umb_clip_edge(a, b, clip).map(|Pair(a, b)| (a, b))
}

/// Whether the edge meets the window, by a test that rounds and need not agree with [`clip_edge`]. Refused with
/// NotFinite, BadWindow.
pub fn edge_intersects_rect(a: Point, b: Point, r: &Rect) -> Result<bool, Refusal> {
    ffi::umb_edge_intersects_rect(a, b, *r)
}

/// What is left in the window of the bound of some part of the edge. Refused with NotFinite, BadWindow, Missed.
pub fn clip_edge_bound(a: Point, b: Point, clip: Rect, bound: Rect) -> Result<Rect, Refusal> {
    ffi::umb_clip_edge_bound(a, b, clip, bound)
}

/// The same on one axis of the line from (a0, a1) to (b0, b1): bound0 is cut to the window and bound1 with it. Refused
/// with NotFinite, BadWindow, Missed.
#[allow(clippy::too_many_arguments)] // as the crate s2 has it
pub fn clip_bound_axis(
    a0: f64,
    b0: f64,
    bound0: Interval,
    a1: f64,
    b1: f64,
    bound1: Interval,
    neg_slope: bool,
    clip: Interval,
) -> Result<(Interval, Interval), Refusal> {
    ffi::umb_clip_bound_axis(a0, b0, bound0, a1, b1, bound1, neg_slope, clip).map(|Pair(this, other)| (this, other))
}

/// The bound with its high end, or its low, moved to the value; never wider. Refused with NotFinite, Missed where
/// nothing is left.
pub fn update_endpoint(bound: Interval, high_endpoint: bool, value: f64) -> Result<Interval, Refusal> {
    ffi::umb_update_endpoint(bound, high_endpoint, value)
}

/// The value at x on the line through (a, a1) and (b, b1). For x from a to b, in either order, it lies between a1 and
/// b1, and is a1 at a and b1 at b, as numbers (where a = b, a1); and where a and b are at least 2^-500 apart it is
/// within 2^-50 of the exact line for a1 and b1 in -1..1, and within 2^(k-50) for a1 and b1 up to 2^k, k being whole
/// and from 0 to 500. Beyond a and b it may be infinite; it is no NaN. Refused with NotFinite.
pub fn interpolate(x: f64, a: f64, b: f64, a1: f64, b1: f64) -> Result<f64, Refusal> {
    ffi::umb_interpolate(x, a, b, a1, b1)
}

/// An axis of a face, by the library's number.
#[derive(Clone, Copy, Debug, Eq, PartialEq)]
#[repr(u8)]
pub enum Axis {
    /// The first.
    U = 0,
    /// The second.
    V = 1,
}

/// Whether u + v = w, exactly. Refused with NotFinite.
pub fn sum_equal(u: f64, v: f64, w: f64) -> Result<bool, Refusal> {
    ffi::umb_sum_equal(u, v, w)
}

/// Whether the line meets the face, exactly; the zero normal's does. Refused with NotFinite.
pub fn intersects_face(n: Vector) -> Result<bool, Refusal> {
    ffi::umb_intersects_face(n)
}

/// Whether the line passes opposite edges of the face, exactly; the zero normal's does. Refused with NotFinite.
pub fn intersects_opposite_edges(n: Vector) -> Result<bool, Refusal> {
    ffi::umb_intersects_opposite_edges(n)
}

/// The axis over which the line leaves the face. Refused with NotFinite, Zero.
pub fn exit_axis(n: Vector) -> Result<Axis, Refusal> {
    ffi::umb_exit_axis(n).map(|axis| if axis == Axis::U as u8 { Axis::U } else { Axis::V })
}

/// Where it leaves over an axis. Refused with NotFinite, Zero where the divisor is.
pub fn exit_point(n: Vector, axis: Axis) -> Result<Point, Refusal> {
    ffi::umb_exit_point(n, axis as u8)
}

/// The face that the line enters there; the target where it passes exactly through a corner that both share. Refused
/// with BadFace for face or target, NotFinite, Zero.
pub fn next_face(face: u8, exit: Point, axis: Axis, n: Vector, target_face: u8) -> Result<u8, Refusal> {
    ffi::umb_next_face(face, exit, axis as u8, n, target_face)
}

/// A part of a line on one face.
#[derive(Clone, Copy, Debug, PartialEq)]
pub struct FaceSegment {
    /// The face.
    pub face: u8,
    /// Where it begins, in the face's (u, v).
    pub a: Point,
    /// Where it ends.
    pub b: Point,
}

/// A segment in a lent buffer, as five words.
type Record = [[u8; 8]; 5];

/// A walk that is done has no more segments.
const MOST: usize = 6;

/// Walks the line with this normal (in x, y, z) from the point a of a face to the point b of the target and writes
/// [a record](crate::trace#the-record) for each segment; gives their count, 6 at the most. Refused with BadFace for
/// face or target, NotFinite, Zero, OffFace or Unfinished as the walk finds them, ShortBuffer.
pub fn walk(
    face: u8,
    a: Point,
    target: u8,
    b: Point,
    normal: Vector,
    whose: u32,
    out: &mut [u8],
) -> Result<usize, Refusal> {
    ffi::umb_walk(face, a, target, b, normal, whose, out)
}

/// The segments of that walk, which say nothing of whose they are. Refused as the walk is, but never for want of room.
pub fn segments(face: u8, a: Point, target: u8, b: Point, normal: Vector) -> Result<Vec<FaceSegment>, Refusal> {
    let mut records: [Record; MOST] = Default::default();
    let count = walk(face, a, target, b, normal, 0, records.as_flattened_mut().as_flattened_mut())?;
    Ok(records.iter().take(count).map(segment).collect())
}

fn segment(record: &Record) -> FaceSegment {
    let [[face, ..], au, av, bu, bv] = *record;
    let point = |u, v| Point { x: f64::from_le_bytes(u), y: f64::from_le_bytes(v) };
    FaceSegment { face, a: point(au, av), b: point(bu, bv) }
}
