//! The crate's own text behind the C signatures of include/umblacet.h, with W8's clamp, and document 01's refusals before
//! it; with the feature `unclamped` without the clamp, with `bare` without both. The text is compiled from where the
//! oracle finds it, and the modules around it are the oracle's.

#[path = "../oracle/src"]
pub mod oracle {
    pub mod crate_s2;
    pub mod number;
}

// The crate's files look for each other here, and for `libm` among the crates beside them.
use crate_s2::missing::remquo;
use crate_s2::{consts, point, r1, r2, r3, s1, s2};
use oracle::{crate_s2, number};
extern crate self as libm;

/// The oracle's doors to the crate's private functions look for the axis here.
pub mod line {
    pub enum Axis {
        U,
        V,
    }
}

use number::{Number, BUFFER_TOO_SHORT, DONE, NOT_FINITE, NO_SUCH_FACE, ZERO};
use r1::interval::Interval;
use r2::{point::Point, rect::Rect};
use r3::vector::Vector;
use s2::edge_clipping::private;

// ---- C's structs

#[derive(Clone, Copy)]
#[repr(C)]
pub struct CPoint {
    x: f64,
    y: f64,
}

#[derive(Clone, Copy)]
#[repr(C)]
pub struct CInterval {
    lo: f64,
    hi: f64,
}

#[derive(Clone, Copy)]
#[repr(C)]
pub struct CRect {
    x: CInterval,
    y: CInterval,
}

#[derive(Clone, Copy)]
#[repr(C)]
pub struct CVector {
    x: f64,
    y: f64,
    z: f64,
}

#[repr(C)]
pub struct CYesNo {
    number: Number,
    yes: bool,
}

#[repr(C)]
pub struct CWalkAnswer {
    number: Number,
    count: usize,
}

impl From<CPoint> for Point {
    fn from(p: CPoint) -> Point {
        Point { x: p.x, y: p.y }
    }
}

impl From<Point> for CPoint {
    fn from(p: Point) -> CPoint {
        CPoint { x: p.x, y: p.y }
    }
}

impl From<CInterval> for Interval {
    fn from(i: CInterval) -> Interval {
        Interval { lo: i.lo, hi: i.hi }
    }
}

impl From<CRect> for Rect {
    fn from(r: CRect) -> Rect {
        Rect { x: r.x.into(), y: r.y.into() }
    }
}

impl From<CVector> for Vector {
    fn from(v: CVector) -> Vector {
        Vector { x: v.x, y: v.y, z: v.z }
    }
}

// ---- refusals, written the way that costs the crate least: no branch between tests, and these tests

const REFUSING: bool = !cfg!(feature = "bare");

fn finite(x: f64) -> bool {
    x - x == 0.0
}

/// 2^500: no float beyond it is cut.
const LIMIT: f64 = f64::from_bits(0x5f30_0000_0000_0000);

fn admitted(x: f64) -> bool {
    x.abs() <= LIMIT
}

/// The limit's square, 2^1000: `x * x <= SQUARE` exactly where x is admitted. A rounded sum of squares is no less than
/// any of them, so that one such comparison admits many floats. It is the first test of an edge and of samples; where
/// it fails each float has its own, by magnitude: two kinds of test cost less than one that is made twice.
const SQUARE: f64 = f64::from_bits(0x7e70_0000_0000_0000);

impl CPoint {
    fn finite(self) -> bool {
        finite(self.x) & finite(self.y)
    }

    fn admitted(self) -> bool {
        admitted(self.x) & admitted(self.y)
    }
}

impl CInterval {
    fn fine(self) -> bool {
        (-LIMIT <= self.lo) & (self.lo <= self.hi) & (self.hi <= LIMIT)
    }
}

impl CRect {
    fn fine(self) -> bool {
        self.x.fine() & self.y.fine()
    }
}

impl CVector {
    fn finite(self) -> bool {
        finite(self.x) & finite(self.y) & finite(self.z)
    }

    fn is_zero(self) -> bool {
        (self.x == 0.0) & (self.y == 0.0) & (self.z == 0.0)
    }
}

// ---- the cut: the crate's text with W8's clamp or, to be compared, without

#[cfg(not(feature = "unclamped"))]
mod clamped;
#[cfg(not(feature = "unclamped"))]
use clamped::clip_edge;
#[cfg(feature = "unclamped")]
use s2::edge_clipping::clip_edge;

// ---- cutting an edge, a whole trace or until an edge is kept: never two of them, since the compiler takes `clip_edge`
// only into a single caller

#[cfg(not(any(feature = "trace", feature = "scan")))]
mod edge;
#[cfg(any(feature = "trace", feature = "scan"))]
mod live;
#[cfg(feature = "scan")]
mod scan;
#[cfg(feature = "trace")]
mod trace;

// ---- the longest clean stretch, in a library of its own: what shares a function with it can change the others' code

#[cfg(feature = "stretch")]
mod stretch;

// ---- the line test

#[no_mangle]
pub extern "C" fn crate_intersects_face(n: CVector) -> CYesNo {
    if REFUSING && !n.finite() {
        return CYesNo { number: NOT_FINITE, yes: false };
    }
    CYesNo { number: DONE, yes: private::intersects_face(n.into()) }
}

// ---- the walk: the body of the crate's loop, under document 01's face test and limit, then the records

/// The target has to be among so many faces.
const FACES: usize = 8;

const RECORD: usize = 40;

fn no_walk(number: Number) -> CWalkAnswer {
    CWalkAnswer { number, count: 0 }
}

/// # Safety
/// `out` has `out_length` bytes.
#[no_mangle]
pub unsafe extern "C" fn crate_walk(
    face: u8,
    a: CPoint,
    target: u8,
    b: CPoint,
    normal: CVector,
    whose: u32,
    out: *mut u8,
    out_length: usize,
) -> CWalkAnswer {
    if REFUSING {
        if face.max(target) > 5 {
            return no_walk(NO_SUCH_FACE);
        }
        if !(a.finite() & b.finite() & normal.finite()) {
            return no_walk(NOT_FINITE);
        }
        if normal.is_zero() {
            return no_walk(ZERO);
        }
    }
    let segments = match private::walk(face, a.into(), target, b.into(), normal.into(), FACES) {
        Ok(segments) => segments,
        Err(number) => return no_walk(number),
    };
    if out_length / RECORD < segments.len() {
        return no_walk(BUFFER_TOO_SHORT);
    }
    let out = std::slice::from_raw_parts_mut(out, out_length);
    for (segment, place) in segments.iter().zip(out.as_chunks_mut().0) {
        *place = record(segment.face, whose, segment.a, segment.b);
    }
    CWalkAnswer { number: DONE, count: segments.len() }
}

/// A face or a number, three zero bytes, whose it is, then a's two floats and b's. The first two are stored apart: put
/// together as one word they take up to three instructions more, and save one only where an edge is missed.
fn record(first: u8, whose: u32, a: Point, b: Point) -> [u8; RECORD] {
    let mut bytes = [0; RECORD];
    bytes[..4].copy_from_slice(&u32::from(first).to_le_bytes());
    bytes[4..8].copy_from_slice(&whose.to_le_bytes());
    for (place, float) in bytes[8..].as_chunks_mut().0.iter_mut().zip([a.x, a.y, b.x, b.y]) {
        *place = float.to_bits().to_le_bytes();
    }
    bytes
}
