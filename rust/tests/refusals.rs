//! Each refusal through the safe functions, and what the walk leaves in a buffer.

use std::error::Error;
use umblacet::r1::interval::Interval;
use umblacet::r2::{point::Point, rect::Rect};
use umblacet::r3::vector::Vector;
use umblacet::s2::edge_clipping::*;
use umblacet::s2::stuv::face_xyz_to_uv;
use umblacet::Refusal;

const ORIGIN: Point = Point { x: 0.0, y: 0.0 };
const LEVEL: Vector = Vector::new(0.0, 0.0, 1.0);
const UNTOUCHED: u8 = 0xa5;
const WHOSE: u32 = 0x89ab_cdef;

/// Walks from face to target, both at the origin, in a buffer of this length.
fn walked(face: u8, target: u8, to: Point, normal: Vector, length: usize) -> (Result<usize, Refusal>, Vec<u8>) {
    let mut bytes = vec![UNTOUCHED; length];
    (walk(face, ORIGIN, target, to, normal, WHOSE, &mut bytes), bytes)
}

#[test]
fn a_refused_walk_leaves_its_buffer() {
    let dead = Point { x: f64::INFINITY, y: 0.0 };
    let zero = Vector::new(0.0, -0.0, 0.0);
    let off = Vector::new(1.0, 0.0, 0.0);
    for (refusal, (answer, bytes)) in [
        (Refusal::BadFace, walked(6, 3, dead, zero, 120)),
        (Refusal::BadFace, walked(0, 255, ORIGIN, LEVEL, 120)),
        (Refusal::NotFinite, walked(0, 3, dead, zero, 120)),
        (Refusal::Zero, walked(0, 3, ORIGIN, zero, 120)),
        (Refusal::OffFace, walked(0, 1, ORIGIN, off, 120)),
        (Refusal::Unfinished, walked(0, 2, ORIGIN, LEVEL, 400)),
        (Refusal::ShortBuffer, walked(0, 3, ORIGIN, LEVEL, 119)),
        (Refusal::ShortBuffer, walked(0, 0, ORIGIN, LEVEL, 0)),
    ] {
        assert_eq!(answer, Err(refusal));
        assert!(bytes.iter().all(|byte| *byte == UNTOUCHED), "{refusal}");
    }
}

#[test]
fn a_walk_leaves_the_bytes_after_its_records() {
    let (answer, bytes) = walked(0, 3, ORIGIN, LEVEL, 130);
    assert_eq!(answer, Ok(3));
    assert_eq!(bytes[120..], [UNTOUCHED; 10]);
    assert_eq!([bytes[0], bytes[40], bytes[80]], [0, 1, 3]);
    for record in bytes[..120].chunks(40) {
        assert_eq!(record[1..8], [0, 0, 0, 0xef, 0xcd, 0xab, 0x89], "three zeros, and whose it is");
    }
}

#[test]
fn edges_and_windows() {
    let axis = |lo, hi| Interval { lo, hi };
    let window = |x| Rect { x, y: axis(0.0, 2.0) };
    let (b, dead) = (Point { x: 4.0, y: 2.0 }, Point { x: 4.0, y: f64::NAN });
    assert_eq!(clip_edge(ORIGIN, b, window(axis(3.0, 1.0))), Err(Refusal::BadWindow));
    assert_eq!(clip_edge(ORIGIN, b, window(axis(1.0, f64::INFINITY))), Err(Refusal::BadWindow));
    assert_eq!(clip_edge(ORIGIN, dead, window(axis(3.0, 1.0))), Err(Refusal::NotFinite), "before the window");
    assert_eq!(clip_edge(ORIGIN, b, window(axis(5.0, 6.0))), Err(Refusal::Missed));
}

/// The greatest floats that cutting admits, and the least and the greatest that it does not.
#[test]
fn the_limit_of_cutting() {
    let limit = 2f64.powi(500);
    let far = |x| Point { x, y: 0.0 };
    let wide = |x: Interval| Rect { x, y: Interval::new(-limit, limit) };
    let whole = wide(Interval::new(-limit, limit));
    for x in [limit, -limit, limit.next_down()] {
        assert_eq!(clip_edge(ORIGIN, far(x), whole), Ok((ORIGIN, far(x))));
        assert_eq!(edge_intersects_rect(ORIGIN, far(x), &whole), Ok(true));
        assert_eq!(interpolate(x, 0.0, x, 0.0, x), Ok(x));
        assert_eq!(clip_edge(far(x), far(x), wide(Interval::new(x, x))), Ok((far(x), far(x))));
    }
    for x in [limit.next_up(), -limit.next_up(), f64::MAX, -f64::MAX] {
        let bound = Interval::new(0.0, 1.0);
        let side = Interval::new(x.min(0.0), x.max(0.0));
        assert_eq!(clip_edge(ORIGIN, far(x), wide(side)), Err(Refusal::NotFinite), "before the window");
        assert_eq!(clip_edge(ORIGIN, ORIGIN, wide(side)), Err(Refusal::BadWindow));
        assert_eq!(edge_intersects_rect(far(x), ORIGIN, &whole), Err(Refusal::NotFinite));
        assert_eq!(edge_intersects_rect(ORIGIN, ORIGIN, &wide(side)), Err(Refusal::BadWindow));
        assert_eq!(clip_edge_bound(ORIGIN, ORIGIN, whole, wide(side)), Err(Refusal::NotFinite));
        assert_eq!(clip_bound_axis(0.0, 0.0, bound, x, 0.0, bound, false, bound), Err(Refusal::NotFinite));
        assert_eq!(clip_bound_axis(0.0, 0.0, bound, 0.0, 0.0, bound, false, side), Err(Refusal::BadWindow));
        assert_eq!(update_endpoint(bound, false, x), Err(Refusal::NotFinite));
        assert_eq!(interpolate(x, 0.0, 1.0, 0.0, 1.0), Err(Refusal::NotFinite));
        assert_eq!(Point::new(x, x), Ok(Point { x, y: x }), "only cutting has a limit");
    }
    assert_eq!(interpolate(1.0, 0.0, f64::from_bits(1), 0.0, 1.0), Ok(f64::INFINITY), "beyond the ends");
}

#[test]
fn faces_and_points() {
    assert_eq!(face_xyz_to_uv(0, &Vector::new(-1.0, 0.0, 0.0)), Err(Refusal::Missed));
    assert_eq!(face_xyz_to_uv(6, &Vector::new(f64::NAN, 0.0, 0.0)), Err(Refusal::BadFace), "before the vector");
    assert_eq!(Point::new(f64::NAN, 0.0), Err(Refusal::NotFinite));
    assert_eq!(Point { x: f64::MAX, y: 0.0 } * 2.0, Ok(Point { x: f64::INFINITY, y: 0.0 }), "overflow is an answer");
}

#[test]
fn a_refusal_is_an_error() {
    let error: Box<dyn Error> = Refusal::BadWindow.into();
    assert_eq!(error.to_string(), "the window has a side that is not finite or beyond 2^500, or lo > hi");
    assert_eq!(Refusal::BadWindow.number(), 3);
}
