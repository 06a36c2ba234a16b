//! Document 01's instances P1 to P14, and those named beside them.

use umblacet::r1::interval::Interval;
use umblacet::r2::{point::Point, rect::Rect};
use umblacet::r3::vector::Vector;
use umblacet::s2::edge_clipping::*;
use umblacet::s2::stuv::*;
use umblacet::Refusal;

fn at(x: f64, y: f64) -> Point {
    Point { x, y }
}

fn window(x: [f64; 2], y: [f64; 2]) -> Rect {
    Rect { x: Interval::new(x[0], x[1]), y: Interval::new(y[0], y[1]) }
}

/// The window of P1, P2 and P5.
fn plot() -> Rect {
    window([1.0, 3.0], [0.0, 2.0])
}

#[test]
fn p1_to_p3_kept() {
    assert_eq!(clip_edge(at(0.0, 0.0), at(4.0, 2.0), plot()), Ok((at(1.0, 0.5), at(3.0, 1.5))));
    assert_eq!(clip_edge(at(0.0, 2.0), at(4.0, 0.0), plot()), Ok((at(1.0, 1.5), at(3.0, 0.5))));
    let corner = window([1.0, 2.0], [1.0, 2.0]);
    assert_eq!(clip_edge(at(0.0, 0.0), at(1.0, 1.0), corner), Ok((at(1.0, 1.0), at(1.0, 1.0))));
}

#[test]
fn p4_missed() {
    let beside = window([0.0, 0.25], [0.75, 1.0]);
    assert_eq!(clip_edge(at(0.0, 0.0), at(1.0, 1.0), beside), Err(Refusal::Missed));
    assert_eq!(edge_intersects_rect(at(0.0, 0.0), at(1.0, 1.0), &beside), Ok(false));
}

#[test]
fn p5_dead_sample() {
    assert_eq!(clip_edge(at(0.0, 0.0), at(4.0, f64::NAN), plot()), Err(Refusal::NotFinite));
}

/// As change request W5 has it.
#[test]
fn p6_beyond_the_limit() {
    let huge = 2f64.powi(1023);
    let unit = window([0.0, 1.0], [0.0, 1.0]);
    assert_eq!(clip_edge(at(-huge, 0.0), at(huge, 1.0), unit), Err(Refusal::NotFinite));
}

#[test]
fn p7_and_p8_faces() {
    assert_eq!(xyz_to_face_uv(&Vector::new(1.0, 1.0, 1.0)), Ok((0, 1.0, 1.0)));
    assert_eq!(xyz_to_face_uv(&Vector::new(-1.0, 1.0, 1.0)), Ok((3, -1.0, -1.0)));
    assert_eq!(face(&Vector::new(0.0, 0.0, 0.0)), Err(Refusal::Zero));
}

#[test]
fn p9_to_p12_lines() {
    assert_eq!(intersects_face(Vector::new(1.0, 1.0, 2.0)), Ok(true));
    assert_eq!(intersects_face(Vector::new(1.0, 1.0, 2.0 + 2f64.powi(-51))), Ok(false));
    assert_eq!(intersects_opposite_edges(Vector::new(3.0, 1.0, 2.0)), Ok(true));
    assert_eq!(sum_equal(1.0, 2f64.powi(-53), 1.0), Ok(false));
    let ones = Vector::new(1.0, 1.0, 1.0);
    assert_eq!(exit_axis(ones), Ok(Axis::V));
    assert_eq!(exit_point(ones, Axis::V), Ok(at(0.0, -1.0)));
}

const LEVEL: Vector = Vector::new(0.0, 0.0, 1.0);

#[test]
fn p13_walk() {
    let found = segments(0, at(0.0, 0.0), 3, at(0.0, 0.0), LEVEL);
    let segment = |face, a, b| FaceSegment { face, a, b };
    assert_eq!(
        found,
        Ok(vec![
            segment(0, at(0.0, 0.0), at(1.0, 0.0)),
            segment(1, at(-1.0, 0.0), at(1.0, 0.0)),
            segment(3, at(0.0, -1.0), at(0.0, 0.0)),
        ])
    );
    let mut room = [0; 120];
    assert_eq!(walk(0, at(0.0, 0.0), 3, at(0.0, 0.0), LEVEL, 0, &mut room), Ok(3));
    assert_eq!(walk(0, at(0.0, 0.0), 3, at(0.0, 0.0), LEVEL, 0, &mut room[1..]), Err(Refusal::ShortBuffer));
}

#[test]
fn p14_no_arrival() {
    assert_eq!(segments(0, at(0.0, 0.0), 2, at(0.0, 0.0), LEVEL), Err(Refusal::Unfinished));
}

#[test]
fn beside_them() {
    let line = Vector::new(1.0, 0.0, 0.0);
    assert_eq!(segments(0, at(0.0, 0.0), 1, at(0.0, 0.0), line), Err(Refusal::OffFace));
    assert_eq!(uvw_face(5, 2, 1), Ok(5));
    assert_eq!(uvw_face(6, 2, 1), Err(Refusal::BadFace));
    let point = window([2.0, 2.0], [1.0, 1.0]);
    assert_eq!(clip_edge(at(0.0, 0.0), at(4.0, 2.0), point), Ok((at(2.0, 1.0), at(2.0, 1.0))));
}
