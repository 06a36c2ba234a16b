//! What document 01 promises of the walk, checked on each walk that is asked. Whether the line meets a face is decided
//! in whole numbers here, never by the crate.

use crate::agree::{components, must_hold};
use crate::number::{Answer, Number, DONE, FACE_MISSED, TARGET_NOT_REACHED};
use crate::r2::point::Point;
use crate::r3::vector::Vector;
use crate::s2::edge_clipping::{private, FaceSegment};
use crate::s2::stuv;
use crate::whole;

/// Far beyond the 6 faces after which a walk can only repeat itself.
const LONG: usize = 64;

pub fn check(face: u8, a: Point, target: u8, b: Point, normal: Vector, answer: &Answer<Vec<FaceSegment>>) {
    let claim = |holds: bool, what: &str| {
        must_hold(holds, &format!("the walk from face {face} to {target}: {what}"), &components(normal));
    };
    let number = answer.as_ref().map_or_else(|number| *number, |_| DONE);
    claim(number == expected(face, target, normal), "6 where the first face is missed, 7 where the target is");
    match answer {
        Ok(segments) => check_segments(segments, face, a, target, b, normal, &claim),
        Err(TARGET_NOT_REACHED) => {
            let longer = private::walk(face, a, target, b, normal, LONG);
            claim(longer == Err(TARGET_NOT_REACHED), "7 only where no longer walk arrives");
        }
        Err(_) => {}
    }
}

fn expected(face: u8, target: u8, normal: Vector) -> Number {
    if face == target {
        DONE
    } else if !meets(face, normal) {
        FACE_MISSED
    } else if !meets(target, normal) {
        TARGET_NOT_REACHED
    } else {
        DONE
    }
}

/// The test needs no signs, so a face's own coordinate and the other two will do.
fn meets(face: u8, normal: Vector) -> bool {
    let [x, y, z] = components(normal);
    whole::intersects_face(match face % 3 {
        0 => Vector::new(y, z, x),
        1 => Vector::new(z, x, y),
        _ => Vector::new(x, y, z),
    })
}

fn check_segments(
    segments: &[FaceSegment],
    face: u8,
    a: Point,
    target: u8,
    b: Point,
    normal: Vector,
    claim: &impl Fn(bool, &str),
) {
    claim((1..=6).contains(&segments.len()), "one to six segments");
    let (Some(first), Some(last)) = (segments.first(), segments.last()) else { return };
    claim(first.face == face && bits(first.a) == bits(a), "it starts where it was told to");
    claim(last.face == target && bits(last.b) == bits(b), "it ends where it was told to");
    for (place, pair) in segments.windows(2).enumerate() {
        let (here, next) = (pair[0], pair[1]);
        claim(meets(here.face, normal) && meets(next.face, normal), "the line meets each face");
        claim(segments[..=place].iter().all(|earlier| earlier.face != next.face), "no face comes twice");
        claim(here.face % 3 != next.face % 3, "the next face is a neighbour");
        claim(on_edge(here.b), "a face is left at an edge");
        claim(on_edge(next.a), "a face is entered at an edge");
        let left = stuv::face_uv_to_xyz(here.face, here.b.x, here.b.y);
        let entered = stuv::face_uv_to_xyz(next.face, next.a.x, next.a.y);
        claim(left == entered, "a face is entered where the one before was left");
    }
}

/// One coordinate is 1 or -1 and the other between them.
fn on_edge(point: Point) -> bool {
    let (u, v) = (point.x.abs(), point.y.abs());
    u <= 1.0 && v <= 1.0 && (u == 1.0 || v == 1.0)
}

fn bits(point: Point) -> [u64; 2] {
    [point.x.to_bits(), point.y.to_bits()]
}
