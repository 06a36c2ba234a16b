//! The entries about the cube, the line tests and the walk.

use super::asked;
use crate::line::Axis;
use crate::number::{Answer, TARGET_NOT_REACHED};
use crate::point;
use crate::r2::point::Point;
use crate::r3::vector::Vector;
use crate::s2::edge_clipping::{private, FaceSegment};
use crate::s2::stuv;
use crate::words::Arguments;

/// Far beyond the six faces.
const TURNS: usize = 100;

/// Operation 60's arguments: the faces left, and the crate's segments if it arrives.
fn walk(a: &mut Arguments) -> (Vec<u8>, Answer<Vec<FaceSegment>>) {
    let (face, start, target, end, normal) = (number(a), a.take(), number(a), a.take(), a.take());
    let mut left = Vec::new();
    let segments = private::follow(face, start, target, end, normal, |face, closed| {
        left.push(face);
        if closed < TURNS {
            Ok(())
        } else {
            Err(TARGET_NOT_REACHED)
        }
    });
    (left, segments)
}

fn panics<T>(ask: impl FnOnce() -> T + std::panic::UnwindSafe) -> bool {
    std::panic::catch_unwind(ask).is_err()
}

fn number(a: &mut Arguments) -> u8 {
    a.take::<u64>() as u8
}

#[test]
fn d13_the_zero_vector_has_a_face() {
    let [mut vector, mut a] = asked("D13", [40, 41]);
    assert_eq!(stuv::face(&vector.take()), 0);
    let (face, u, v) = stuv::xyz_to_face_uv(&a.take());
    assert!(face == 0 && u.is_nan() && v.is_nan());
}

#[test]
fn d14_a_number_that_is_no_face_stops_the_program() {
    let [mut point, mut face, mut axis, mut direction] = asked("D14", [43, 45, 45, 45]);
    let (no_face, u, v) = (number(&mut point), point.take(), point.take());
    assert!(panics(|| stuv::face_uv_to_xyz(no_face, u, v)));
    for a in [&mut face, &mut axis, &mut direction] {
        let (face, axis, direction) = (number(a), number(a), number(a));
        assert!(panics(|| stuv::uvw_face(face, axis, direction)));
    }
}

#[test]
fn d15_the_exact_tests_with_an_infinity() {
    let [mut normal, mut sum] = asked("D15", [51, 50]);
    assert!(!private::intersects_face(normal.take()));
    assert!(!private::sum_equal(sum.take(), sum.take(), sum.take()));
}

#[test]
fn d16_a_sign_bit_that_shows_only_off_the_face() {
    let [mut minus, mut plus] = asked("D16", [53, 53]);
    assert!(private::exit_axis(minus.take()) == Axis::U);
    assert!(private::exit_axis(plus.take()) == Axis::V);
}

#[test]
fn d17_the_exit_of_a_line_that_misses_the_face() {
    for mut a in asked("D17", [54, 54]) {
        let (normal, axis): (Vector, Axis) = (a.take(), a.take());
        assert!(!private::intersects_face(normal) && private::exit_axis(normal) == axis);
        let exit = private::exit_point(normal, axis);
        assert_eq!([exit.x, exit.y], [f64::NEG_INFINITY, -1.0]);
    }
}

/// For a fixed normal and target the face alone decides the next one, so a face that comes again comes for ever.
#[test]
fn d20_a_walk_that_never_ends() {
    let [mut a] = asked("D20", [60]);
    let (left, segments) = walk(&mut a);
    assert!(segments == Err(TARGET_NOT_REACHED));
    for (turn, face) in left.iter().enumerate() {
        assert_eq!(*face, [0, 1, 3, 4][turn % 4], "turn {turn}");
    }
}

#[test]
fn d21_a_walk_from_a_face_that_the_line_misses() {
    let [mut a] = asked("D21", [60]);
    let (left, segments) = walk(&mut a);
    assert_eq!(left, [0, 5]);
    let exit: Point = segments.expect("it arrives")[0].b;
    assert_eq!([exit.x, exit.y], [f64::NEG_INFINITY, -1.0]);
}

#[test]
fn d26_a_line_through_a_corner() {
    let [mut a] = asked("D26", [52]);
    let normal: Vector = a.take();
    let corner = Vector { x: -1.0, y: -1.0, z: 1.0 };
    assert!(normal.dot(&corner) == 0.0 && !private::intersects_opposite_edges(normal));
}

#[test]
fn d27_the_zero_normal() {
    let [mut meets, mut exit, mut walked] = asked("D27", [51, 53, 60]);
    assert!(private::intersects_face(meets.take()));
    let normal: Vector = exit.take();
    assert!(private::intersects_opposite_edges(normal) && private::exit_axis(normal) == Axis::V);
    let exit = private::exit_point(normal, Axis::V);
    assert!(exit.x.is_nan() && exit.y == -1.0);
    let (left, segments) = walk(&mut walked);
    assert!(left == [0] && segments.expect("it arrives")[0].b.x.is_nan());
}

#[test]
fn d28_the_exit_on_the_other_axis() {
    let [mut a] = asked("D28", [54]);
    let (normal, axis): (Vector, Axis) = (a.take(), a.take());
    assert!(private::intersects_face(normal) && private::exit_axis(normal) != axis);
    let exit = private::exit_point(normal, axis);
    assert_eq!([exit.x, exit.y], [1.0, -2.0]);
}

#[test]
fn d29_a_nan_is_on_both_sides() {
    for mut a in asked("D29", [42, 42]) {
        let (face, vector) = (number(&mut a), point::Point(a.take()));
        let (u, v) = stuv::face_xyz_to_uv(face, &vector).expect("it is on this side");
        assert!(u.is_nan() && v.is_nan());
    }
}

/// The products round, so that the point passes for one on the line.
#[test]
fn d31_a_corner_that_is_none() {
    let [mut a] = asked("D31", [55]);
    let (face, exit, axis, normal) = (number(&mut a), a.take::<Point>(), a.take(), a.take::<Vector>());
    let target = number(&mut a);
    assert!(exit.x * normal.x == 1.0 && exit.x.mul_add(normal.x, -1.0) > 0.0, "0.1 is more than a tenth");
    assert_eq!(private::next_face(face, exit, axis, normal, target), target);
    assert_eq!(private::next_face(face, exit, axis, normal, 5), 1, "the neighbour over the axis");
}
