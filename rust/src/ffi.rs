//! The functions of `include/umblacet.h`, each under a safe one of its name. All unsafe code is here.

use crate::r1::interval::Interval;
use crate::r2::{point::Point, rect::Rect};
use crate::r3::vector::Vector;
use crate::trace::Counts;
use crate::Refusal;

/// The number, and what stands beside it: the header's answers, but for one. Floats in a struct of their own lie where
/// they would lie without it.
#[repr(C)]
pub(crate) struct Numbered<T> {
    number: u8,
    value: T,
}

#[repr(C)]
pub(crate) struct Pair<T>(pub T, pub T);

#[repr(C)]
pub(crate) struct NumberedFaceUv {
    number: u8,
    face: u8,
    u: f64,
    v: f64,
}

pub(crate) trait Answer {
    type Value;
    fn result(self) -> Result<Self::Value, Refusal>;
}

impl<T> Answer for Numbered<T> {
    type Value = T;
    fn result(self) -> Result<T, Refusal> {
        Refusal::unless_done(self.number, self.value)
    }
}

impl Answer for NumberedFaceUv {
    type Value = (u8, f64, f64);
    fn result(self) -> Result<(u8, f64, f64), Refusal> {
        Refusal::unless_done(self.number, (self.face, self.u, self.v))
    }
}

/// Declares the archive's functions, and over each the safe one.
macro_rules! entries {
    ($($name:ident($($argument:ident: $type:ty),*) -> $answer:ty;)*) => {
        mod archive {
            use super::*;
            extern "C" {
                $(pub(super) fn $name($($argument: $type),*) -> $answer;)*
            }
        }
        $(
            #[allow(clippy::too_many_arguments)]
            pub(crate) fn $name($($argument: $type),*) -> Result<<$answer as Answer>::Value, Refusal> {
                // SAFETY: it is declared as in the header, takes what it is handed by value, and answers every input.
                unsafe { archive::$name($($argument),*) }.result()
            }
        )*
    };
}

// A point of a face is a Point here: u is its x, v its y. A normal has u, v, w as x, y, z.
entries! {
    umb_point_new(x: f64, y: f64) -> Numbered<Point>;
    umb_point_add(p: Point, q: Point) -> Numbered<Point>;
    umb_point_sub(p: Point, q: Point) -> Numbered<Point>;
    umb_point_mul(p: Point, m: f64) -> Numbered<Point>;
    umb_point_ortho(p: Point) -> Numbered<Point>;
    umb_point_dot(p: Point, q: Point) -> Numbered<f64>;
    umb_point_cross(p: Point, q: Point) -> Numbered<f64>;

    umb_interval_is_empty(i: Interval) -> Numbered<bool>;
    umb_interval_contains(i: Interval, x: f64) -> Numbered<bool>;
    umb_interval_contains_interval(i: Interval, j: Interval) -> Numbered<bool>;
    umb_interval_intersects(i: Interval, j: Interval) -> Numbered<bool>;
    umb_interval_union(i: Interval, j: Interval) -> Numbered<Interval>;
    umb_interval_intersection(i: Interval, j: Interval) -> Numbered<Interval>;
    umb_interval_from_point_pair(a: f64, b: f64) -> Numbered<Interval>;

    umb_rect_from_points(a: Point, b: Point) -> Numbered<Rect>;
    umb_rect_vertices(r: Rect) -> Numbered<[Point; 4]>;
    umb_rect_vertex_ij(r: Rect, i: u64, j: u64) -> Numbered<Point>;
    umb_rect_lo(r: Rect) -> Numbered<Point>;
    umb_rect_hi(r: Rect) -> Numbered<Point>;
    umb_rect_is_empty(r: Rect) -> Numbered<bool>;
    umb_rect_contains_point(r: Rect, p: Point) -> Numbered<bool>;
    umb_rect_contains(r: Rect, q: Rect) -> Numbered<bool>;
    umb_rect_intersects(r: Rect, q: Rect) -> Numbered<bool>;
    umb_rect_union(r: Rect, q: Rect) -> Numbered<Rect>;
    umb_rect_intersection(r: Rect, q: Rect) -> Numbered<Rect>;

    umb_clip_edge(a: Point, b: Point, window: Rect) -> Numbered<Pair<Point>>;
    umb_edge_intersects_rect(a: Point, b: Point, window: Rect) -> Numbered<bool>;
    umb_clip_edge_bound(a: Point, b: Point, window: Rect, bound: Rect) -> Numbered<Rect>;
    umb_clip_bound_axis(
        a0: f64, b0: f64, bound0: Interval, a1: f64, b1: f64, bound1: Interval, neg_slope: bool, window: Interval
    ) -> Numbered<Pair<Interval>>;
    umb_update_endpoint(bound: Interval, high_endpoint: bool, value: f64) -> Numbered<Interval>;
    umb_interpolate(x: f64, a: f64, b: f64, a1: f64, b1: f64) -> Numbered<f64>;

    umb_face(r: Vector) -> Numbered<u8>;
    umb_xyz_to_face_uv(r: Vector) -> NumberedFaceUv;
    umb_face_xyz_to_uv(face: u8, r: Vector) -> Numbered<Point>;
    umb_face_uv_to_xyz(face: u8, u: f64, v: f64) -> Numbered<Vector>;
    umb_face_xyz_to_uvw(face: u8, r: Vector) -> Numbered<Vector>;
    umb_uvw_face(face: u8, axis: u8, direction: u8) -> Numbered<u8>;
    umb_u_axis(face: u8) -> Numbered<Vector>;
    umb_v_axis(face: u8) -> Numbered<Vector>;
    umb_unorm(face: u8, u: f64) -> Numbered<Vector>;
    umb_vnorm(face: u8, v: f64) -> Numbered<Vector>;

    umb_sum_equal(u: f64, v: f64, w: f64) -> Numbered<bool>;
    umb_intersects_face(n: Vector) -> Numbered<bool>;
    umb_intersects_opposite_edges(n: Vector) -> Numbered<bool>;
    umb_exit_axis(n: Vector) -> Numbered<u8>;
    umb_exit_point(n: Vector, axis: u8) -> Numbered<Point>;
    umb_next_face(face: u8, exit: Point, axis: u8, n: Vector, target: u8) -> Numbered<u8>;
}

pub(crate) fn umb_rect_empty() -> Rect {
    extern "C" {
        fn umb_rect_empty() -> Rect;
    }
    // SAFETY: it is declared as in the header.
    unsafe { umb_rect_empty() }
}

pub(crate) fn umb_walk(
    face: u8,
    a: Point,
    target: u8,
    b: Point,
    normal: Vector,
    whose: u32,
    out: &mut [u8],
) -> Result<usize, Refusal> {
    extern "C" {
        fn umb_walk(
            face: u8,
            a: Point,
            target: u8,
            b: Point,
            normal: Vector,
            whose: u32,
            out: *mut u8,
            out_length: usize,
        ) -> Numbered<usize>;
    }
    // SAFETY: it is declared as in the header, and is lent a slice's bytes: not null, as many as it is told, and no one
    // else's until it is back.
    unsafe { umb_walk(face, a, target, b, normal, whose, out.as_mut_ptr(), out.len()) }.result()
}

/// Declares the archive's functions of a whole trace, and over each the safe one.
macro_rules! traces {
    ($($name:ident)*) => {$(
        pub(crate) fn $name(samples: &[f64], window: Rect, whose: u32, out: &mut [u8]) -> Result<Counts, Refusal> {
            extern "C" {
                fn $name(
                    samples: *const f64,
                    samples_length: usize,
                    window: Rect,
                    whose: u32,
                    out: *mut u8,
                    out_length: usize,
                ) -> Numbered<Counts>;
            }
            // SAFETY: it is declared as in the header, and is lent two slices that do not overlap: not null, as long as
            // it is told; the samples are only read, and the bytes are no one else's until it is back.
            unsafe { $name(samples.as_ptr(), samples.len(), window, whose, out.as_mut_ptr(), out.len()) }.result()
        }
    )*};
}

traces! { umb_cut_trace umb_cut_trace_with_touches }

/// The first sample, and how many.
pub(crate) fn umb_longest_clean(samples: &[f64], window: Rect) -> Result<Pair<usize>, Refusal> {
    extern "C" {
        fn umb_longest_clean(samples: *const f64, samples_length: usize, window: Rect) -> Numbered<Pair<usize>>;
    }
    // SAFETY: it is declared as in the header, and is lent a slice: not null, as long as it is told, and only read.
    unsafe { umb_longest_clean(samples.as_ptr(), samples.len(), window) }.result()
}

/// How many floats were written.
pub(crate) fn umb_build_pages(samples: &[f64], boxes: &mut [f64]) -> Result<usize, Refusal> {
    extern "C" {
        fn umb_build_pages(
            samples: *const f64,
            samples_length: usize,
            boxes: *mut f64,
            boxes_length: usize,
        ) -> Numbered<usize>;
    }
    // SAFETY: it is declared as in the header, and is lent two slices that do not overlap: not null, as long as it is
    // told; the samples are only read, and the boxes are no one else's until it is back.
    unsafe { umb_build_pages(samples.as_ptr(), samples.len(), boxes.as_mut_ptr(), boxes.len()) }.result()
}

/// The edge, unless none is kept, and how many boxes were opened, which stands beside that number too.
pub(crate) fn umb_first_kept(samples: &[f64], window: Rect, boxes: &[f64]) -> Result<(Option<usize>, usize), Refusal> {
    extern "C" {
        fn umb_first_kept(
            samples: *const f64,
            samples_length: usize,
            window: Rect,
            boxes: *const f64,
            boxes_length: usize,
        ) -> Numbered<Pair<usize>>;
    }
    // SAFETY: it is declared as in the header, and is lent two slices: not null, as long as it is told, and only read.
    let answer = unsafe { umb_first_kept(samples.as_ptr(), samples.len(), window, boxes.as_ptr(), boxes.len()) };
    let Pair(edge, opened) = answer.value;
    match Refusal::unless_done(answer.number, edge) {
        Ok(edge) => Ok((Some(edge), opened)),
        Err(Refusal::Missed) => Ok((None, opened)),
        Err(refusal) => Err(refusal),
    }
}
