//! Edges that only touch the window: a trace drops them, one with touches keeps them.

use umblacet::r1::interval::Interval;
use umblacet::r2::{point::Point, rect::Rect};
use umblacet::s2::edge_clipping::clip_edge;
use umblacet::trace::{cut_trace, cut_trace_with_touches, Counts};
use umblacet::Refusal;

const RECORD: usize = 40;
const WHOSE: u32 = 0x89ab_cdef;

type Edge = [[f64; 2]; 2];

/// What is kept of an edge; none where it is missed.
type Kept = Option<Edge>;

const fn window(x: [f64; 2], y: [f64; 2]) -> Rect {
    Rect { x: Interval::new(x[0], x[1]), y: Interval::new(y[0], y[1]) }
}

/// The window of document 01's P3.
const SQUARE: Rect = window([1.0, 2.0], [1.0, 2.0]);
const NO_WIDTH: Rect = window([1.0, 1.0], [0.0, 2.0]);
const NO_HEIGHT: Rect = window([0.0, 2.0], [1.0, 1.0]);
const POINT: Rect = window([1.0, 1.0], [1.0, 1.0]);

fn record(kept: Kept) -> Vec<u8> {
    let floats = kept.unwrap_or_default().into_iter().flatten().flat_map(f64::to_le_bytes);
    [u8::from(kept.is_none()), 0, 0, 0].into_iter().chain(WHOSE.to_le_bytes()).chain(floats).collect()
}

/// The trace of these samples, with touches or without, has to have the records of these edges and their counts.
fn must_write(samples: &[[f64; 2]], window: Rect, with_touches: bool, edges: &[Kept]) {
    let mut bytes = vec![0xa5; edges.len() * RECORD];
    let cut = if with_touches { cut_trace_with_touches } else { cut_trace };
    let answer = cut(samples.as_flattened(), window, WHOSE, &mut bytes);
    let kept = edges.iter().flatten().count();
    assert_eq!(answer, Ok(Counts { kept, missed: edges.len() - kept, refused: 0, edges: edges.len() }), "{samples:?}");
    assert_eq!(bytes, edges.iter().map(|kept| record(*kept)).collect::<Vec<_>>().concat(), "{samples:?}");
}

/// Dropped; with touches kept, with these points.
fn must_touch(edge: Edge, window: Rect, kept: Edge) {
    must_write(&edge, window, false, &[None]);
    must_write(&edge, window, true, &[Some(kept)]);
}

/// With touches or without.
fn must_be_kept(edge: Edge, window: Rect, kept: Edge) {
    for with_touches in [false, true] {
        must_write(&edge, window, with_touches, &[Some(kept)]);
    }
}

#[test]
fn p3() {
    must_touch([[0.0, 0.0], [1.0, 1.0]], SQUARE, [[1.0, 1.0]; 2]);
    must_touch([[1.0, 1.0], [0.0, 0.0]], SQUARE, [[1.0, 1.0]; 2]);
}

#[test]
fn sides_and_corners() {
    must_touch([[0.0, 1.5], [1.0, 1.5]], SQUARE, [[1.0, 1.5]; 2]);
    must_touch([[1.5, 2.0], [1.0, 3.0]], SQUARE, [[1.5, 2.0]; 2]);
    must_touch([[1.5, 0.0], [1.5, 1.0]], SQUARE, [[1.5, 1.0]; 2]);
    must_touch([[1f64.next_down(), 1.5], [1.0, 1.5]], SQUARE, [[1.0, 1.5]; 2]);
    must_touch([[1.0, 0.0], [1.0, 1.0]], SQUARE, [[1.0, 1.0]; 2]);
    must_touch([[0.0, 2.0], [2.0, 0.0]], SQUARE, [[1.0, 1.0]; 2]);
}

#[test]
fn windows_of_no_width() {
    for crossed in [NO_WIDTH, NO_HEIGHT, POINT] {
        must_touch([[0.0, 0.0], [2.0, 2.0]], crossed, [[1.0, 1.0]; 2]);
        must_touch([[2.0, 0.0], [1.0, 1.0]], crossed, [[1.0, 1.0]; 2]);
        must_be_kept([[1.0, 1.0]; 2], crossed, [[1.0, 1.0]; 2]);
    }
    must_be_kept([[1.0, -1.0], [1.0, 3.0]], NO_WIDTH, [[1.0, 0.0], [1.0, 2.0]]);
    must_be_kept([[3.0, 1.0], [0.5, 1.0]], NO_HEIGHT, [[2.0, 1.0], [0.5, 1.0]]);
}

#[test]
fn no_length() {
    for sample in [[1.5, 1.25], [2.0, 1.5], [1.0, 2.0]] {
        must_be_kept([sample; 2], SQUARE, [sample; 2]);
    }
    for with_touches in [false, true] {
        must_write(&[[0.0, 1.5]; 2], SQUARE, with_touches, &[None]);
    }
}

#[test]
fn more_than_a_point() {
    must_be_kept([[0.0, 1.0], [3.0, 1.0]], SQUARE, [[1.0, 1.0], [2.0, 1.0]]);
    must_be_kept([[2.0, 3.0], [2.0, 1.25]], SQUARE, [[2.0, 2.0], [2.0, 1.25]]);
    let next = 1f64.next_up();
    must_be_kept([[0.0, 1.5], [next, 1.5]], SQUARE, [[1.0, 1.5], [next, 1.5]]);
    // Through the corner, but that the cut value is rounded up.
    must_be_kept([[0.9, 1.5], [1.1, 0.5]], SQUARE, [[1.0, next], [1.0, 1.0]]);
}

/// They compare equal.
#[test]
fn zeros_of_either_sign() {
    for (zero, other) in [(0.0, -0.0), (-0.0, 0.0)] {
        let corner = window([other, 2.0], [other, 2.0]);
        must_touch([[-1.0, 1.0], [zero, 1.0]], corner, [[other, 1.0], [zero, 1.0]]);
        must_touch([[1.0, zero], [1.0, -1.0]], corner, [[1.0, zero], [1.0, other]]);
        must_be_kept([[zero, 1.0], [other, 1.0]], corner, [[zero, 1.0]; 2]);
    }
}

#[test]
fn in_a_trace() {
    let samples = [[0.0, 1.5], [1.0, 1.5], [1.5, 1.5], [1.5, 1.5], [2.0, 1.5], [3.0, 1.5], [1.0, 3.5], [1.0, 2.0]];
    let [entering, resting, leaving] = [[[1.0, 1.5], [1.5, 1.5]], [[1.5, 1.5]; 2], [[1.5, 1.5], [2.0, 1.5]]].map(Some);
    must_write(&samples, SQUARE, false, &[None, entering, resting, leaving, None, None, None]);
    let [first, last, corner] = [[[1.0, 1.5]; 2], [[2.0, 1.5]; 2], [[1.0, 2.0]; 2]].map(Some);
    must_write(&samples, SQUARE, true, &[first, entering, resting, leaving, last, None, corner]);
}

/// Every edge between points in the square, on it and about it, beside what `clip_edge` answers for it.
#[test]
fn each_edge_of_a_grid() {
    let places = || (0..=6).map(|half| f64::from(half) / 2.0);
    let points: Vec<[f64; 2]> = places().flat_map(|x| places().map(move |y| [x, y])).collect();
    let mut seen = [0; 2];
    for edge in points.iter().flat_map(|a| points.iter().map(move |b| [*a, *b])) {
        let kept = clipped(edge);
        let touches = kept.is_some_and(|[a, b]| a == b) && edge[0] != edge[1];
        must_write(&edge, SQUARE, true, &[kept]);
        must_write(&edge, SQUARE, false, &[kept.filter(|_| !touches)]);
        seen[usize::from(touches)] += 1;
    }
    assert!(seen[0] > 1000 && seen[1] > 100, "edges that do not only touch, and those that do: {seen:?}");
}

fn clipped(edge: Edge) -> Kept {
    let [a, b] = edge.map(|[x, y]| Point { x, y });
    match clip_edge(a, b, SQUARE) {
        Ok((a, b)) => Some([[a.x, a.y], [b.x, b.y]]),
        Err(refusal) => {
            assert_eq!(refusal, Refusal::Missed);
            None
        }
    }
}
