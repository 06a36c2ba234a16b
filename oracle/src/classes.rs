//! The classes of edges that seeded traces have to have, counted: a comparison on traces without them would show less
//! than it says.

use crate::answers::{line_of, FLOATS, REQUEST};
use crate::clip::clip_edge;
use crate::number::{BAD_WINDOW, MISSED, NOT_FINITE};
use crate::r1::interval::Interval;
use crate::r2::{point::Point, rect::Rect};
use crate::trace::{only_touches, same_point};
use crate::whose::Whose;
use crate::words::Arguments;
use std::collections::BTreeMap;

/// How often each was seen.
pub type Seen = BTreeMap<&'static str, u64>;

pub const EDGES: [&str; 10] = [
    "a dead sample",
    "missed beside the window",
    "missed above or below it",
    "missed past a corner",
    "of no length",
    "to a float next to it",
    "inside",
    "leaves",
    "enters",
    "goes through",
];

/// Edges that only touch the window: what they touch, and whether with an end of their own. The first three are of a
/// window that has a width and a height; there the middle of a side can be touched with an end alone.
pub const TOUCHES: [&str; 9] = [
    "ends at a corner",
    "grazes a corner",
    "ends on a side",
    "ends at a window of one point",
    "goes through a window of one point",
    "ends on a window of no width",
    "crosses a window of no width",
    "ends on a window of no height",
    "crosses a window of no height",
];

/// What a wrong test could take for a touch, or not take for one. These are counted beside the others.
pub const CLOSE: [&str; 7] = [
    "touches, with zeros of both signs",
    "of no length inside",
    "of no length on a side",
    "of no length at a corner",
    "of no length but for a zero's sign",
    "kept level",
    "kept upright",
];

/// What was seen is shown by `cargo test -- --nocapture`.
pub fn must_be_seen(seen: &Seen, names: &[&str], least: u64) {
    for name in names {
        let times = seen.get(name).copied().unwrap_or(0);
        println!("{times:8} {name}");
        assert!(times >= least, "{name}: {times} times");
    }
}

/// The edges of a request of a trace, where it is answered.
pub fn see_edges(seen: &mut Seen, request: &[u64; REQUEST]) {
    if !line_of(request, Whose::Crates).starts_with("0 ") {
        return;
    }
    let mut a = Arguments::new(&request[1..]);
    let (count, _, window): (u64, u64, Rect) = (a.take(), a.take(), a.take());
    let samples: Vec<Point> = (0..count.min(FLOATS as u64) / 2).map(|_| a.take()).collect();
    samples.windows(2).for_each(|edge| see_edge(seen, edge[0], edge[1], &window));
}

pub fn see_edge(seen: &mut Seen, a: Point, b: Point, window: &Rect) {
    let name = match clip_edge(Whose::Crates, a, b, window.clone()) {
        Err(NOT_FINITE) => "a dead sample",
        Err(BAD_WINDOW) => return,
        Err(number) => {
            assert_eq!(number, MISSED);
            missed(&Rect::from_points(&[a, b]), window)
        }
        Ok(points) => {
            see_close(seen, (a, b), points, window);
            if only_touches((a, b), points) {
                touch(same_point(a, points.0) || same_point(b, points.0), points.0, window)
            } else {
                kept(a, b, window)
            }
        }
    };
    *seen.entry(name).or_default() += 1;
}

fn missed(edge: &Rect, window: &Rect) -> &'static str {
    match (edge.x.intersects(&window.x), edge.y.intersects(&window.y)) {
        (true, true) => "missed past a corner",
        (true, false) => "missed above or below it",
        (false, _) => "missed beside the window",
    }
}

fn touch(own_end: bool, at: Point, window: &Rect) -> &'static str {
    let has_extent = |sides: Interval| sides.lo < sides.hi;
    let corner = at_side(at.x, window.x) && at_side(at.y, window.y);
    match (has_extent(window.x), has_extent(window.y), own_end) {
        (true, true, true) if corner => "ends at a corner",
        (true, true, false) if corner => "grazes a corner",
        (true, true, true) => "ends on a side",
        (true, true, false) => unreachable!("{at:?} of {window:?} is touched with no end"),
        (false, false, true) => "ends at a window of one point",
        (false, false, false) => "goes through a window of one point",
        (false, true, true) => "ends on a window of no width",
        (false, true, false) => "crosses a window of no width",
        (true, false, true) => "ends on a window of no height",
        (true, false, false) => "crosses a window of no height",
    }
}

fn kept(a: Point, b: Point, window: &Rect) -> &'static str {
    match (window.contains_point(&a), window.contains_point(&b)) {
        _ if same_point(a, b) => "of no length",
        (true, true) if adjacent(a.x, b.x) || adjacent(a.y, b.y) => "to a float next to it",
        (true, true) => "inside",
        (true, false) => "leaves",
        (false, true) => "enters",
        (false, false) => "goes through",
    }
}

fn see_close(seen: &mut Seen, (a, b): (Point, Point), (kept_a, kept_b): (Point, Point), window: &Rect) {
    let bits = |point: Point| [point.x, point.y].map(f64::to_bits);
    let (touches, of_no_length) = (only_touches((a, b), (kept_a, kept_b)), same_point(a, b));
    let sides = [at_side(a.x, window.x), at_side(a.y, window.y)];
    let holds = [
        touches && bits(kept_a) != bits(kept_b),
        of_no_length && sides == [false, false],
        of_no_length && sides[0] != sides[1],
        of_no_length && sides == [true, true],
        of_no_length && bits(a) != bits(b),
        kept_a.x != kept_b.x && kept_a.y == kept_b.y,
        kept_a.x == kept_b.x && kept_a.y != kept_b.y,
    ];
    for (name, holds) in CLOSE.into_iter().zip(holds) {
        *seen.entry(name).or_default() += u64::from(holds);
    }
}

fn at_side(x: f64, sides: Interval) -> bool {
    x == sides.lo || x == sides.hi
}

fn adjacent(a: f64, b: f64) -> bool {
    a.next_up() == b || b.next_up() == a
}
