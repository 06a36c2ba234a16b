//! Document 01's module 4, cutting to a window, over W5's smaller domain: its refusals in order, then the crate.

use crate::finite::{admit_floats, Floats};
use crate::floats::power;
use crate::number::{Answer, BAD_WINDOW, MISSED};
use crate::r1::interval::Interval;
use crate::r2::{point::Point, rect::Rect};
use crate::s2::edge_clipping::private;
use crate::whose::Whose;

/// Change request W5: no float beyond this magnitude is admitted, whatever it is for.
pub const LIMIT: f64 = power(500);

pub fn admitted(x: f64) -> bool {
    x.abs() <= LIMIT
}

/// A float that is not the window's is refused before the window is looked at.
fn admit(floats: &[&dyn Floats], window: &[Interval]) -> Answer<()> {
    admit_floats(floats, admitted)?;
    if window.iter().all(|sides| sides.all(admitted) && sides.lo <= sides.hi) {
        Ok(())
    } else {
        Err(BAD_WINDOW)
    }
}

pub fn admit_window(window: &Rect) -> Answer<()> {
    admit(&[], &[window.x, window.y])
}

pub fn interpolate(whose: Whose, x: f64, a: f64, b: f64, a1: f64, b1: f64) -> Answer<f64> {
    admit(&[&x, &a, &b, &a1, &b1], &[])?;
    Ok((whose.cut().interpolate)(x, a, b, a1, b1))
}

pub fn update_endpoint(bound: Interval, high: bool, value: f64) -> Answer<Interval> {
    admit(&[&bound, &value], &[])?;
    match private::update_endpoint(bound, high, value) {
        (moved, true) => Ok(moved),
        (_, false) => Err(MISSED),
    }
}

#[allow(clippy::too_many_arguments)]
pub fn clip_bound_axis(
    whose: Whose,
    a0: f64,
    b0: f64,
    bound0: Interval,
    a1: f64,
    b1: f64,
    bound1: Interval,
    negative_slope: bool,
    window: Interval,
) -> Answer<(Interval, Interval)> {
    admit(&[&a0, &b0, &bound0, &a1, &b1, &bound1], &[window])?;
    match (whose.cut().clip_bound_axis)(a0, b0, bound0, a1, b1, bound1, negative_slope, window) {
        (kept0, kept1, true) => Ok((kept0, kept1)),
        (_, _, false) => Err(MISSED),
    }
}

pub fn clip_edge_bound(whose: Whose, a: Point, b: Point, window: Rect, bound: Rect) -> Answer<Rect> {
    admit(&[&a, &b, &bound], &[window.x, window.y])?;
    match (whose.cut().clip_edge_bound)(a, b, window, bound) {
        (kept, true) => Ok(kept),
        (_, false) => Err(MISSED),
    }
}

pub fn clip_edge(whose: Whose, a: Point, b: Point, window: Rect) -> Answer<(Point, Point)> {
    admit(&[&a, &b], &[window.x, window.y])?;
    clip_edge_unrefused(whose, a, b, window)
}

/// What is answered for any floats, with no refusal before it.
pub fn clip_edge_unrefused(whose: Whose, a: Point, b: Point, window: Rect) -> Answer<(Point, Point)> {
    match (whose.cut().clip_edge)(a, b, window) {
        (kept_a, kept_b, true) => Ok((kept_a, kept_b)),
        (_, _, false) => Err(MISSED),
    }
}

pub fn edge_intersects_rect(a: Point, b: Point, window: Rect) -> Answer<bool> {
    admit(&[&a, &b], &[window.x, window.y])?;
    Ok(private::edge_intersects_rect(a, b, &window))
}
