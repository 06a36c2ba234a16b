//! The crate's cut with one change, change request W8: for x from a to b, in either order, `interpolate` gives no value
//! past an end but that end. The value is the crate's own, and the functions around it are its text.

// The crate's own.
#![allow(clippy::too_many_arguments)]

use crate::s2::edge_clipping::private::{update_endpoint, Cut, CRATES};
use crate::{r1, r2};
use std::cell::Cell;

include!(concat!(env!("OUT_DIR"), "/cut.rs"));

pub const CLAMPED: Cut = Cut { interpolate, clip_bound_axis, clip_edge_bound, clip_edge };

thread_local! {
    /// Whether a value has left its ends.
    static LEFT: Cell<bool> = const { Cell::new(false) };
}

/// What was asked, and whether a value left its ends on the way.
pub fn watch<T>(ask: impl FnOnce() -> T) -> (T, bool) {
    LEFT.set(false);
    let answer = ask();
    (answer, LEFT.get())
}

fn interpolate(x: f64, a: f64, b: f64, a1: f64, b1: f64) -> f64 {
    let value = (CRATES.interpolate)(x, a, b, a1, b1);
    let (lo, hi) = (a1.min(b1), a1.max(b1));
    if a.min(b) <= x && x <= a.max(b) && (value < lo || hi < value) {
        LEFT.set(true);
        return value.clamp(lo, hi);
    }
    value
}

#[cfg(test)]
mod tests {
    use super::*;

    const STEP: f64 = f64::from_bits(1);

    /// The value, and whether it was clamped.
    fn value(x: f64, a: f64, b: f64, a1: f64, b1: f64) -> (f64, bool) {
        watch(|| interpolate(x, a, b, a1, b1))
    }

    #[test]
    fn between_the_ends() {
        let past = 0.04f64.next_up();
        assert_eq!((CRATES.interpolate)(5.0 * STEP, 0.0, 10.0 * STEP, -0.06, 0.04), past);
        assert_eq!(value(5.0 * STEP, 0.0, 10.0 * STEP, -0.06, 0.04), (0.04, true));
        assert_eq!(value(-5.0 * STEP, 0.0, -10.0 * STEP, -0.06, 0.04), (0.04, true), "a above b");
        assert_eq!(value(5.0 * STEP, 0.0, 10.0 * STEP, 0.06, -0.04), (-0.04, true), "a1 above b1");
        assert_eq!(value(0.5, 0.0, 1.0, 1.0, 0.0), (0.5, false));
    }

    #[test]
    fn elsewhere() {
        assert_eq!(value(2.0, 0.0, 1.0, 3.0, 4.0), (5.0, false));
        assert_eq!(value(-1.0, 1.0, 0.0, 4.0, 3.0), (2.0, false));
        assert_eq!(value(1.0, 1.0, 1.0, 2.0, 3.0), (2.0, false));
    }
}
