//! The crate's cut with W8's clamp, in the form that costs the crate least. In the cut of an edge the place is always
//! between the ends, and the box is never wider than the edge's own: so a value past an end moves nothing, or it loses
//! the edge, and only a loss has to ask. Where a value is past the end that stays, and that end is still the edge's own,
//! it is that end. For boxes that are wider this would not be W8's clamp.

use crate::r1::interval::Interval;
use crate::s2::edge_clipping::private::CRATES;
use crate::{r1, r2};

include!(concat!(env!("OUT_DIR"), "/cut.rs"));

/// The crate's value on a line, and the line's ends.
struct Value {
    at: f64,
    ends: [f64; 2],
}

fn interpolate(x: f64, a: f64, b: f64, a1: f64, b1: f64) -> Value {
    Value { at: (CRATES.interpolate)(x, a, b, a1, b1), ends: [a1, b1] }
}

fn update_endpoint(mut bound: Interval, high: bool, value: Value) -> (Interval, bool) {
    let Value { mut at, ends: [a1, b1] } = value;
    if !high {
        if bound.hi < at {
            if bound.hi < if a1 < b1 { b1 } else { a1 } {
                return (bound, false);
            }
            at = bound.hi;
        }
        if bound.lo < at {
            bound.lo = at;
        }
        return (bound, true);
    }
    if at < bound.lo {
        if if a1 < b1 { a1 } else { b1 } < bound.lo {
            return (bound, false);
        }
        at = bound.lo;
    }
    if at < bound.hi {
        bound.hi = at;
    }
    (bound, true)
}
