//! One edge.

use crate::number::{Number, BAD_WINDOW, DONE, MISSED, NOT_FINITE};
use crate::{clip_edge, CPoint, CRect, REFUSING, SQUARE};

#[repr(C)]
pub struct CCut {
    number: Number,
    a: CPoint,
    b: CPoint,
}

fn no_cut(number: Number) -> CCut {
    let zero = CPoint { x: 0.0, y: 0.0 };
    CCut { number, a: zero, b: zero }
}

/// The sums are two, so that the compiler works them out in the two halves of a register.
fn surely_admitted(a: CPoint, b: CPoint, CRect { x, y }: CRect) -> bool {
    let one = (a.x * a.x + b.x * b.x) + (x.lo * x.lo + y.lo * y.lo);
    let other = (a.y * a.y + b.y * b.y) + (x.hi * x.hi + y.hi * y.hi);
    (one <= SQUARE) & (other <= SQUARE) & (x.lo <= x.hi) & (y.lo <= y.hi)
}

#[no_mangle]
pub extern "C" fn crate_clip_edge(a: CPoint, b: CPoint, window: CRect) -> CCut {
    if REFUSING && !surely_admitted(a, b, window) {
        if !(a.admitted() & b.admitted()) {
            return no_cut(NOT_FINITE);
        }
        if !window.fine() {
            return no_cut(BAD_WINDOW);
        }
    }
    match clip_edge(a.into(), b.into(), window.into()) {
        (a, b, true) => CCut { number: DONE, a: a.into(), b: b.into() },
        (_, _, false) => no_cut(MISSED),
    }
}
