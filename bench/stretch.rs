//! The longest clean stretch of a trace by a plain loop: the crate has no such function, and this is what one would
//! write. Under our refusals a window holds no dead sample, so that none is asked for.

use crate::number::{Number, BAD_TRACE, BAD_WINDOW, DONE};
use crate::{CInterval, CRect};
use std::slice::from_raw_parts;

const MOST_SAMPLES: usize = 4096;

#[repr(C)]
pub struct CStretchAnswer {
    number: Number,
    first: usize,
    count: usize,
}

impl CInterval {
    fn holds(self, x: f64) -> bool {
        self.lo <= x && x <= self.hi
    }
}

impl CRect {
    fn holds(self, x: f64, y: f64) -> bool {
        self.x.holds(x) && self.y.holds(y)
    }
}

fn refusal(samples_length: usize, window: CRect) -> Number {
    if (samples_length % 2 != 0) | (samples_length / 2 > MOST_SAMPLES) {
        BAD_TRACE
    } else if !window.fine() {
        BAD_WINDOW
    } else {
        DONE
    }
}

/// The longest is compared at each clean sample.
///
/// # Safety
/// `samples` has `samples_length` floats.
#[no_mangle]
pub unsafe extern "C" fn plain_longest_clean(
    samples: *const f64,
    samples_length: usize,
    window: CRect,
) -> CStretchAnswer {
    let number = refusal(samples_length, window);
    if number != DONE {
        return CStretchAnswer { number, first: 0, count: 0 };
    }
    let samples = from_raw_parts(samples, samples_length);
    let (mut first, mut count, mut start) = (0, 0, 0);
    for (place, sample) in samples.chunks_exact(2).enumerate() {
        if window.holds(sample[0], sample[1]) {
            let run = place + 1 - start;
            if run > count {
                count = run;
                first = start;
            }
        } else {
            start = place + 1;
        }
    }
    CStretchAnswer { number, first, count }
}

/// The longest is compared where a run ends.
///
/// # Safety
/// `samples` has `samples_length` floats.
#[no_mangle]
pub unsafe extern "C" fn plain_longest_clean_at_ends(
    samples: *const f64,
    samples_length: usize,
    window: CRect,
) -> CStretchAnswer {
    let number = refusal(samples_length, window);
    if number != DONE {
        return CStretchAnswer { number, first: 0, count: 0 };
    }
    let samples = from_raw_parts(samples, samples_length);
    let (mut first, mut count, mut start) = (0, 0, 0);
    for (place, sample) in samples.chunks_exact(2).enumerate() {
        if !window.holds(sample[0], sample[1]) {
            if place - start > count {
                count = place - start;
                first = start;
            }
            start = place + 1;
        }
    }
    let end = samples_length / 2;
    if end - start > count {
        count = end - start;
        first = start;
    }
    CStretchAnswer { number, first, count }
}
