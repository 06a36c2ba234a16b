//! The first kept edge of a trace by a scan: the crate has no boxes of halves, and this is what one would write, the
//! crate's cut on one edge after the other until one is kept.

use crate::live::live_until;
use crate::number::{Number, BAD_TRACE, BAD_WINDOW, DONE, MISSED};
use crate::r2::rect::Rect;
use crate::{clip_edge, CPoint, CRect};
use std::slice::from_raw_parts;

const MOST_SAMPLES: usize = 4096;

#[repr(C)]
pub struct CKeptAnswer {
    number: Number,
    edge: usize,
    opened: usize,
}

/// Opens no box, and is lent none.
///
/// # Safety
/// `samples` has `samples_length` floats.
#[no_mangle]
pub unsafe extern "C" fn plain_first_kept(
    samples: *const CPoint,
    samples_length: usize,
    window: CRect,
    _boxes: *const f64,
    _boxes_length: usize,
) -> CKeptAnswer {
    let samples_count = samples_length / 2;
    let (number, edge) = if (samples_length % 2 != 0) | (samples_count > MOST_SAMPLES) {
        (BAD_TRACE, 0)
    } else if !window.fine() {
        (BAD_WINDOW, 0)
    } else {
        first_kept(from_raw_parts(samples, samples_count), window.into())
    };
    CKeptAnswer { number, edge, opened: 0 }
}

/// Runs of live samples are found ahead, so that no edge of one is tested.
fn first_kept(samples: &[CPoint], window: Rect) -> (Number, usize) {
    let mut at = 0;
    while at + 1 < samples.len() {
        if !(samples[at].admitted() & samples[at + 1].admitted()) {
            at += 1;
            continue;
        }
        let end = live_until(samples, at + 2);
        for (place, ends) in samples[at..end].windows(2).enumerate() {
            if clip_edge(ends[0].into(), ends[1].into(), window.clone()).2 {
                return (DONE, at + place);
            }
        }
        at = end - 1;
    }
    (MISSED, 0)
}
