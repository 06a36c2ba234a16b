//! The edges of a whole trace.

use crate::live::live_until;
use crate::number::{Number, BAD_TRACE, BAD_WINDOW, BUFFER_TOO_SHORT, DONE, MISSED, NOT_FINITE};
use crate::r2::{point::Point, rect::Rect};
use crate::{clip_edge, record, CPoint, CRect, RECORD};
use std::slice::{from_raw_parts, from_raw_parts_mut};

const MOST_SAMPLES: usize = 4096;

#[repr(C)]
pub struct CTraceAnswer {
    number: Number,
    kept: usize,
    missed: usize,
    refused: usize,
    edges: usize,
}

fn no_trace(number: Number) -> CTraceAnswer {
    CTraceAnswer { number, kept: 0, missed: 0, refused: 0, edges: 0 }
}

/// # Safety
/// `samples` has `samples_length` floats, `out` has `out_length` bytes.
#[no_mangle]
pub unsafe extern "C" fn crate_cut_trace(
    samples: *const CPoint,
    samples_length: usize,
    window: CRect,
    whose: u32,
    out: *mut [u8; RECORD],
    out_length: usize,
) -> CTraceAnswer {
    let samples_count = samples_length / 2;
    if (samples_length % 2 != 0) | (samples_count > MOST_SAMPLES) {
        return no_trace(BAD_TRACE);
    }
    if !window.fine() {
        return no_trace(BAD_WINDOW);
    }
    let edges = samples_count.saturating_sub(1);
    if out_length / RECORD < edges {
        return no_trace(BUFFER_TOO_SHORT);
    }
    cut_edges(from_raw_parts(samples, samples_count), window.into(), whose, from_raw_parts_mut(out, edges))
}

/// Runs of live samples are found ahead, so that no edge of one is tested.
fn cut_edges(samples: &[CPoint], window: Rect, whose: u32, out: &mut [[u8; RECORD]]) -> CTraceAnswer {
    let (edges, mut kept, mut refused, mut at) = (out.len(), 0, 0, 0);
    while at < edges {
        // What is in its bounds is known to the compiler by this.
        let samples = &samples[..=edges];
        if !(samples[at].admitted() & samples[at + 1].admitted()) {
            out[at] = no_points(NOT_FINITE, whose);
            refused += 1;
            at += 1;
            continue;
        }
        let end = live_until(samples, at + 2);
        for (ends, place) in samples[at..end].windows(2).zip(&mut out[at..]) {
            match clip_edge(ends[0].into(), ends[1].into(), window.clone()) {
                (a, b, true) if !only_touches(ends, a, b) => {
                    *place = record(DONE, whose, a, b);
                    kept += 1;
                }
                _ => *place = no_points(MISSED, whose),
            }
        }
        at = end - 1;
    }
    CTraceAnswer { number: DONE, kept, missed: edges - kept - refused, refused, edges }
}

/// Change request W10: both kept points are the same, though the edge's own ends are not.
fn only_touches(ends: &[CPoint], a: Point, b: Point) -> bool {
    !differ(a.x, b.x) && !differ(a.y, b.y) && (differ(ends[0].x, ends[1].x) || differ(ends[0].y, ends[1].y))
}

/// Of two numbers, neither a NaN: one comparison and one jump, where `!=` takes a jump more.
fn differ(x: f64, y: f64) -> bool {
    (x < y) | (y < x)
}

fn no_points(number: Number, whose: u32) -> [u8; RECORD] {
    record(number, whose, Point { x: 0.0, y: 0.0 }, Point { x: 0.0, y: 0.0 })
}
