//! A whole trace in one call. The crate s2 has nothing like it; each edge is cut as
//! [`clip_edge`](crate::s2::edge_clipping::clip_edge) cuts it. An edge that only touches the window, of which
//! `clip_edge` keeps one point though its ends differ, is dropped by [`cut_trace`] and kept by
//! [`cut_trace_with_touches`].
//!
//! # The record
//!
//! Both write a record of 40 bytes for each edge, [`walk`](crate::s2::edge_clipping::walk) for each segment:
//!
//! | bytes | |
//! |---|---|
//! | 0 | the number of the edge's answer: 0 kept, 1 missed, 2 a dead sample; of a segment, its face |
//! | 1 to 3 | zeros |
//! | 4 to 7 | the trace number, `whose`, as the caller gave it: any number, little-endian |
//! | 8 to 39 | a.x, a.y, b.x, b.y of the kept points, zeros unless kept, or a.u, a.v, b.u, b.v; little-endian |
//!
//! The records of a call stand from the buffer's first byte on, one after the other. The bytes after the last one stay
//! as they were, and where the call is refused all do. So calls into neighbouring parts of one buffer may be made in
//! either order, and give the same bytes.

use crate::r2::rect::Rect;
use crate::{ffi, Refusal};

/// The edges of a trace.
#[derive(Clone, Copy, Debug, Default, Eq, PartialEq)]
#[repr(C)]
pub struct Counts {
    /// Those with a part in the window.
    pub kept: usize,
    /// Those with none, and for [`cut_trace`] those that only touch it.
    pub missed: usize,
    /// Those that have a dead sample for an end: one with a float that is NaN, an infinity or beyond 2^500 in
    /// magnitude.
    pub refused: usize,
    /// All of them.
    pub edges: usize,
}

/// Cuts every edge of a trace, from each sample to the next, to the window, and writes [a record](self#the-record) for
/// each. The samples are x and y in turn; no sample or one has no edge. A dead sample is refused in the records of the
/// edges that have it for an end, and nowhere else. So a trace cut at a sample, which is sent in both parts, gives the
/// same records under the same number.
///
/// An edge that only touches the window counts as missed, since it would show as a dot: its two kept points are the
/// same point, though its own ends differ. So does an edge that only ends on a side, its other end beyond it, and each
/// that crosses a window of no width or no height; what decides is the kept points as they come out, so that one which
/// rounding leaves two points that differ, along a side or at a corner, is kept. Every other edge between live samples
/// is kept where one of them lies in the window, with that one as it was. A page that a search finds with touches may
/// draw nothing without them.
///
/// Refused with BadTrace, BadWindow, ShortBuffer.
pub fn cut_trace(samples: &[f64], window: Rect, whose: u32, out: &mut [u8]) -> Result<Counts, Refusal> {
    ffi::umb_cut_trace(samples, window, whose, out)
}

/// The same as [`cut_trace`], but that an edge which only touches the window is kept, as `clip_edge` keeps it: so an
/// edge between live samples is kept where one of them lies in the window, with that one as it was.
pub fn cut_trace_with_touches(samples: &[f64], window: Rect, whose: u32, out: &mut [u8]) -> Result<Counts, Refusal> {
    ffi::umb_cut_trace_with_touches(samples, window, whose, out)
}
