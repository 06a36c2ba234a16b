//! Is the trace on this page at all? The boxes of a trace are built once, and serve every page of it: a search goes
//! down them to the first edge that is kept, and what lies in a box beside the page is never looked at. The crate s2
//! has nothing like it.
//!
//! # The boxes
//!
//! A box is five floats: low x, low y, high x, high y, and a mark. There is one for all edges of the trace, one for
//! each half of them, for each half of these and so on, down to single edges; of an odd number of edges the first half
//! is the longer. The box of all comes first, then all boxes of the first half, then all of the second: 2m - 1 for m
//! edges. So the halves of the box at place i, places being counted in boxes, are at i + 1 and, n edges being below it,
//! at i + 2 * (n - n / 2).
//!
//! A box is that of the live edges below it, those with no dead sample for an end; of ends that compare equal, as 0 and
//! -0 do, the earliest sample's stands. Its mark is 1. Where no live edge is below, the box is 1, 1, 0, 0 and the mark
//! 0.
//!
//! Both functions call themselves, at most 13 deep, and take at most 3,200 bytes of stack, which is measured and not
//! proved.

use crate::r2::rect::Rect;
use crate::{ffi, Refusal};

/// What a search found, and what it took.
#[derive(Clone, Copy, Debug, Default, Eq, PartialEq)]
pub struct Search {
    /// The lowest-numbered edge that is kept, from the sample of its number to the next; 0 is the first. None where no
    /// edge is.
    pub edge: Option<usize>,
    /// How many boxes were opened, whether an edge is kept or none is.
    pub opened: usize,
}

/// How many floats to lend for the boxes of these samples: five for each of 2m - 1 boxes of m edges, 40,945 at the most
/// of a trace that is not refused, and 0 for no sample or one.
pub fn floats_for(samples: &[f64]) -> usize {
    let edges = (samples.len() / 2).saturating_sub(1);
    5 * (2 * edges).saturating_sub(1)
}

/// Writes [the boxes](self#the-boxes) of a trace from the buffer's first float on, and says how many floats they are.
/// The samples are x and y in turn. The floats after the last box stay as they were, bit for bit, and where the call is
/// refused all do; what stood there changes nothing.
///
/// Refused with BadTrace, ShortBuffer.
pub fn build_pages(samples: &[f64], boxes: &mut [f64]) -> Result<usize, Refusal> {
    ffi::umb_build_pages(samples, boxes)
}

/// The lowest-numbered edge of the trace that is kept in the window, as
/// [`cut_trace_with_touches`](crate::trace::cut_trace_with_touches) keeps it; so a page on which an edge is found may
/// draw nothing with [`cut_trace`](crate::trace::cut_trace), which drops what only touches.
///
/// The search opens the box of all edges. One that has no mark (any float but 1, NaN too) or shares no point with the
/// window (one with a NaN shares none; one that only touches it does) counts as opened, and nothing below it is looked
/// at; else its first half is searched and, where that has no kept edge, its second. Below the box of a single edge it
/// is the edge that is asked. So at most 2m - 1 boxes are opened; 0 for no edge, 1 where the box of all is passed over.
///
/// With the boxes that [`build_pages`] left for these samples the edge is the one that a scan of all finds. With any
/// other floats the same search is answered: an edge that it finds is kept, but one before it may be too, and one may
/// be where it finds none.
///
/// Refused with BadTrace, BadWindow, ShortBuffer.
///
/// ```
/// use umblacet::pages::{build_pages, first_kept, floats_for, Search};
/// use umblacet::r1::interval::Interval;
/// use umblacet::r2::rect::Rect;
/// use umblacet::Refusal;
///
/// let samples = [0.0, 1.0, 1.0, f64::NAN, 2.0, 1.5, 3.0, 2.0, 4.0, 2.5];
/// let mut boxes = vec![0.0; floats_for(&samples)];
/// build_pages(&samples, &mut boxes)?;
/// assert_eq!(boxes[..5], [2.0, 1.5, 4.0, 2.5, 1.0]);
///
/// let page = |from, to| Rect { x: Interval::new(from, to), y: Interval::new(0.0, 9.0) };
/// assert_eq!(first_kept(&samples, page(3.5, 4.5), &boxes)?, Search { edge: Some(3), opened: 5 });
/// assert_eq!(first_kept(&samples, page(0.0, 1.5), &boxes)?, Search { edge: None, opened: 1 });
/// # Ok::<(), Refusal>(())
/// ```
pub fn first_kept(samples: &[f64], window: Rect, boxes: &[f64]) -> Result<Search, Refusal> {
    let (edge, opened) = ffi::umb_first_kept(samples, window, boxes)?;
    Ok(Search { edge, opened })
}
