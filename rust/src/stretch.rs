//! The longest clean stretch of a trace. The crate s2 has nothing like it.

use crate::ffi::{self, Pair};
use crate::r2::rect::Rect;
use crate::Refusal;

/// Of the runs of consecutive samples that are all clean the longest, and the earliest of these if several are as long.
/// The samples are x and y in turn. A clean one is not dead, which is to say that neither of its floats is NaN, an
/// infinity or beyond 2^500 in magnitude, and it lies in the window, whose sides are in it.
///
/// What comes back is that part of the caller's own samples, whole pairs and no copy; where no sample is clean, the
/// empty part at their start. No clean run of the trace has more samples, and none that has as many begins before it.
///
/// Refused with BadTrace, BadWindow.
///
/// ```
/// use umblacet::r1::interval::Interval;
/// use umblacet::r2::rect::Rect;
/// use umblacet::stretch::longest_clean;
/// use umblacet::Refusal;
///
/// let window = Rect { x: Interval::new(0.0, 9.0), y: Interval::new(0.0, 2.0) };
/// let samples = [0.0, 1.0, 1.0, f64::NAN, 2.0, 1.5, 3.0, 2.0, 4.0, 2.5];
/// assert_eq!(longest_clean(&samples, window)?, &samples[4..8]);
/// assert_eq!(longest_clean(&samples[..9], window), Err(Refusal::BadTrace));
/// # Ok::<(), Refusal>(())
/// ```
pub fn longest_clean(samples: &[f64], window: Rect) -> Result<&[f64], Refusal> {
    let Pair(first, count) = ffi::umb_longest_clean(samples, window)?;
    let part = samples.as_chunks::<2>().0.get(first..).and_then(|rest| rest.get(..count));
    part.map(<[_]>::as_flattened).ok_or(Refusal::Unnamed)
}
