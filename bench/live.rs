//! Runs of live samples, for what is asked of a whole trace.

use crate::{CPoint, SQUARE};

/// The first sample from this one on that is dead, or the end: eight at a time, then one by one.
pub fn live_until(samples: &[CPoint], from: usize) -> usize {
    let mut at = from;
    for eight in samples[from..].as_chunks::<8>().0 {
        let (mut x, mut y) = (0.0, 0.0);
        for sample in eight {
            x += sample.x * sample.x;
            y += sample.y * sample.y;
        }
        if !((x <= SQUARE) & (y <= SQUARE)) {
            break;
        }
        at += eight.len();
    }
    while at < samples.len() && samples[at].admitted() {
        at += 1;
    }
    at
}
