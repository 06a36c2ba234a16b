//! The longest clean stretch of a trace: a part of the caller's own samples, and what is refused.

use umblacet::r1::interval::Interval;
use umblacet::r2::rect::Rect;
use umblacet::stretch::longest_clean;
use umblacet::Refusal;

const NAN: f64 = f64::NAN;

const PLOT: Rect = Rect { x: Interval::new(1.0, 3.0), y: Interval::new(0.0, 2.0) };
const TURNED: Rect = Rect { x: Interval::new(1.0, 3.0), y: Interval::new(2.0, 0.0) };

const IN: [f64; 2] = [2.0, 1.0];
const OUT: [f64; 2] = [2.0, 3.0];
const DEAD: [f64; 2] = [2.0, NAN];

/// The stretch has to be so many samples from this one on, in the memory of the samples themselves.
fn must_be(samples: &[[f64; 2]], first: usize, count: usize) {
    let floats = samples.as_flattened();
    let part = longest_clean(floats, PLOT).expect("nothing is refused");
    let due = &floats[2 * first..2 * (first + count)];
    assert_eq!((part.as_ptr(), part.len()), (due.as_ptr(), due.len()), "{samples:?}");
}

#[test]
fn the_longest() {
    must_be(&[IN], 0, 1);
    must_be(&[IN, IN, IN], 0, 3);
    must_be(&[OUT, IN, IN, OUT, IN], 1, 2);
    must_be(&[IN, OUT, IN, IN], 2, 2);
    must_be(&[OUT, OUT, IN], 2, 1);
}

#[test]
fn the_earliest_of_those_as_long() {
    must_be(&[IN, OUT, IN], 0, 1);
    must_be(&[IN, DEAD, IN, IN, OUT, IN, IN], 2, 2);
}

/// By either coordinate, and whatever makes it dead.
#[test]
fn a_dead_sample_parts_a_run() {
    for dead in [NAN, f64::INFINITY, f64::NEG_INFINITY, 2f64.powi(500).next_up(), f64::MIN] {
        must_be(&[IN, [dead, 1.0], IN, IN], 2, 2);
        must_be(&[IN, IN, [2.0, dead], IN], 0, 2);
        must_be(&[[dead, dead]], 0, 0);
    }
}

#[test]
fn sides_are_in_the_window() {
    must_be(&[[1.0, 0.0], [3.0, 2.0], [1.0, 2.0], [3.0, -0.0]], 0, 4);
    for outside in [[1f64.next_down(), 1.0], [3f64.next_up(), 1.0], [2.0, 0f64.next_down()], [2.0, 2f64.next_up()]] {
        must_be(&[IN, outside, IN, IN], 2, 2);
    }
}

/// The empty part at the start.
#[test]
fn none() {
    must_be(&[], 0, 0);
    must_be(&[OUT, DEAD, OUT], 0, 0);
    must_be(&[DEAD; 9], 0, 0);
}

#[test]
fn long_traces() {
    let mut samples = vec![IN; 4096];
    must_be(&samples, 0, 4096);
    samples[2047] = DEAD;
    must_be(&samples, 2048, 2048);
    samples[4095] = OUT;
    must_be(&samples, 0, 2047);
    samples[0] = OUT;
    must_be(&samples, 2048, 2047);
    samples.push(IN);
    assert_eq!(longest_clean(samples.as_flattened(), PLOT), Err(Refusal::BadTrace));
}

/// It lives as long as the samples do, and they can be read beside it.
#[test]
fn a_part_of_the_samples() {
    fn longest_in(samples: &[f64]) -> &[f64] {
        longest_clean(samples, PLOT).expect("nothing is refused")
    }
    let samples = [OUT, IN, IN, DEAD].concat();
    let before: Vec<u64> = samples.iter().map(|float| float.to_bits()).collect();
    let part = longest_in(&samples);
    assert!(samples[2..6].as_ptr_range() == part.as_ptr_range());
    assert_eq!(part, [2.0, 1.0, 2.0, 1.0]);
    assert!(samples.iter().map(|float| float.to_bits()).eq(before), "the samples are only read");
}

#[test]
fn refusals_in_order() {
    let limit = 2f64.powi(500);
    let to = |hi| Rect { x: Interval::new(1.0, hi), ..PLOT };
    let samples = [IN, IN].concat();
    for (refusal, floats, window) in [
        (Refusal::BadTrace, 3, TURNED),
        (Refusal::BadTrace, 1, PLOT),
        (Refusal::BadWindow, 4, TURNED),
        (Refusal::BadWindow, 0, TURNED),
        (Refusal::BadWindow, 4, to(f64::INFINITY)),
        (Refusal::BadWindow, 4, to(NAN)),
        (Refusal::BadWindow, 4, to(limit.next_up())),
    ] {
        assert_eq!(longest_clean(&samples[..floats], window), Err(refusal), "{floats} floats, {window:?}");
    }
    assert_eq!(longest_clean(&samples, to(limit)), Ok(&samples[..]));
}
