//! A whole trace in one call: its records, what it refuses, and what it leaves in a buffer. Touches are apart.

use umblacet::r1::interval::Interval;
use umblacet::r2::{point::Point, rect::Rect};
use umblacet::s2::edge_clipping::clip_edge;
use umblacet::trace::{cut_trace, cut_trace_with_touches, Counts};
use umblacet::Refusal;

const RECORD: usize = 40;
const UNTOUCHED: u8 = 0xa5;
const WHOSE: u32 = 0x89ab_cdef;
const NAN: f64 = f64::NAN;

/// The window of document 01's P1 and P2.
const PLOT: Rect = Rect { x: Interval::new(1.0, 3.0), y: Interval::new(0.0, 2.0) };
const TURNED: Rect = Rect { x: Interval::new(3.0, 1.0), y: Interval::new(0.0, 2.0) };

/// P1's edge, two with a dead end, P2's edge, one beside the window.
const TRACE: [f64; 12] = [0.0, 0.0, 4.0, 2.0, 4.0, NAN, 0.0, 2.0, 4.0, 0.0, 4.0, 5.0];

/// The answer, and the buffer of this length after it: the same with touches, for no trace here has any.
fn cut(samples: &[f64], window: Rect, length: usize) -> (Result<Counts, Refusal>, Vec<u8>) {
    cut_under(WHOSE, samples, window, length)
}

fn cut_under(whose: u32, samples: &[f64], window: Rect, length: usize) -> (Result<Counts, Refusal>, Vec<u8>) {
    let [mut bytes, mut with_touches] = [vec![UNTOUCHED; length], vec![UNTOUCHED; length]];
    let answer = cut_trace(samples, window, whose, &mut bytes);
    assert_eq!(cut_trace_with_touches(samples, window, whose, &mut with_touches), answer);
    assert_eq!(with_touches, bytes);
    (answer, bytes)
}

fn record(number: u8, floats: [f64; 4]) -> Vec<u8> {
    let floats = floats.iter().flat_map(|float| float.to_le_bytes());
    [number, 0, 0, 0].into_iter().chain(WHOSE.to_le_bytes()).chain(floats).collect()
}

#[test]
fn records_and_counts() {
    let (answer, bytes) = cut(&TRACE, PLOT, 5 * RECORD + 3);
    assert_eq!(answer, Ok(Counts { kept: 2, missed: 1, refused: 2, edges: 5 }));
    let expected = [
        record(0, [1.0, 0.5, 3.0, 1.5]),
        record(2, [0.0; 4]),
        record(2, [0.0; 4]),
        record(0, [1.0, 1.5, 3.0, 0.5]),
        record(1, [0.0; 4]),
        vec![UNTOUCHED; 3],
    ];
    assert_eq!(bytes, expected.concat());
}

/// No other byte hangs on the trace number, and 0 is four zeros.
#[test]
fn every_record_says_whose_it_is() {
    let (_, mut expected) = cut(&TRACE, PLOT, 5 * RECORD);
    for whose in [0, 1, 0x0102_0304, u32::MAX] {
        let (_, bytes) = cut_under(whose, &TRACE, PLOT, 5 * RECORD);
        for record in expected.chunks_mut(RECORD) {
            record[4..8].copy_from_slice(&whose.to_le_bytes());
        }
        assert_eq!(bytes, expected, "{whose}");
    }
}

#[test]
fn each_record_is_the_answer_for_its_edge() {
    let (_, bytes) = cut(&TRACE, PLOT, 5 * RECORD);
    let at = |place: usize| Point { x: TRACE[2 * place], y: TRACE[2 * place + 1] };
    for (place, found) in bytes.chunks(RECORD).enumerate() {
        let expected = match clip_edge(at(place), at(place + 1), PLOT) {
            Ok((a, b)) => record(0, [a.x, a.y, b.x, b.y]),
            Err(refusal) => record(refusal.number(), [0.0; 4]),
        };
        assert_eq!(found, expected, "edge {place}");
    }
}

#[test]
fn the_limit_of_cutting() {
    let limit = 2f64.powi(500);
    let back_and_forth = |x| cut(&[1.0, 1.0, x, 1.0, 1.0, 1.0], PLOT, 2 * RECORD);
    let kept = [record(0, [1.0, 1.0, 3.0, 1.0]), record(0, [3.0, 1.0, 1.0, 1.0])].concat();
    assert_eq!(back_and_forth(limit), (Ok(Counts { kept: 2, missed: 0, refused: 0, edges: 2 }), kept));
    let dead = record(2, [0.0; 4]).repeat(2);
    for x in [limit.next_up(), -limit.next_up(), f64::MAX] {
        assert_eq!(back_and_forth(x), (Ok(Counts { kept: 0, missed: 0, refused: 2, edges: 2 }), dead.clone()));
    }
    let wide = |hi| Rect { x: Interval::new(-limit, hi), ..PLOT };
    assert_eq!(cut(&TRACE, wide(limit), 200).0.map(|counts| counts.edges), Ok(5));
    assert_eq!(cut(&TRACE, wide(limit.next_up()), 200), (Err(Refusal::BadWindow), vec![UNTOUCHED; 200]));
}

#[test]
fn a_trace_cut_at_any_sample_gives_the_same_records() {
    let (whole, bytes) = cut(&TRACE, PLOT, 5 * RECORD);
    let whole = whole.expect("there is room");
    for place in 0..6 {
        let (first, mut joined) = cut(&TRACE[..2 * place + 2], PLOT, place * RECORD);
        let (second, rest) = cut(&TRACE[2 * place..], PLOT, (5 - place) * RECORD);
        joined.extend(rest);
        assert_eq!(joined, bytes, "cut at sample {place}");
        let (first, second) = (first.expect("there is room"), second.expect("there is room"));
        let sum = Counts {
            kept: first.kept + second.kept,
            missed: first.missed + second.missed,
            refused: first.refused + second.refused,
            edges: first.edges + second.edges,
        };
        assert_eq!(sum, whole, "cut at sample {place}");
    }
}

#[test]
fn no_edge() {
    for samples in [&[][..], &[1.0, 1.0], &[NAN, NAN]] {
        let (answer, bytes) = cut(samples, PLOT, 3);
        assert_eq!(answer, Ok(Counts::default()));
        assert_eq!(bytes, [UNTOUCHED; 3]);
    }
    assert_eq!(cut(&[], PLOT, 0).0, Ok(Counts::default()));
}

#[test]
fn a_refused_trace_leaves_its_buffer() {
    let long = vec![1.0; 2 * 4097];
    let open = Rect { x: Interval::new(1.0, f64::INFINITY), ..PLOT };
    for (refusal, (answer, bytes)) in [
        (Refusal::BadTrace, cut(&TRACE[..11], TURNED, 40)),
        (Refusal::BadTrace, cut(&long, PLOT, RECORD * 4096)),
        (Refusal::BadTrace, cut(&long[..8193], PLOT, RECORD * 4096)),
        (Refusal::BadWindow, cut(&TRACE, TURNED, 40)),
        (Refusal::BadWindow, cut(&TRACE, open, 200)),
        (Refusal::BadWindow, cut(&[], TURNED, 1)),
        (Refusal::ShortBuffer, cut(&TRACE, PLOT, 199)),
        (Refusal::ShortBuffer, cut(&long[..8192], PLOT, RECORD * 4095 - 1)),
        (Refusal::ShortBuffer, cut(&TRACE, PLOT, 0)),
    ] {
        assert_eq!(answer, Err(refusal));
        assert!(bytes.iter().all(|byte| *byte == UNTOUCHED), "{refusal}");
    }
    assert_eq!(cut(&long[..8192], PLOT, RECORD * 4095).0.map(|counts| counts.kept), Ok(4095), "the longest");
}
