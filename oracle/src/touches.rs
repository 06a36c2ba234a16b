//! Change request W10: an edge that only touches the window is missed by operation 61 and kept by 62. And the touches
//! that seeded requests and the stored list have to have.

use crate::answers::{line_of, request, FLOATS, REQUEST};
use crate::classes::{must_be_seen, see_edges, Seen, CLOSE, TOUCHES};
use crate::operations::is_trace;
use crate::random::Random;
use crate::requests::{before_w10, filled, request_of};
use crate::stored;
use crate::touching;
use crate::walk::RECORD;
use crate::whose::{Whose, Whose::Crates, Whose::Ours};
use std::collections::{BTreeMap, BTreeSet};

const NAN: f64 = f64::NAN;
/// Low corner, high corner.
const WINDOW: [f64; 4] = [1.0, 0.0, 3.0, 2.0];

/// The number of an edge and its points.
type Edge = (u8, [f64; 4]);
const MISSED: Edge = (1, [0.0; 4]);
const DEAD: Edge = (2, [0.0; 4]);

/// What the line of an answered trace shows.
#[derive(PartialEq, Debug)]
struct Shown {
    /// Kept, missed, refused, all.
    counts: [usize; 4],
    records: Vec<[u8; RECORD]>,
    rest: Vec<u8>,
}

fn shown(line: &str) -> Option<Shown> {
    let groups: Vec<&str> = line.strip_prefix("0 ")?.split_whitespace().collect();
    let counts: [usize; 4] = std::array::from_fn(|place| usize::from_str_radix(groups[place], 16).expect("a count"));
    let digits = groups.get(4).copied().unwrap_or_default().as_bytes().as_chunks::<2>().0;
    let byte = |pair: &[u8; 2]| u8::from_str_radix(std::str::from_utf8(pair).expect("digits"), 16).expect("a byte");
    let bytes: Vec<u8> = digits.iter().map(byte).collect();
    let (records, rest) = bytes.split_at(RECORD * counts[3]);
    Some(Shown { counts, records: records.as_chunks().0.to_vec(), rest: rest.to_vec() })
}

/// By operation 61 and by 62, with the trace number 7 and a buffer that the records fill.
fn ask(whose: Whose, window: [f64; 4], samples: &[[f64; 2]]) -> [Shown; 2] {
    let mut words = [0; REQUEST - 1];
    words[..2].copy_from_slice(&[2 * samples.len() as u64, (RECORD * (samples.len() - 1)) as u64]);
    for (word, float) in words[2..].iter_mut().zip(window.iter().chain(samples.as_flattened())) {
        *word = float.to_bits();
    }
    words[2 + 4 + FLOATS] = 7;
    [61, 62].map(|operation| shown(&line_of(&request(operation, &words), whose)).expect("it is answered"))
}

/// What `ask` gives for edges of these numbers and points.
fn expected(edges: &[Edge]) -> Shown {
    let bytes = |(number, floats): &Edge| {
        let floats = floats.iter().flat_map(|float| float.to_le_bytes());
        [*number, 0, 0, 0, 7, 0, 0, 0].into_iter().chain(floats).collect::<Vec<u8>>()
    };
    let records = edges.iter().map(|edge| bytes(edge).try_into().expect("as long as a record")).collect();
    let count = |number: u8| edges.iter().filter(|edge| edge.0 == number).count();
    Shown { counts: [count(0), count(1), count(2), edges.len()], records, rest: Vec::new() }
}

/// Missed by 61; by 62 kept, with these points.
fn must_touch(a: [f64; 2], b: [f64; 2], window: [f64; 4], kept: [f64; 4]) {
    let expected = [expected(&[MISSED]), expected(&[(0, kept)])];
    assert_eq!(ask(Crates, window, &[a, b]), expected, "{a:?} to {b:?}");
}

/// By both.
fn must_be_kept(a: [f64; 2], b: [f64; 2], window: [f64; 4], kept: [f64; 4]) {
    let expected = [(); 2].map(|()| expected(&[(0, kept)]));
    assert_eq!(ask(Crates, window, &[a, b]), expected, "{a:?} to {b:?}");
}

#[test]
fn p3() {
    must_touch([0.0, 0.0], [1.0, 1.0], [1.0, 1.0, 2.0, 2.0], [1.0; 4]);
    must_touch([1.0, 1.0], [0.0, 0.0], [1.0, 1.0, 2.0, 2.0], [1.0; 4]);
}

#[test]
fn every_kind() {
    must_touch([0.0, 1.0], [2.0, -1.0], WINDOW, [1.0, 0.0, 1.0, 0.0]);
    must_touch([0.0, 0.0], [1.0, 1.0], WINDOW, [1.0; 4]);
    must_touch([2.0, 2.0], [0.0, 9.0], WINDOW, [2.0; 4]);
    let [point, narrow, low] = [[1.0; 4], [1.0, 0.0, 1.0, 2.0], [0.0, 1.0, 2.0, 1.0]];
    for window in [point, narrow, low] {
        must_touch([0.0, 0.0], [2.0, 2.0], window, [1.0; 4]);
        must_touch([1.0, 1.0], [2.0, 2.0], window, [1.0; 4]);
        must_touch([0.0, 2.0], [1.0, 1.0], window, [1.0; 4]);
    }
}

#[test]
fn records_and_counts() {
    let samples = [[0.0, 1.0], [1.0, 1.0], [1.0, 1.0], [2.0, 1.0], [2.0, 5.0], [3.0, 2.0], [4.0, 1.0], [4.0, NAN]];
    let [side, corner] = [(0, [1.0; 4]), (0, [3.0, 2.0, 3.0, 2.0])];
    let [level, upright] = [(0, [1.0, 1.0, 2.0, 1.0]), (0, [2.0, 1.0, 2.0, 2.0])];
    let [without, with] = ask(Crates, WINDOW, &samples);
    assert_eq!(without, expected(&[MISSED, side, level, upright, MISSED, MISSED, DEAD]));
    assert_eq!(with, expected(&[side, side, level, upright, corner, corner, DEAD]));
    assert_eq!((without.counts, with.counts), ([3, 3, 1, 7], [6, 0, 1, 7]));
}

/// -0 and 0 are one number.
#[test]
fn zeros_of_either_sign() {
    for (zero, other) in [(0.0, -0.0), (-0.0, 0.0)] {
        must_touch([-1.0, 0.5], [zero, 0.5], [other, -1.0, 1.0, 1.0], [other, 0.5, zero, 0.5]);
        must_touch([0.5, -1.0], [0.5, zero], [-1.0, other, 1.0, 1.0], [0.5, other, 0.5, zero]);
        must_touch([-1.0, -1.0], [zero, zero], [other, other, 1.0, 1.0], [other, 0.0, zero, zero]);
        // The ends are one point, though their bits differ; the box has the first one's zeros.
        must_be_kept([zero, 0.5], [other, 0.5], [-1.0, -1.0, 1.0, 1.0], [zero, 0.5, zero, 0.5]);
        must_be_kept([0.5, zero], [0.5, other], [0.0, 0.0, 1.0, 1.0], [0.5, zero, 0.5, zero]);
        must_be_kept([zero, other], [other, zero], [0.0; 4], [zero, other, zero, other]);
    }
}

#[test]
fn one_coordinate_alone() {
    must_be_kept([0.0, 1.0], [4.0, 1.0], WINDOW, [1.0, 1.0, 3.0, 1.0]);
    must_be_kept([2.0, -1.0], [2.0, 3.0], WINDOW, [2.0, 0.0, 2.0, 2.0]);
    must_be_kept([0.0, 2.0], [4.0, 2.0], WINDOW, [1.0, 2.0, 3.0, 2.0]);
    must_be_kept([1.0, -1.0], [1.0, 3.0], [1.0, 0.0, 1.0, 2.0], [1.0, 0.0, 1.0, 2.0]);
    must_be_kept([0.0, 1.0], [3.0, 1.0], [0.0, 1.0, 2.0, 1.0], [0.0, 1.0, 2.0, 1.0]);
    must_be_kept([-0.0, 1.0], [0.0, 2.0], [0.0, 0.0, 0.0, 2.0], [-0.0, 1.0, -0.0, 2.0]);
    let next = 1f64.next_up();
    must_be_kept([1.0, 1.0], [next, 1.0], [1.0, 1.0, next, 1.0], [1.0, 1.0, next, 1.0]);
}

#[test]
fn equal_ends() {
    for [x, y] in [[2.0, 1.0], [1.0, 1.0], [2.0, 2.0], [1.0, 0.0], [3.0, 2.0]] {
        for window in [WINDOW, [x, y, x, y], [x, 0.0, x, 2.0], [1.0, y, 3.0, y]] {
            must_be_kept([x, y], [x, y], window, [x, y, x, y]);
        }
    }
    let missed = [(); 2].map(|()| expected(&[MISSED]));
    assert_eq!(ask(Crates, WINDOW, &[[0.0, 0.0]; 2]), missed, "outside");
}

/// With u = 2^-1074: at x = 5u the crate misses (0,-0.06) to (10u,0.04), of which the clamp keeps one point.
#[test]
fn a_touch_that_the_crate_misses() {
    let [middle, end] = [5, 10].map(f64::from_bits);
    let ask = |whose| ask(whose, [middle, -1.0, middle, 1.0], &[[0.0, -0.06], [end, 0.04]]);
    let touch = (0, [middle, 0.04, middle, 0.04]);
    assert_eq!(ask(Crates), [expected(&[MISSED]), expected(&[MISSED])]);
    assert_eq!(ask(Ours), [expected(&[MISSED]), expected(&[touch])]);
}

/// The record of 61, from that of 62 and the edge's own ends; none where it is the same.
fn dropped(record: &[u8; RECORD], ends: &[f64]) -> Option<[u8; RECORD]> {
    let kept: Vec<f64> = record[8..].as_chunks().0.iter().map(|bytes| f64::from_le_bytes(*bytes)).collect();
    let touches = record[0] == 0 && kept[..2] == kept[2..] && ends[..2] != ends[2..];
    let trace_number = &record[4..8];
    touches.then(|| [&[1, 0, 0, 0], trace_number, &[0; 32]].concat().try_into().expect("as long"))
}

/// Gives back how many of a trace's edges only touch: 61 has so many more missed than 62.
fn must_differ_in_touches(mut asked: [u64; REQUEST], whose: Whose) -> usize {
    let [line, with_touches] = [61, 62].map(|operation| {
        asked[0] = operation;
        line_of(&asked, whose)
    });
    let (Some(found), Some(with)) = (shown(&line), shown(&with_touches)) else {
        assert_eq!(line, with_touches, "refused alike");
        return 0;
    };
    let samples: Vec<f64> = asked[7..].iter().map(|word| f64::from_bits(*word)).collect();
    let edges = with.records.iter().zip(samples.windows(4).step_by(2));
    let dropped: Vec<_> = edges.map(|(record, ends)| dropped(record, ends)).collect();
    let touches = dropped.iter().flatten().count();
    let records = dropped.into_iter().zip(&with.records).map(|(dropped, record)| dropped.unwrap_or(*record)).collect();
    let [kept, missed, refused, edges] = with.counts;
    let counts = [kept - touches, missed + touches, refused, edges];
    assert_eq!(found, Shown { counts, records, rest: with.rest }, "{asked:x?}");
    touches
}

#[test]
fn the_two_differ_in_touches_alone() {
    let of_trace = |random: &mut Random| request_of(random, 61);
    let makers: [fn(&mut Random) -> [u64; REQUEST]; 2] = [of_trace, touching::request];
    for (make, least) in makers.into_iter().zip([200, 1000]) {
        for whose in [Crates, Ours] {
            let mut random = Random::new(1);
            let touches: usize = (0..3000).map(|_| must_differ_in_touches(make(&mut random), whose)).sum();
            assert!(touches >= least, "{touches} touches");
        }
    }
}

/// Which of the two is asked is made of the word that was drawn for the operation's place, so that it moves no other
/// word of a seed's requests.
#[test]
fn which_of_the_two_takes_no_draw() {
    for operation in [34, 60, 61, 62] {
        let (mut random, mut drawn) = (Random::new(1), Random::new(1));
        for _ in 0..100 {
            let request = filled(&mut random, operation, Vec::new());
            let drawn = [0; REQUEST].map(|_| drawn.word());
            let with_touches = operation == 61 && drawn[0] >> 63 == 1;
            assert_eq!(request[0], if with_touches { 62 } else { operation });
            assert_eq!(request[1..11], drawn[1..11], "operation {operation}");
        }
    }
}

#[test]
fn requests_before_w10() {
    let mut random = Random::new(1);
    for (operation, before_it) in [(30, 30), (60, 60), (61, 61), (62, 61), (63, 63)] {
        let mut now = [0; REQUEST].map(|_| random.word());
        now[0] = operation;
        let mut before = now;
        before[0] = before_it;
        assert_eq!(before_w10(now), before, "operation {operation}");
    }
}

/// So many touches of every kind, and of all that is close to one, by either operation.
fn must_have_touches(requests: impl Iterator<Item = [u64; REQUEST]>, touches: u64, close: u64) {
    let mut seen: BTreeMap<u64, Seen> = BTreeMap::new();
    for request in requests.filter(|request| is_trace(request[0])) {
        see_edges(seen.entry(request[0]).or_default(), &request);
    }
    for operation in [61, 62] {
        println!("operation {operation}:");
        must_be_seen(&seen[&operation], &TOUCHES, touches);
        must_be_seen(&seen[&operation], &CLOSE, close);
    }
}

#[test]
fn touching_requests_of_every_kind() {
    let mut random = Random::new(1);
    must_have_touches((0..20_000).map(|_| touching::request(&mut random)), 150, 30);
}

#[test]
fn touching_requests_of_every_number() {
    let mut random = Random::new(1);
    let answered: BTreeSet<_> = (0..1000).map(|_| stored::answered(&touching::request(&mut random))).collect();
    let expected = [61, 62].map(|operation| ["0", "10", "3", "8"].map(|number| (operation, number.to_string())));
    assert_eq!(answered.into_iter().collect::<Vec<_>>(), expected.concat());
}

#[test]
fn seeded_requests_of_every_kind() {
    let mut random = Random::new(1);
    must_have_touches((0..20_000).map(|_| request_of(&mut random, 61)), 10, 3);
}

#[test]
fn stored_requests_of_every_kind() {
    must_have_touches(stored::requests().into_iter(), 1, 1);
}
