//! The floats about the limit of module 4 that seeded requests and records have to have, counted. Each float that is
//! asked has to be the limit itself, the float below it, the one above it, one far beyond it and the greatest, of
//! either sign, and it has to decide: where it is admitted the request is answered, where it is not all others are
//! admitted.

use crate::answers::{line_of, request, FLOATS, REQUEST};
use crate::clip::{admitted, LIMIT};
use crate::floats::power;
use crate::operations::{is_limited, is_paged, is_trace, kinds, words_for, OPERATIONS};
use crate::random::Random;
use crate::records;
use crate::requests::request_of;
use crate::whose::Whose;
use std::collections::BTreeMap;

/// A name, and which magnitudes are of it.
type Class = (&'static str, fn(f64) -> bool);

const CLASSES: [Class; 5] = [
    ("2^500", |magnitude| magnitude == LIMIT),
    ("the float below it", |magnitude| magnitude == LIMIT.next_down()),
    ("the float above it", |magnitude| magnitude == LIMIT.next_up()),
    ("from 2^501 up", |magnitude| power(501) <= magnitude && magnitude < f64::MAX),
    ("the greatest", |magnitude| magnitude == f64::MAX),
];

/// So many requests of an operation, and of them for each float, class and sign at least so many.
const ASKED: usize = 50_000;
const LEAST: u64 = 5;

/// How often a float, by its place among the words, was of a class and of a sign.
type Seen = BTreeMap<(usize, &'static str, bool), u64>;

/// The floats that are read, and their places.
fn floats_of(request: &[u64; REQUEST]) -> Vec<(usize, f64)> {
    let (mut floats, mut place) = (Vec::new(), 1);
    for kind in kinds(request[0]).0.chars() {
        let read = match kind {
            'f' | 'p' | 'i' | 'r' => words_for(kind),
            'S' => request[1].min(FLOATS as u64) as usize,
            _ => 0,
        };
        floats.extend((place..place + read).map(|place| (place, f64::from_bits(request[place]))));
        place += words_for(kind);
    }
    floats
}

fn see(seen: &mut Seen, request: &[u64; REQUEST]) {
    let floats = floats_of(request);
    let refused: Vec<usize> = floats.iter().filter(|(_, x)| !admitted(*x)).map(|(place, _)| *place).collect();
    let line = line_of(request, Whose::Ours);
    let groups: Vec<&str> = line.split_whitespace().collect();
    // Of boxes and the search in them the search's.
    let number: u64 = groups[if request[0] == 64 { 2 } else { 0 }].parse().expect("a number");
    // A trace without an edge shows nothing of its sample; one that is refused with 10, nothing of its floats.
    if number > 3 || (is_trace(request[0]) || is_paged(request[0])) && floats.len() < 8 {
        return;
    }
    // Where every box is shut, the search shows nothing of the samples.
    let shown = if request[0] == 65 && number == 1 && groups[2].ends_with("01") { 6 } else { REQUEST };
    for (place, x) in floats.into_iter().filter(|(place, _)| *place <= shown) {
        let decides = if admitted(x) { refused.is_empty() && number < 2 } else { refused == [place] };
        for (name, is_such) in CLASSES {
            if decides && is_such(x.abs()) {
                *seen.entry((place, name, x.is_sign_negative())).or_default() += 1;
            }
        }
    }
}

/// Every float of an operation's longest request.
fn must_have_all(seen: &Seen, operation: u64, what: &str) {
    for (place, _) in floats_of(&request(operation, &[u64::MAX])) {
        for (name, _) in CLASSES {
            for negative in [false, true] {
                let times = seen.get(&(place, name, negative)).copied().unwrap_or(0);
                let sign = if negative { "minus " } else { "" };
                assert!(times >= LEAST, "{what}: word {place} was {sign}{name} {times} times");
            }
        }
    }
}

#[test]
fn requests_about_the_limit() {
    let operations = OPERATIONS.map(|(operation, _, _)| operation).into_iter();
    let limited: Vec<u64> = operations.filter(|operation| is_limited(*operation)).collect();
    assert_eq!(limited, [30, 31, 32, 33, 34, 35, 61, 62, 63, 64, 65]);
    for operation in limited {
        let (mut random, mut seen) = (Random::new(1), Seen::new());
        // Half of those for 61 ask 62.
        let requests = std::iter::repeat_with(|| request_of(&mut random, operation));
        // Many of 65 are refused for their room, or show nothing of a sample.
        let count = if operation == 65 { 2 * ASKED } else { ASKED };
        for request in requests.filter(|request| request[0] == operation).take(count) {
            see(&mut seen, &request);
        }
        must_have_all(&seen, operation, &format!("operation {operation}"));
    }
}

#[test]
fn records_about_the_limit() {
    let (mut random, mut seen) = (Random::new(1), Seen::new());
    for _ in 0..ASKED {
        see(&mut seen, &request(34, &records::edge(&mut random).map(f64::to_bits)));
    }
    must_have_all(&seen, 34, "records of edges");
}
