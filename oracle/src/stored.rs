//! The stored list held to the oracle: its parts as `oracle/store` puts them one after the other, and its lines.

use crate::answers::{line_of, request, REQUEST};
use crate::kept::{Kept, KEPT, W10};
use crate::random::Random;
use crate::requests::{before_w10, before_w4, before_w7, lent};
use crate::stream::words;
use crate::whose::Whose;
use crate::{pages, stretches, touching};
use std::collections::BTreeSet;

const REQUESTS: &[u8] = include_bytes!("../../crates/answers/stdin");
const LINES: &str = include_str!("../../crates/answers/stdout");

type Request = [u64; REQUEST];

pub fn requests() -> Vec<Request> {
    REQUESTS.as_chunks::<{ 8 * REQUEST }>().0.iter().map(|bytes| words(bytes)).collect()
}

/// So many of them stood there before W10.
pub fn until_w10() -> usize {
    let w10 = asked(W10);
    let place = requests().windows(w10.len()).position(|run| *run == w10);
    place.expect("the requests that came with W10 stand one after the other: run oracle/store")
}

fn asked(kept: &[Kept]) -> Vec<Request> {
    kept.iter().map(|(_, operation, words)| request(*operation, words)).collect()
}

fn seeded(make: impl Fn(&mut Random) -> Request, count: usize, seed: u64) -> Vec<Request> {
    let mut random = Random::new(seed);
    std::iter::repeat_with(|| make(&mut random)).take(count).collect()
}

/// Whatever moves a word of a seed's requests shows here. Gives back what stands before them.
fn must_end<'a>(stored: &'a [Request], end: &[Request]) -> &'a [Request] {
    let (before, found) = stored.split_at(stored.len() - end.len());
    for (place, (found, expected)) in found.iter().zip(end).enumerate() {
        assert_eq!(found, expected, "the request {place} of {}: run oracle/store", end.len());
    }
    before
}

/// Those of DIFFERENCES.md stand at places that it names.
fn must_begin<'a>(stored: &'a [Request], kept: &[Kept]) -> &'a [Request] {
    let (found, after) = stored.split_at(kept.len());
    for (found, (name, operation, words)) in found.iter().zip(kept) {
        assert_eq!(*found, request(*operation, words), "{name}: run oracle/store");
    }
    after
}

/// Each operation once with each number.
fn must_differ(from_grid: &[Request]) {
    let pairs: BTreeSet<_> = from_grid.iter().map(answered).collect();
    assert_eq!(pairs.len(), from_grid.len(), "run oracle/store");
}

/// The operation and the number that it gives; boxes and the search in them give two.
pub fn answered(request: &Request) -> (u64, String) {
    let line = line_of(request, Whose::Ours);
    let groups: Vec<&str> = line.split_whitespace().collect();
    (request[0], if request[0] == 64 { format!("{},{}", groups[0], groups[2]) } else { groups[0].to_string() })
}

/// Those before the last that are all of such operations, and these.
fn last_of<'a>(stored: &'a [Request], operations: &[u64]) -> (&'a [Request], &'a [Request]) {
    let others = stored.iter().rposition(|request| !operations.contains(&request[0])).expect("other operations");
    stored.split_at(others + 1)
}

#[test]
fn the_parts_in_order() {
    let stored = requests();
    let stored = must_end(&stored, &seeded(pages::request, 300, 8));
    let (stored, from_grid) = last_of(stored, &[64, 65]);
    must_differ(from_grid);
    assert_eq!(from_grid.iter().map(|request| request[0]).collect::<BTreeSet<_>>(), BTreeSet::from([64, 65]));
    let stored = must_end(stored, &seeded(stretches::request, 200, 4));
    let (stored, from_grid) = last_of(stored, &[63]);
    must_differ(from_grid);
    assert!(!from_grid.is_empty());
    let (before, since) = stored.split_at(until_w10());
    let unnumbered = seeded(|random| before_w7(before_w4(random)), 5000, 1);
    let numbered = seeded(|random| before_w10(lent(random)), 300, 2);
    let from_grid = must_begin(must_end(before, &[unnumbered, numbered].concat()), KEPT);
    must_differ(from_grid);
    assert!(from_grid.iter().all(|request| request[0] < 62));
    let from_grid = must_begin(must_end(since, &seeded(touching::request, 200, 3)), W10);
    must_differ(from_grid);
    assert!(!from_grid.is_empty() && from_grid.iter().all(|request| request[0] == 62));
}

/// No line is our program's: they are the crate's, its open zeros and the clamp as `Whose` has them.
#[test]
fn the_lines_are_the_crates() {
    let mut lines = LINES.split_inclusive('\n');
    for (place, request) in requests().iter().enumerate() {
        let expected = line_of(request, Whose::Ours);
        assert_eq!(lines.next(), Some(expected.as_str()), "stored request {}", place + 1);
    }
    let torn = REQUESTS.as_chunks::<{ 8 * REQUEST }>().1;
    assert!(!torn.is_empty() && lines.next() == Some("9\n") && lines.next().is_none(), "a torn end");
}
