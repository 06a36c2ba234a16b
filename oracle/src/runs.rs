//! The runs of clean samples, the samples and the refusals that seeded requests and inputs of `stretches.rs` and the
//! stored list have to have, counted; and that operation 63 moves no other request of a seed.

use crate::answers::{line_of as answered, FLOATS, REQUEST};
use crate::classes::{must_be_seen, Seen};
use crate::clip::{admit_window, admitted};
use crate::finite::Floats;
use crate::r1::interval::Interval;
use crate::r2::{point::Point, rect::Rect};
use crate::random::Random;
use crate::requests::{before_w4, before_w6, stretch_or};
use crate::stored;
use crate::stretch::is_clean;
use crate::stretches::{input, request};
use crate::trace::SAMPLES;
use crate::whose::Whose;
use crate::words::Arguments;
use std::collections::BTreeSet;

/// How many samples each run of clean ones has.
fn runs_of(samples: &[Point], window: &Rect) -> Vec<usize> {
    let runs = samples.split(|sample| !is_clean(sample, window));
    runs.map(<[Point]>::len).filter(|length| *length > 0).collect()
}

fn see(seen: &mut Seen, names: &[(bool, &'static str)]) {
    for (holds, name) in names {
        *seen.entry(name).or_default() += u64::from(*holds);
    }
}

fn see_refusals(seen: &mut Seen, floats: u64, window: &Rect) {
    see(
        seen,
        &[
            (floats % 2 == 1, "an odd count"),
            (floats % 2 == 1 && admit_window(window).is_err(), "an odd count, and a bad window"),
            (window.x.lo > window.x.hi, "lo > hi in x"),
            (window.y.lo > window.y.hi, "lo > hi in y"),
            (!window.all(f64::is_finite), "a side that is not finite"),
            (window.all(f64::is_finite) && !window.all(admitted), "a side beyond the limit"),
            (floats == 0 && admit_window(window).is_err(), "no sample, and a bad window"),
        ],
    );
}

fn see_samples(seen: &mut Seen, samples: &[Point], window: &Rect) {
    let at_side = |x: f64, sides: Interval| x == sides.lo || x == sides.hi;
    let is_next = |x: f64, sides: Interval| x == sides.lo.next_down() || x == sides.hi.next_up();
    for sample in samples {
        let dead = [!admitted(sample.x), !admitted(sample.y)];
        let sides = [at_side(sample.x, window.x), at_side(sample.y, window.y)];
        let holds = [window.x.contains(sample.x), window.y.contains(sample.y)];
        see(
            seen,
            &[
                (dead == [true, false] && holds[1], "dead in x alone"),
                (dead == [false, true] && holds[0], "dead in y alone"),
                (dead == [true, true], "dead in both"),
                (holds == [true, true] && sides == [true, true], "at a corner"),
                (holds == [true, true] && sides[0] != sides[1], "on a side"),
                (holds == [true, true] && sides == [false, false], "inside"),
                (holds[1] && is_next(sample.x, window.x) && !dead[0], "one float beyond a side in x"),
                (holds[0] && is_next(sample.y, window.y) && !dead[1], "one float beyond a side in y"),
                (holds == [false, false] && dead == [false, false], "outside in both"),
            ],
        );
    }
}

fn see_runs(seen: &mut Seen, samples: &[Point], window: &Rect) {
    let runs = runs_of(samples, window);
    let longest = runs.iter().copied().max().unwrap_or(0);
    let as_long = runs.iter().filter(|length| **length == longest).count();
    let (many, last) = (runs.len() > 1, runs.last().unwrap_or(&0));
    let clean_last = samples.last().is_some_and(|sample| is_clean(sample, window));
    let dead = |sample: &Point| !sample.all(admitted);
    see(
        seen,
        &[
            (samples.is_empty(), "no sample"),
            (!samples.is_empty() && runs.is_empty(), "none is clean"),
            (samples.len() > 2 && samples.iter().all(dead), "all are dead"),
            (longest == samples.len() && longest > 1, "all are clean"),
            (many && as_long == 1 && runs[0] == longest, "the first run alone is the longest"),
            (many && as_long == 1 && *last == longest, "the last run alone is the longest"),
            (many && as_long == 1 && *last == longest && clean_last, "it ends with the trace"),
            (as_long == 1 && runs[0] < longest && *last < longest, "one between alone is the longest"),
            (as_long == 2 && longest > 1, "two are as long, and not one sample"),
            (as_long > 2, "more than two are as long"),
            (as_long > 1 && runs[0] < longest, "two are as long, and a shorter one is before them"),
            (runs.iter().any(|length| *length + 1 == longest), "one is a sample shorter"),
        ],
    );
}

fn see_trace(seen: &mut Seen, samples: &[Point], window: &Rect) {
    if admit_window(window).is_ok() {
        see_samples(seen, samples, window);
        see_runs(seen, samples, window);
    }
}

fn see_request(seen: &mut Seen, request: &[u64; REQUEST]) {
    assert_eq!(request[0], 63);
    let mut a = Arguments::new(&request[1..]);
    let (count, window): (u64, Rect) = (a.take(), a.take());
    let floats = count.min(FLOATS as u64);
    see(seen, &[(count > FLOATS as u64, "more than sixteen floats"), (floats == 2, "one sample")]);
    see_refusals(seen, floats, &window);
    if floats % 2 == 0 {
        let samples: Vec<Point> = (0..floats / 2).map(|_| a.take()).collect();
        see_trace(seen, &samples, &window);
    }
}

#[test]
fn requests_of_every_kind() {
    let (mut random, mut seen) = (Random::new(1), Seen::new());
    (0..20_000).for_each(|_| see_request(&mut seen, &request(&mut random)));
    must_be_seen(&seen, &seen.keys().copied().collect::<Vec<_>>(), 30);
}

#[test]
fn stored_requests_of_every_kind() {
    let mut seen = Seen::new();
    let requests = stored::requests();
    requests.iter().filter(|request| request[0] == 63).for_each(|request| see_request(&mut seen, request));
    must_be_seen(&seen, &seen.keys().copied().collect::<Vec<_>>(), 1);
}

#[test]
fn requests_of_every_number() {
    let mut random = Random::new(1);
    let answered: BTreeSet<_> = (0..1000).map(|_| stored::answered(&request(&mut random))).collect();
    assert_eq!(answered.into_iter().collect::<Vec<_>>(), ["0", "10", "3"].map(|number| (63, number.to_string())));
}

#[test]
fn inputs_of_every_kind() {
    let (mut random, mut seen) = (Random::new(1), Seen::new());
    for _ in 0..1000 {
        let input = input(&mut random);
        let (words, torn) = input.as_chunks();
        let words: Vec<u64> = words.iter().map(|bytes| u64::from_le_bytes(*bytes)).collect();
        let window: Rect = Arguments::new(&words).take();
        let samples = words[4..].as_chunks::<2>().0.iter().map(|words| Arguments::new(words).take());
        let samples: Vec<Point> = samples.collect();
        let torn = !torn.is_empty() || words.len() % 2 == 1;
        see(
            &mut seen,
            &[
                (torn, "a torn sample"),
                (torn && samples.len() == SAMPLES, "a torn sample after 4,096"),
                (admit_window(&window).is_err(), "a bad window"),
                (samples.len() == SAMPLES, "4,096 samples"),
                (samples.len() == SAMPLES - 1, "4,095 samples"),
                (samples.len() == SAMPLES + 1, "4,097 samples"),
                (samples.len() > SAMPLES + 1, "more"),
            ],
        );
        if samples.len() <= SAMPLES {
            see_trace(&mut seen, &samples, &window);
        }
    }
    must_be_seen(&seen, &seen.keys().copied().collect::<Vec<_>>(), 3);
}

/// Each request of a seed is that of before W4, or one of 63 in its place.
#[test]
fn no_other_request_moves() {
    let (mut random, mut before) = (Random::new(1), Random::new(1));
    let mut taken = 0;
    for _ in 0..20_000 {
        let (request, before) = (before_w6(&mut random), before_w4(&mut before));
        assert_eq!(request, stretch_or(before));
        if request != before {
            assert_eq!(request[0], 63);
            assert!(![61, 62].contains(&before[0]), "it reads the last word");
            taken += 1;
        }
    }
    assert!((500..700).contains(&taken), "one of 32, but for those of 61 and 62: {taken} of 20,000");
}

/// The words after the arguments are not read.
#[test]
fn words_that_are_not_read() {
    let mut random = Random::new(1);
    for _ in 0..100 {
        let mut request = request(&mut random);
        let line = answered(&request, Whose::Ours);
        request[22..].iter_mut().for_each(|word| *word = !*word);
        assert_eq!(answered(&request, Whose::Ours), line);
        let last = 6 + request[1].min(FLOATS as u64) as usize;
        request[last..22].iter_mut().for_each(|word| *word = 0);
        assert_eq!(answered(&request, Whose::Ours), line, "floats beyond the count");
    }
}
