//! `oracle requests`: seeded requests for the answering program, every operation among them.
//!
//! The floats of a request come from one family (see `floats.rs`; in one request of eight each has its own), for
//! operations 30 to 35 and traces one that module 4 admits. Intervals and rectangles are put in order, but for one axis
//! in eight. Most requests of operations 30 to 35 are shaped after an edge and a window of `oracle records edges`,
//! normals after what is close to a tie, half of the exits of operation 55 are corners (see `shapes.rs`); operations 61
//! and 62, each as often, have traces (see `traces.rs`). In the others up to two floats are bound: equal to another,
//! next to it, opposite, the sum of two, or a zero of either sign. Last, in one request of 16 a float is not finite, in
//! one of 64 two are; of operations 30 to 35 and traces as many are beyond module 4's limit, and in one request of
//! eight a float is at it. Faces, axes and directions are too great in one of 16, a buffer has any length, and in one
//! request of 64 the operation is any word. A trace number is 0 in two of eight; as often as each other it is small,
//! next to a power of 256 or the power, one byte that is not 0 among zeros, 4294967295, a word from 2^32 up, its low
//! half 0, 1 or any, and any word. The words after the arguments are random: they have to be ignored.
//!
//! In place of one request of 32 stands one of operation 63, made as `stretches.rs` says. Change request W4 came when
//! seeds were in use, so it moves no other: it is made of the last word of the request whose place it takes, which that
//! request's operation does not read, with no draw more. `oracle requests N SEED before W4` has those requests. Change
//! request W6 in its turn puts one of operation 64 or 65, made as `pages.rs` says, in place of one of 32.
//!
//! `oracle lent`: such requests of the operations that write records alone.
//! `oracle before`: seeded requests from before W4 as their seed gave them before another change request: before W10 by
//! 61 for 62, before W7 with 0 for a trace number too.

use crate::answers::REQUEST;
use crate::floats::{at_limit, beyond_limit, neighbour, not_finite, zero, Family};
use crate::operations::{is_limited, is_paged, kinds, trace_number_place, words_for, DRAWN, HARD, LENT, OPERATIONS};
use crate::random::Random;
use crate::shapes;
use crate::stream::{read_full, words, write_words};
use crate::{pages, stretches, traces};
use std::io::{self, BufReader, BufWriter, Write};

#[derive(Clone, Copy)]
pub enum Word {
    Float(f64),
    Plain(u64),
}

/// No operation.
const UNLISTED: u64 = u64::MAX;

/// A line of progress after so many requests.
const PROGRESS: u64 = 1_000_000;

pub fn run(request: fn(&mut Random) -> [u64; REQUEST], count: u64, seed: u64) -> io::Result<()> {
    let mut random = Random::new(seed);
    let mut output = BufWriter::with_capacity(1 << 16, io::stdout().lock());
    for done in 1..=count {
        write_words(&mut output, &request(&mut random))?;
        if done % PROGRESS == 0 && count > PROGRESS {
            eprintln!("requests: {done} of {count}");
        }
    }
    output.flush()
}

pub fn request(random: &mut Random) -> [u64; REQUEST] {
    page_or(before_w6(random))
}

pub fn before_w6(random: &mut Random) -> [u64; REQUEST] {
    stretch_or(before_w4(random))
}

/// A request of 64 or 65 in place of some. The word that it is made of has told whether 63 stands there, so that it is
/// taken with every bit turned.
pub fn page_or(request: [u64; REQUEST]) -> [u64; REQUEST] {
    let last = REQUEST - 1;
    let mut random = Random::new(!request[last]);
    let is_read = is_paged(request[0]) || trace_number_place(request[0]) == Some(last);
    if !is_read && random.once_in(32) {
        pages::request(&mut random)
    } else {
        request
    }
}

/// A request of 63 in place of some, made of a word that was drawn and is not read.
pub fn stretch_or(request: [u64; REQUEST]) -> [u64; REQUEST] {
    let last = REQUEST - 1;
    let mut random = Random::new(request[last]);
    if trace_number_place(request[0]) != Some(last) && random.once_in(32) {
        request_of(&mut random, 63)
    } else {
        request
    }
}

/// Before W4 63 was not listed, nor 64 and 65. Where any word is the operation and it is one of them, the others are
/// drawn as they were then: the requests after it stay.
pub fn before_w4(random: &mut Random) -> [u64; REQUEST] {
    match operation(random) {
        operation @ 63..=65 => {
            let mut request = request_of(random, UNLISTED);
            request[0] = operation;
            request
        }
        operation => request_of(random, operation),
    }
}

pub fn lent(random: &mut Random) -> [u64; REQUEST] {
    let operation = random.pick(&LENT[..LENT.len() - 1]);
    request_of(random, operation)
}

pub fn run_before(landing: &str) -> io::Result<()> {
    let before = match landing {
        "W7" => before_w7,
        "W10" => before_w10,
        _ => return Err(io::Error::other(format!("no requests are known from before {landing:?}: W7, W10"))),
    };
    let mut input = BufReader::with_capacity(1 << 16, io::stdin().lock());
    let mut output = BufWriter::with_capacity(1 << 16, io::stdout().lock());
    let mut request = [0; 8 * REQUEST];
    loop {
        match read_full(&mut input, &mut request)? {
            0 => return output.flush(),
            length if length < request.len() => return Err(io::Error::other("the input ends inside a request")),
            _ => write_words(&mut output, &before(words(&request)))?,
        }
    }
}

pub fn before_w7(request: [u64; REQUEST]) -> [u64; REQUEST] {
    let mut request = before_w10(request);
    if let Some(place) = trace_number_place(request[0]) {
        request[place] = 0;
    }
    request
}

pub fn before_w10(mut request: [u64; REQUEST]) -> [u64; REQUEST] {
    if request[0] == 62 {
        request[0] = 61;
    }
    request
}

pub fn request_of(random: &mut Random, operation: u64) -> [u64; REQUEST] {
    let mut arguments = match operation {
        30..=35 if !random.once_in(4) => shapes::around_edge(random, operation),
        55 if random.coin() => shapes::at_corner(random),
        61 | 62 => traces::arguments(random),
        63 => stretches::arguments(random),
        64 | 65 => pages::arguments(random, operation),
        _ => plain_arguments(random, operation),
    };
    spoil(random, operation, &mut floats_of(&mut arguments));
    filled(random, operation, arguments)
}

/// The words after the arguments are random. Whether a trace is asked by 61 or 62, and the trace number, are made of
/// the words that were drawn for their places, with no draw more: they move no other word of a seed's requests.
pub fn filled(random: &mut Random, operation: u64, arguments: Vec<Word>) -> [u64; REQUEST] {
    let mut request: [u64; REQUEST] = std::array::from_fn(|_| random.word());
    let with_touches = operation == 61 && request[0] >> 63 == 1;
    request[0] = if with_touches { 62 } else { operation };
    for (word, argument) in request[1..].iter_mut().zip(arguments) {
        *word = match argument {
            Word::Float(value) => value.to_bits(),
            Word::Plain(value) => value,
        };
    }
    if let Some(place) = trace_number_place(operation) {
        request[place] = trace_number(request[place]);
    }
    request
}

fn trace_number(drawn: u64) -> u64 {
    let mut random = Random::new(drawn);
    let any = random.word();
    let byte = random.between(0, 3);
    match random.below(8) {
        0 | 1 => 0,
        2 => 1 + any % 16,
        3 => (1 << (8 * byte.max(1))) - 1 + any % 3,
        4 => (1 + any % 255) << (8 * byte),
        5 => u32::MAX.into(),
        6 => random.pick(&[1, any >> 32 | 1, u32::MAX.into()]) << 32 | random.pick(&[0, 1, any & u64::from(u32::MAX)]),
        _ => any,
    }
}

fn floats_of(words: &mut [Word]) -> Vec<&mut f64> {
    let float = |word| match word {
        &mut Word::Float(ref mut value) => Some(value),
        Word::Plain(_) => None,
    };
    words.iter_mut().filter_map(float).collect()
}

fn operation(random: &mut Random) -> u64 {
    if random.once_in(64) {
        let any = random.word();
        return random.pick(&[any, any % 80, any % 512]);
    }
    if random.once_in(4) {
        random.pick(&HARD)
    } else {
        random.pick(&OPERATIONS[..DRAWN]).0
    }
}

fn plain_arguments(random: &mut Random, operation: u64) -> Vec<Word> {
    let any = if is_limited(operation) { Family::admitted } else { Family::any };
    let shared = any(random);
    let mixed = random.once_in(8);
    let mut arguments = Vec::new();
    // `filled` makes the trace number; nothing is drawn for it here.
    for kind in kinds(operation).0.trim_end_matches('N').chars() {
        let family = if mixed { any(random) } else { shared };
        match kind {
            'F' => arguments.push(Word::Plain(limited(random, 5))),
            'A' => arguments.push(Word::Plain(limited(random, 2))),
            'D' => arguments.push(Word::Plain(limited(random, 1))),
            'b' => arguments.push(Word::Plain(zero_or_not(random))),
            'L' => arguments.push(Word::Plain(length(random))),
            _ => arguments.extend(floats(random, kind, family).into_iter().map(Word::Float)),
        }
    }
    bind(random, &mut floats_of(&mut arguments));
    arguments
}

fn floats(random: &mut Random, kind: char, family: Family) -> Vec<f64> {
    if kind == 'n' {
        return shapes::normal(random, family).to_vec();
    }
    let mut floats: Vec<f64> = (0..words_for(kind)).map(|_| family.draw(random)).collect();
    // The sides of an interval are neighbours, those of a rectangle's axis two apart.
    let apart = match kind {
        'i' => 1,
        'r' => 2,
        _ => return floats,
    };
    for low in 0..apart {
        let in_order = floats[low] <= floats[low + apart];
        if in_order == random.once_in(8) {
            floats.swap(low, low + apart);
        }
    }
    floats
}

/// 0 to `limit`, but for one in 16; then above it, also where only the low byte is below it.
fn limited(random: &mut Random, limit: u64) -> u64 {
    if random.once_in(16) {
        let any = random.word();
        random.pick(&[limit + 1, limit + 2, 255, 256, 256 + limit, any])
    } else {
        random.below(limit + 1)
    }
}

pub fn zero_or_not(random: &mut Random) -> u64 {
    let any = random.word();
    random.pick(&[0, 0, 0, 1, 1, 1, 2, 256, 1 << 32, any])
}

/// Room for all records, about a whole number of records, or anything.
fn length(random: &mut Random) -> u64 {
    let any = random.word();
    match random.below(8) {
        0..=3 => random.between(240, 400) as u64,
        4..=6 => (40 * random.below(8) + random.below(3)).saturating_sub(1),
        _ => random.pick(&[any, any % 512, 0, 400, 401]),
    }
}

fn bind(random: &mut Random, floats: &mut [&mut f64]) {
    if floats.is_empty() {
        return;
    }
    for _ in 0..random.below(3) {
        let (one, two) = (*floats[random.index(floats.len())], *floats[random.index(floats.len())]);
        let bound = match random.below(5) {
            0 => one,
            1 => neighbour(random, one),
            2 => -one,
            3 => one + two,
            _ => zero(random),
        };
        if bound.is_finite() {
            *floats[random.index(floats.len())] = bound;
        }
    }
}

fn spoil(random: &mut Random, operation: u64, floats: &mut [&mut f64]) {
    if is_limited(operation) {
        let count = random.once_in(8).into();
        set(random, floats, count, at_limit);
        let count = seldom(random);
        set(random, floats, count, beyond_limit);
    }
    let count = seldom(random);
    set(random, floats, count, not_finite);
}

fn seldom(random: &mut Random) -> usize {
    if random.once_in(16) {
        1
    } else if random.once_in(64) {
        2
    } else {
        0
    }
}

fn set(random: &mut Random, floats: &mut [&mut f64], count: usize, draw: fn(&mut Random) -> f64) {
    for _ in 0..count.min(floats.len()) {
        *floats[random.index(floats.len())] = draw(random);
    }
}
