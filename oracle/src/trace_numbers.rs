//! Change request W7, whose a record is: the trace number in the records of walks and traces, and the numbers that
//! seeded requests and the stored list have to have.

use crate::answers::{line_of, request, FLOATS, REQUEST};
use crate::classes::{must_be_seen, Seen};
use crate::number::{Number, BAD_TRACE, BAD_WINDOW, BUFFER_TOO_SHORT, FACE_MISSED, NOT_FINITE, NO_SUCH_FACE};
use crate::number::{TARGET_NOT_REACHED, ZERO};
use crate::operations::{trace_number_place, LENT};
use crate::r2::{point::Point, rect::Rect};
use crate::r3::vector::Vector;
use crate::random::Random;
use crate::requests::{before_w7, filled, lent, request_of};
use crate::stored;
use crate::trace::{cut_trace, Touches};
use crate::walk::{trace_number_of, walk, RECORD};
use crate::whose::Whose;
use crate::words::Arguments;
use std::collections::BTreeMap;

const NAN: f64 = f64::NAN;
/// Of four bytes that differ; the least significant one is 1.
const TRACE_NUMBER: u64 = 0x0403_0201;
/// P13's normal.
const LEVEL: [f64; 3] = [0.0, 0.0, 1.0];
const WINDOW: [f64; 4] = [1.0, 0.0, 3.0, 2.0];
/// P1's edge, one beside the window and one to a dead sample.
const TRACE: [f64; 8] = [0.0, 0.0, 4.0, 2.0, 4.0, 5.0, 4.0, NAN];

/// From the middle of face 0 to the middle of the target.
fn ask_walk(target: u64, normal: [f64; 3], length: u64, trace_number: u64) -> String {
    let normal = normal.map(f64::to_bits);
    line_of(&request(60, &[&[0, 0, 0, target, 0, 0], &normal[..], &[length, trace_number]].concat()), Whose::Crates)
}

/// The words for floats that are not given are NaNs, which would show in a record. No edge here only touches its
/// window, so that 62 gives the same line.
fn ask_trace(count: u64, window: [f64; 4], floats: &[f64], length: u64, trace_number: u64) -> String {
    let mut words = [NAN.to_bits(); 4 + FLOATS];
    for (word, float) in words.iter_mut().zip(window.iter().chain(floats)) {
        *word = float.to_bits();
    }
    let words = [&[count, length], &words[..], &[trace_number]].concat();
    let [line, with_touches] = [61, 62].map(|operation| line_of(&request(operation, &words), Whose::Crates));
    assert_eq!(line, with_touches);
    line
}

fn walked(trace_number: u64) -> String {
    ask_walk(3, LEVEL, 122, trace_number)
}

fn traced(trace_number: u64) -> String {
    ask_trace(8, WINDOW, &TRACE, 121, trace_number)
}

/// P13's records with the bytes of a trace number, as the line shows them.
fn walk_line(trace_number: &str) -> String {
    let records = [
        format!("00000000 {trace_number} 0000000000000000 0000000000000000 000000000000f03f 0000000000000080"),
        format!("01000000 {trace_number} 000000000000f0bf 0000000000000080 000000000000f03f 0000000000000000"),
        format!("03000000 {trace_number} 0000000000000080 000000000000f0bf 0000000000000000 0000000000000000"),
    ];
    format!("0 0000000000000003 {}a5a5\n", records.concat().replace(' ', ""))
}

/// The trace's records, one kept, one missed and one refused.
fn trace_line(trace_number: &str) -> String {
    let nothing = "0".repeat(64);
    let records = [
        format!("00000000 {trace_number} 000000000000f03f 000000000000e03f 0000000000000840 000000000000f83f"),
        format!("01000000 {trace_number} {nothing}"),
        format!("02000000 {trace_number} {nothing}"),
    ];
    let counts = "0000000000000001 0000000000000001 0000000000000001 0000000000000003";
    format!("0 {counts} {}a5\n", records.concat().replace(' ', ""))
}

#[test]
fn in_every_record() {
    for (trace_number, bytes) in [
        (TRACE_NUMBER, "01020304"),
        (0, "00000000"),
        (1, "01000000"),
        (255, "ff000000"),
        (256, "00010000"),
        (0x8000_0000, "00000080"),
        (0xffff_ffff, "ffffffff"),
    ] {
        assert_eq!(walked(trace_number), walk_line(bytes), "{trace_number}");
        assert_eq!(traced(trace_number), trace_line(bytes), "{trace_number}");
    }
}

#[test]
fn modulo_two_to_the_32() {
    for (word, bytes) in [
        (1 << 32, "00000000"),
        ((1 << 32) + 1, "01000000"),
        (0xffff_ffff_0000_0000, "00000000"),
        (0x0807_0605_0403_0201, "01020304"),
        (u64::MAX, "ffffffff"),
    ] {
        assert_eq!(walked(word), walk_line(bytes), "{word:x}");
        assert_eq!(traced(word), trace_line(bytes), "{word:x}");
    }
}

/// A request that does not name a number has 0.
#[test]
fn none_is_zero() {
    let walk = [0, 0, 0, 3, 0, 0, 0, 0, 1f64.to_bits(), 122];
    assert_eq!(line_of(&request(60, &walk), Whose::Crates), walked(0));
    let floats: Vec<u64> = WINDOW.iter().chain(&TRACE).map(|float| float.to_bits()).collect();
    assert_eq!(line_of(&request(61, &[&[8, 121], &floats[..]].concat()), Whose::Crates), traced(0));
}

/// The last word of a trace's request is its number however many floats there are, and is never one of them.
#[test]
fn after_all_floats() {
    for count in 0..20 {
        let line = ask_trace(count, WINDOW, &[2.0; FLOATS], 400, TRACE_NUMBER);
        let floats = count.min(FLOATS as u64);
        if floats % 2 == 1 {
            assert!(line.starts_with("10 "), "{count} floats");
            continue;
        }
        let edges = (floats as usize / 2).saturating_sub(1);
        let record = format!("0000000001020304{}", "0000000000000040".repeat(4));
        let bytes = record.repeat(edges) + &"a5".repeat(400 - RECORD * edges);
        assert!(line.ends_with(&format!(" {edges:016x} {bytes}\n")), "{count} floats: {line}");
    }
}

#[test]
fn refused_calls_leave_the_buffer_alone() {
    let refused = |number: Number, counts: usize, length: usize| {
        format!("{number}{} {}\n", " 0000000000000000".repeat(counts), "a5".repeat(length))
    };
    for (number, target, normal, length) in [
        (NO_SUCH_FACE, 6, LEVEL, 400),
        (NOT_FINITE, 3, [0.0, NAN, 1.0], 400),
        (ZERO, 3, [0.0; 3], 400),
        (FACE_MISSED, 1, [1.0, 0.0, 0.0], 400),
        (TARGET_NOT_REACHED, 2, LEVEL, 400),
        (BUFFER_TOO_SHORT, 3, LEVEL, 119),
    ] {
        assert_eq!(ask_walk(target, normal, length, TRACE_NUMBER), refused(number, 1, length as usize));
    }
    for (number, count, window, length) in [
        (BAD_TRACE, 7, WINDOW, 400),
        (BAD_WINDOW, 8, [3.0, 0.0, 1.0, 2.0], 400),
        (BAD_WINDOW, 8, [1.0, 0.0, NAN, 2.0], 400),
        (BUFFER_TOO_SHORT, 8, WINDOW, 119),
    ] {
        assert_eq!(ask_trace(count, window, &TRACE, length, TRACE_NUMBER), refused(number, 4, length as usize));
    }
}

/// Writes three records with this trace number.
type Call = fn(u32, &mut [u8]);

fn cut(samples: [f64; 8], trace_number: u32, part: &mut [u8]) {
    let window: Rect = Arguments::new(&WINDOW.map(f64::to_bits)).take();
    let counts = cut_trace(Whose::Crates, Touches::Dropped, &samples, &window, trace_number, part);
    assert_eq!(counts.expect("there is room")[3], 3);
}

fn walk_round(trace_number: u32, part: &mut [u8]) {
    let (middle, [x, y, z]) = (Point { x: 0.0, y: 0.0 }, LEVEL);
    assert_eq!(walk(0, middle, 3, middle, Vector { x, y, z }, trace_number, part), Ok(3));
}

/// Neighbouring parts of one buffer may be written in either order: each call's bytes are as if nobody else had
/// written, and each record says whose it is.
#[test]
fn parts_of_one_buffer() {
    const PART: usize = 3 * RECORD;
    let there: Call = |trace_number, part| cut(TRACE, trace_number, part);
    let back: Call = |trace_number, part| cut([4.0, 1.0, 0.0, 1.0, 2.0, 1.0, 2.0, 2.0], trace_number, part);
    let trace_numbers = [0x0403_0201, 0x0807_0605];
    for calls in [[there, back], [back, there], [there, walk_round], [walk_round, there], [there, there]] {
        let in_order = |order: &[usize]| {
            let mut buffer = [0xa5; 2 * PART];
            for &place in order {
                calls[place](trace_numbers[place], &mut buffer[place * PART..][..PART]);
            }
            buffer
        };
        let alone = [0, 1].map(|place| in_order(&[place])[place * PART..][..PART].to_vec());
        assert_eq!(in_order(&[0, 1])[..], alone.concat());
        assert_eq!(in_order(&[1, 0])[..], alone.concat());
        for (part, trace_number) in alone.iter().zip(trace_numbers) {
            let written: Vec<u32> = part.as_chunks().0.iter().map(trace_number_of).collect();
            assert_eq!(written, [trace_number; 3]);
        }
    }
}

#[test]
fn places() {
    assert_eq!(LENT.map(trace_number_place), [Some(11), Some(REQUEST - 1), Some(REQUEST - 1)]);
    for operation in (0..60).chain(63..300) {
        assert_eq!(trace_number_place(operation), None, "operation {operation}");
    }
}

fn trace_number_in(request: &[u64; REQUEST]) -> u64 {
    request[trace_number_place(request[0]).expect("an operation that writes records")]
}

/// Before W7 there was no 62 either.
#[test]
fn requests_before_w7() {
    let mut random = Random::new(1);
    for (operation, before_it) in [(30, 30), (60, 60), (61, 61), (62, 61), (300, 300)] {
        let mut now = [0; REQUEST].map(|_| random.word() | 1);
        now[0] = operation;
        let mut expected = now;
        expected[0] = before_it;
        if let Some(place) = trace_number_place(operation) {
            expected[place] = 0;
        }
        assert_eq!(before_w7(now), expected, "operation {operation}");
    }
}

/// The classes that the head of `requests.rs` promises of a trace number.
fn see(seen: &mut Seen, word: u64) {
    let (low, high) = (word as u32, word >> 32);
    let bytes = low.to_le_bytes();
    // Not a small number, and not next to a power.
    let one_byte = |place: usize| (17..255).contains(&bytes[place]) && word == u64::from(bytes[place]) << (8 * place);
    let next_to = |power: u32| high == 0 && low.abs_diff(power) <= 1;
    for (holds, name) in [
        (word == 0, "0"),
        (word == 1, "1"),
        ((2..=16).contains(&word), "2 to 16"),
        (next_to(1 << 8), "about 256"),
        (next_to(1 << 16), "about 65536"),
        (next_to(1 << 24), "about 16777216"),
        (one_byte(0), "the first byte alone"),
        (one_byte(1), "the second byte alone"),
        (one_byte(2), "the third byte alone"),
        (one_byte(3), "the fourth byte alone"),
        (word == u64::from(u32::MAX), "4294967295"),
        (word == 1 << 32, "2^32"),
        (word == (1 << 32) + 1, "2^32 + 1"),
        (high > 1 && low == 0, "a greater word, its low half 0"),
        (high > 1 && low == 1, "a greater word, its low half 1"),
        (high == u64::from(u32::MAX), "a word that is among the greatest"),
        (high > 0 && bytes.iter().all(|byte| *byte != 0), "a greater word, no byte of its low half 0"),
    ] {
        *seen.entry(name).or_default() += u64::from(holds);
    }
}

#[test]
fn seeded_numbers_of_every_class() {
    for operation in LENT {
        let (mut random, mut seen) = (Random::new(1), Seen::new());
        let count = 20_000;
        let requests = std::iter::repeat_with(|| request_of(&mut random, operation));
        for request in requests.filter(|request| request[0] == operation).take(count as usize) {
            see(&mut seen, trace_number_in(&request));
        }
        let names: Vec<_> = seen.keys().copied().collect();
        must_be_seen(&seen, &names, 100);
        assert!((count / 5..count * 3 / 10).contains(&seen["0"]), "0 in about a quarter: {}", seen["0"]);
    }
}

/// A number is made of the word that was drawn for its place, so that it moves no other word of a seed's requests.
#[test]
fn numbers_take_no_draw() {
    for operation in LENT {
        let (mut random, mut drawn) = (Random::new(1), Random::new(1));
        for _ in 0..100 {
            let request = filled(&mut random, operation, Vec::new());
            for (place, word) in request.into_iter().enumerate() {
                let drawn = drawn.word();
                let is_drawn = place != 0 && trace_number_place(operation) != Some(place);
                assert!(!is_drawn || word == drawn, "operation {operation}, word {place}");
            }
        }
    }
}

#[test]
fn all_of_them_are_lent() {
    let mut random = Random::new(1);
    let operations: Vec<u64> = (0..1000).map(|_| lent(&mut random)[0]).collect();
    for (operation, about) in LENT.into_iter().zip([500, 250, 250]) {
        let times = operations.iter().filter(|lent| **lent == operation).count();
        assert!((about - 60..about + 60).contains(&times), "operation {operation}: {times} of 1000");
    }
}

/// What the stored list has to have of a request that writes records, or would.
fn see_stored(seen: &mut BTreeMap<String, u64>, request: &[u64; REQUEST]) {
    let (operation, word) = (request[0], trace_number_in(request));
    let line = line_of(request, Whose::Ours);
    let groups: Vec<&str> = line.split_whitespace().collect();
    let zero = if word as u32 == 0 { "0" } else { "not 0" };
    // The last count is that of the records.
    let counts = if operation == 60 { 1 } else { 4 };
    let records = u64::from_str_radix(groups[counts], 16).expect("a count");
    let mut see = |what: String| *seen.entry(format!("{operation}, {what}")).or_default() += 1;
    if groups[0] != "0" {
        see(format!("{zero}, refused with {}", groups[0]));
    } else if records > 1 {
        see(format!("{zero}, some records"));
        if word >> 32 != 0 {
            see(format!("{zero}, some records, a word from 2^32 up"));
        }
    }
}

#[test]
fn the_stored_list_has_numbers() {
    let mut seen = BTreeMap::new();
    for request in stored::requests().iter().filter(|request| LENT.contains(&request[0])) {
        see_stored(&mut seen, request);
    }
    let refusals = [(60, [2, 4, 5, 6, 7, 8].as_slice()), (61, &[3, 8, 10]), (62, &[3, 8, 10])];
    for (operation, numbers) in refusals {
        let refused = numbers.iter().map(|number| (format!("not 0, refused with {number}"), 1));
        let written = ["0, some records", "not 0, some records"].map(|name| (name.to_string(), 10));
        let great = ["0", "not 0"].map(|zero| (format!("{zero}, some records, a word from 2^32 up"), 1));
        for (name, least) in refused.chain(written).chain(great) {
            let times = seen.get(&format!("{operation}, {name}")).copied().unwrap_or(0);
            assert!(times >= least, "operation {operation}, {name}: {times} times");
        }
    }
}
