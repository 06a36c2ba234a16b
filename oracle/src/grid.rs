//! `oracle grid`: every request over short lists of words, operation by operation.

use crate::answers::request;
use crate::clip::LIMIT;
use crate::stream::write_words;
use std::io::{self, BufWriter, Write};

/// Operations and, for each word of their arguments, the list that it runs through: F, A, D 0 to 7; b 0 to 2; L a few
/// lengths; x floats of all sorts, not finite ones among them; t small floats of both signs; g 0 to 3; h 0 to 2; e the
/// ends 0 and 2; c -1 to 1; m the middle of a face; l floats up to module 4's limit and beyond it, w that limit and the
/// float above it, W their opposites. For a trace: C counts of floats, S six of them; R lengths about whole records, T
/// about two, E exactly two; d floats of live and dead samples, o 1 or 3; a digit that float, 0 also face 0. N trace
/// numbers, in short grids of their own; in the others the number is 0. For boxes: B lengths about theirs, X about those
/// of two edges, Y exactly those; z zeros of both signs and 1; f floats of all sorts that fill the buffer.
const GRID: [(u64, &str); 73] = [
    (1, "xxxx"),
    (2, "xxxx"),
    (3, "xxx"),
    (4, "xx"),
    (5, "xxxx"),
    (6, "xxxx"),
    (7, "xx"),
    (10, "xx"),
    (11, "xxx"),
    (12, "xxxx"),
    (13, "xxxx"),
    (14, "xxxx"),
    (15, "xxxx"),
    (17, "xx"),
    (19, ""),
    (20, "xxxx"),
    (21, "tttt"),
    (22, "ttttbb"),
    (23, "tttt"),
    (24, "xxxx"),
    (25, "gggggg"),
    (26, "hhhhhhhh"),
    (27, "hhhhhhhh"),
    (28, "hhhhhhhh"),
    (29, "hhhhhhhh"),
    (30, "ttttt"),
    (30, "lllll"),
    (31, "xxbx"),
    (31, "llbl"),
    (32, "hheehheebhh"),
    (32, "wwwwwwwwbWw"),
    (33, "hhhhhhhheeee"),
    (33, "wwwwWWwwwwww"),
    (34, "gggggggg"),
    (34, "llllWWww"),
    (35, "gggggggg"),
    (35, "llllWWww"),
    (40, "xxx"),
    (41, "xxx"),
    (42, "Fxxx"),
    (43, "Fxx"),
    (44, "Fxxx"),
    (45, "FAD"),
    (46, "F"),
    (47, "F"),
    (48, "Fx"),
    (49, "Fx"),
    (50, "xxx"),
    (51, "xxx"),
    (52, "xxx"),
    (53, "xxx"),
    (54, "xxxb"),
    (55, "FccbtttF"),
    (60, "FmmFmmtttL"),
    (60, "0mmFmme0eLN"),
    (61, "CRhhhh0031132202133120"),
    (61, "ST0022dddddd"),
    (61, "SEhhhhhhhhhh"),
    (61, "SEWWwwwwwwww"),
    (61, "CRe0120031132202133120N"),
    (62, "SEh1hhhhhhhh"),
    (62, "CRe0120031132202133120N"),
    (63, "Ce012o1o1o1o1o1o1o1o1"),
    (63, "S0022dddddd"),
    (63, "Shhhhhhhh11"),
    (63, "SWWwwlw1lwl"),
    (64, "CBe0120031132202133120f"),
    (64, "SX0022dddddd"),
    (64, "SYe112hhhhhh0000000000f"),
    (64, "SYWWwwlwlw1l"),
    (64, "SY0022zzzzzz"),
    (65, "CBe0120031132202133120f"),
    (65, "SYhh12hhhhhh0000000000f"),
];

/// Operations up to this one are also asked with all arguments zero, listed or not.
const LAST: u64 = 300;

pub fn run() -> io::Result<()> {
    let mut output = BufWriter::with_capacity(1 << 16, io::stdout().lock());
    for operation in 0..=LAST {
        write_words(&mut output, &request(operation, &[]))?;
    }
    for (operation, arguments) in GRID {
        let lists: Vec<Vec<u64>> = arguments.chars().map(list).collect();
        write_all(&mut output, operation, &lists, &mut Vec::new())?;
    }
    output.flush()
}

/// Writes a request for each choice from the lists that go on from the words chosen already.
fn write_all(output: &mut impl Write, operation: u64, lists: &[Vec<u64>], chosen: &mut Vec<u64>) -> io::Result<()> {
    let Some((list, rest)) = lists.split_first() else {
        return write_words(output, &request(operation, chosen));
    };
    for word in list {
        chosen.push(*word);
        write_all(output, operation, rest, chosen)?;
        chosen.pop();
    }
    Ok(())
}

fn list(letter: char) -> Vec<u64> {
    let floats = |values: &[f64]| values.iter().map(|value| value.to_bits()).collect();
    match letter {
        'F' | 'A' | 'D' => (0..8).collect(),
        'b' => (0..3).collect(),
        'L' => vec![0, 40, 119, 120, 240],
        'x' => floats(&[0.0, -0.0, 1.0, -1.0, 2.5, f64::MAX, f64::from_bits(1), f64::INFINITY, f64::NAN]),
        't' => floats(&[0.0, -0.0, 1.0, -1.0, 2.0]),
        'g' => floats(&[0.0, 1.0, 2.0, 3.0]),
        'h' => floats(&[0.0, 1.0, 2.0]),
        'e' => floats(&[0.0, 2.0]),
        'c' => floats(&[-1.0, 0.0, 1.0]),
        'm' => floats(&[0.0]),
        'l' => floats(&[0.0, 1.0, LIMIT, -LIMIT, LIMIT.next_up(), -f64::MAX]),
        'w' => floats(&[LIMIT, LIMIT.next_up()]),
        'W' => floats(&[-LIMIT, -LIMIT.next_up()]),
        'C' => vec![0, 1, 2, 3, 4, 5, 6, 15, 16, 17],
        'S' => vec![6],
        'R' => vec![0, 39, 40, 41, 79, 80, 81, 279, 280, 281, 400, 401],
        'T' => vec![79, 80, 81],
        'E' => vec![80],
        'N' => vec![0, 1, 0x0403_0201, 1 << 32, (1 << 32) + 1],
        'B' => vec![0, 4, 5, 6, 14, 15, 16, 64, 65, 66, 75, 76],
        'X' => vec![14, 15, 16],
        'Y' => vec![15],
        'z' => floats(&[0.0, -0.0, 1.0]),
        'f' => floats(&[1.0, 0.0, -0.0, 2.5, f64::INFINITY, f64::NAN]),
        'd' => floats(&[1.0, 3.0, f64::NAN, f64::NEG_INFINITY, LIMIT.next_up()]),
        'o' => floats(&[1.0, 3.0]),
        '0'..='9' => floats(&[f64::from(letter as u8 - b'0')]),
        _ => unreachable!("no list is called {letter}"),
    }
}
