//! `oracle kept`: the requests that keep docs/DIFFERENCES.md, each entry's smallest inputs as the answering program
//! takes them. They are the head of the stored list, so that a request's place here, from 1, is its place there. They
//! go by the names of the entries: a new entry moves none. Since W10 no request of the list moves: those that came with
//! it stand after all that was there before (`oracle kept W10`).

use crate::answers::request;
use crate::clip::LIMIT;
use crate::floats::power;
use crate::stream::write_words;
use crate::walk::RECORD;
use std::io;

/// An entry's name, the operation, its words.
pub type Kept = (&'static str, u64, &'static [u64]);

/// As the answering program writes every NaN.
const NAN: f64 = f64::from_bits(0x7ff8_0000_0000_0000);
const INF: f64 = f64::INFINITY;
const HUGE: f64 = power(1023);
/// The least float above 0.
const STEP: f64 = power(-1074);
const SMALL: f64 = power(-540);
/// Far out, but admitted: whole numbers there are four apart, up to twice of it.
const FAR: f64 = power(54);

/// Words in the order of the answering program's format: a rectangle is its low corner, then its high one.
#[rustfmt::skip]
pub const KEPT: &[Kept] = &[
    ("D3", 24, &floats([0.0, 1.0, 1.0, 0.0])),
    ("D3", 26, &floats([0.0, 0.0, 1.0, 1.0, 1.0, 5.0, 0.0, 6.0])),
    ("D3", 28, &floats([0.0, 0.0, 1.0, 1.0, 1.0, 5.0, 0.0, 6.0])),
    ("D4", 34, &floats([0.0, 0.0, 4.0, NAN, 1.0, 0.0, 3.0, 2.0])),
    ("D4", 34, &floats([0.0, NAN, 4.0, 2.0, 1.0, 0.0, 3.0, 2.0])),
    ("D4", 34, &floats([0.0, 0.0, INF, 1.0, 1.0, 0.0, 3.0, 2.0])),
    ("D5", 34, &floats([0.0, 0.0, 4.0, 2.0, NAN, NAN, NAN, NAN])),
    ("D6", 30, &floats([0.0, 0.0, 1.0, -HUGE, HUGE])),
    ("D6", 30, &floats([1.0, 0.0, 1.0, -HUGE, HUGE])),
    ("D6", 30, &floats([1.0, 1.0, 1.0, 2.0, 3.0])),
    ("D7", 30, &floats([power(512), 0.0, power(513), 0.0, power(512)])),
    ("D7", 30, &[0x1e54_7ae1_47ae_147b, 0, 0x1e64_7ae1_47ae_147b, 0x9b00_0000_0000_0000, 0x1e58_ffff_ffff_ffff]),
    ("D7", 30, &floats([0.5, 0.0, 1.0, 1.0, 0.0])),
    ("D8", 34, &floats([0.0, 0.0, 0.2, 0.2, 0.1, 0.1, 0.1, 0.1])),
    ("D8", 34, &floats([0.0, 0.1, 0.2, 0.3, 0.1, 0.2, 0.1, 0.2])),
    ("D9", 33, &floats([0.0, 0.0, 1.0, 1.0, 0.0, 0.75, 0.25, 1.0, 0.0, 0.0, 1.0, 1.0])),
    ("D10", 35, &floats([-16.0, -16.0, 16.0, 16.0 + power(-48), 0.0, 0.0, 0.0, 0.0])),
    ("D10", 35, &floats([-HUGE, 0.0, HUGE, 1.0, 0.0, 0.0, 1.0, 1.0])),
    ("D10", 35, &floats([-HUGE, 0.0, HUGE, 1.0, 0.0, -0.25, 1.0, 0.25])),
    ("D10", 35, &floats([0.0, 0.0, 4.0 * SMALL, 2.0 * SMALL, 2.0 * SMALL, 2.0 * SMALL, 2.0 * SMALL, 2.0 * SMALL])),
    ("D11", 34, &floats([0.0, 0.0, 2.0 * STEP, 0.5, STEP, 0.0, 1.0, 1.0])),
    ("D12", 17, &floats([0.0, -0.0])),
    ("D13", 40, &floats([0.0, 0.0, 0.0])),
    ("D13", 41, &floats([0.0, 0.0, 0.0])),
    ("D14", 43, &[6, 0, 0]),
    ("D14", 45, &[6, 0, 0]),
    ("D14", 45, &[0, 3, 0]),
    ("D14", 45, &[0, 0, 2]),
    ("D15", 51, &floats([INF, 1.0, INF])),
    ("D15", 50, &floats([INF, 1.0, INF])),
    ("D16", 53, &floats([-0.0, 1.0, 2.0])),
    ("D16", 53, &floats([0.0, 1.0, 2.0])),
    ("D17", 54, &[0, 0, float(1.0), 1]),
    ("D17", 54, &[float(STEP), 0, float(1.0), 1]),
    ("D18", 14, &floats([0.0, 0.0, -0.0, -0.0])),
    ("D18", 15, &floats([0.0, 0.0, -0.0, -0.0])),
    ("D19", 34, &floats([-HUGE, 0.0, HUGE, 1.0, 0.0, 0.0, 1.0, 1.0])),
    ("D20", 60, &[0, 0, 0, 2, 0, 0, 0, 0, float(1.0), 0]),
    ("D21", 60, &[0, 0, 0, 1, 0, 0, float(1.0), 0, 0, 0]),
    ("D22", 31, &[0, 0, 0, float(-1.0)]),
    ("D22", 31, &[0, 0, 0, float(NAN)]),
    ("D23", 32, &[0, 0, 0, 0, float(1.0), float(1.0), float(1.0), float(1.0), 0, 0, 0]),
    ("D23", 32, &[0, 0, float(1.0), 0, 0, 0, 0, 0, 0, 0, float(1.0)]),
    ("D24", 21, &floats([1.0, 0.0, 0.0, 1.0])),
    ("D25", 20, &floats([0.0, 0.0, NAN, 0.0])),
    ("D25", 20, &floats([NAN, 0.0, 0.0, 0.0])),
    ("D25", 10, &floats([NAN, NAN])),
    ("D26", 52, &floats([1.0, 1.0, 2.0])),
    ("D27", 51, &floats([0.0, 0.0, 0.0])),
    ("D27", 53, &floats([0.0, 0.0, 0.0])),
    ("D27", 60, &[0, 0, 0, 5, 0, 0, 0, 0, 0, 0]),
    ("D28", 54, &[float(2.0), float(1.0), 0, 0]),
    ("D29", 42, &[0, float(NAN), 0, 0]),
    ("D29", 42, &[3, float(NAN), 0, 0]),
    ("D30", 34, &floats([0.0, 0.0, 4.0, 2.0, 3.0, 0.0, 1.0, 2.0])),
    ("D30", 34, &floats([0.0, 0.0, 4.0, 2.0, 1.0, 0.0, INF, 2.0])),
    ("D31", 55, &[0, float(0.1), float(1.0), 0, float(10.0), float(-1.0), 0, 2]),
    ("D7", 30, &floats([1.0, 0.0, STEP, 0.0, 1.0])),
    ("D10", 35, &floats([-FAR - 4.0, -FAR - 12.0, 2.0 * FAR + 8.0, 2.0 * FAR + 24.0, -1.0, -1.0, 1.0, 1.0])),
    ("D10", 35, &floats([-FAR, -FAR, FAR, FAR + 4.0, 0.0, 0.0, 0.0, 0.0])),
    ("D32", 34, &floats([0.0, 0.0, LIMIT, 0.0, 0.0, 0.0, 1.0, 1.0])),
    ("D32", 34, &floats([0.0, 0.0, LIMIT.next_up(), 0.0, 0.0, 0.0, 1.0, 1.0])),
    ("D32", 34, &floats([0.0, 0.0, 1.0, 0.0, 0.0, 0.0, LIMIT, 1.0])),
    ("D32", 34, &floats([0.0, 0.0, 1.0, 0.0, 0.0, 0.0, LIMIT.next_up(), 1.0])),
    ("D19", 34, &floats([-LIMIT, 0.0, LIMIT, 1.0, 0.0, 0.0, 1.0, 1.0])),
    ("D33", 30, &floats([5.0 * STEP, 0.0, 10.0 * STEP, -0.06, 0.04])),
    ("D33", 34, &floats([0.0, -0.06, 10.0 * STEP, 0.04, 5.0 * STEP, -1.0, 1.0, 1.0])),
    ("D33", 33, &floats([0.0, -0.06, 10.0 * STEP, 0.04, 5.0 * STEP, -1.0, 1.0, 1.0, 0.0, -1.0, 10.0 * STEP, 1.0])),
    ("D33", 34, &floats([0.0, 0.1, 0.1, 0.8, 0.05, 0.0, 0.05f64.next_up(), 10.0])),
    ("D11", 30, &floats([STEP, 0.0, 3.0 * STEP, 0.0, 0.5])),
];

/// Those that came with W10: each trace is one edge in a buffer for its record, asked by 61 and by 62.
#[rustfmt::skip]
pub const W10: &[Kept] = &[
    ("D34", 61, &edge([0.0, 0.0, 1.0, 1.0], [1.0, 1.0, 2.0, 2.0])),
    ("D34", 62, &edge([0.0, 0.0, 1.0, 1.0], [1.0, 1.0, 2.0, 2.0])),
    ("D34", 61, &edge([0.0, 1.5, 1.0, 1.5], [1.0, 1.0, 2.0, 2.0])),
    ("D34", 62, &edge([0.0, 1.5, 1.0, 1.5], [1.0, 1.0, 2.0, 2.0])),
    ("D34", 61, &edge([0.0, 0.0, 2.0, 2.0], [1.0, 0.0, 1.0, 2.0])),
    ("D34", 62, &edge([0.0, 0.0, 2.0, 2.0], [1.0, 0.0, 1.0, 2.0])),
    ("D34", 61, &edge([1.5, 1.5, 1.5, 1.5], [1.0, 1.0, 2.0, 2.0])),
    ("D34", 62, &edge([1.5, 1.5, 1.5, 1.5], [1.0, 1.0, 2.0, 2.0])),
];

/// Entries about what the port leaves out, so that no operation can keep them, and the words of their inputs.
#[cfg(test)]
pub const LEFT_OUT: &[(&str, &[u64])] =
    &[("D1", &floats([2.0, 3.0, 5.0, 7.0])), ("D2", &floats([NAN, 0.0, 5.0, 0.0, 6.0, 0.0]))];

const fn float(value: f64) -> u64 {
    value.to_bits()
}

const fn floats<const COUNT: usize>(values: [f64; COUNT]) -> [u64; COUNT] {
    let mut words = [0; COUNT];
    let mut place = 0;
    while place < COUNT {
        words[place] = float(values[place]);
        place += 1;
    }
    words
}

/// A trace's words: the count of floats, the buffer's length, the window, the samples.
const fn edge([ax, ay, bx, by]: [f64; 4], [low_x, low_y, high_x, high_y]: [f64; 4]) -> [u64; 10] {
    let mut words = floats([0.0, 0.0, low_x, low_y, high_x, high_y, ax, ay, bx, by]);
    words[0] = 4;
    words[1] = RECORD as u64;
    words
}

pub fn run(kept: &[Kept]) -> io::Result<()> {
    let mut output = io::stdout().lock();
    kept.iter().try_for_each(|(_, operation, words)| write_words(&mut output, &request(*operation, words)))
}
