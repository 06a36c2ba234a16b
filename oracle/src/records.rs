//! `oracle records`: seeded records for the program that cuts.
//!
//! `bits` is eight words of random bits, in half of the records none that module 4 refuses: floats of all sizes, half
//! of the axes of windows empty, few edges kept.
//!
//! `edges` is ordinary edges. The eight numbers come from one family of floats (see `floats.rs`; in one record of eight
//! each number has a family of its own) and the window's sides are put in order. Then up to three of these are done,
//! each as likely: both points level, both upright, points equal; a coordinate set to a side of the window on its axis,
//! or to a float next to it; lo = hi on an axis; a point moved into the window, both points moved into it; the edge
//! laid through a corner; a coordinate or a side set to a zero of either sign; a coordinate set to a float next to the
//! other point's. Last, in one record of 24 the sides of an axis are exchanged, in one of 12 one of the eight is at the
//! limit of module 4, in one of 12 one is refused, not finite or beyond that limit, and in one of 64 two are, so that
//! the order of refusals shows.

use crate::clip::admitted;
use crate::floats::{any_of, at_limit, neighbour, refused, zero, Source};
use crate::random::Random;
use crate::stream::write_words;
use std::io::{self, BufWriter, Write};

/// a.x, a.y, b.x, b.y, window low x, low y, high x, high y: a point's or corner's coordinate on an axis is 2 apart.
pub type Record = [f64; 8];
type Point = [f64; 2];

const A: usize = 0;
const B: usize = 2;
const LOW: usize = 4;
const HIGH: usize = 6;

pub fn run(kind: &str, count: u64, seed: u64) -> io::Result<()> {
    let make = match kind {
        "bits" => bits,
        "edges" => edge,
        _ => return Err(io::Error::other(format!("no kind of records is called {kind:?}: bits, edges"))),
    };
    let mut random = Random::new(seed);
    let mut output = BufWriter::with_capacity(1 << 16, io::stdout().lock());
    for _ in 0..count {
        write_words(&mut output, &make(&mut random).map(f64::to_bits))?;
    }
    output.flush()
}

fn bits(random: &mut Random) -> Record {
    let wanted = if random.coin() { admitted } else { |_| true };
    std::array::from_fn(|_| any_of(random, wanted))
}

pub fn edge(random: &mut Random) -> Record {
    let source = Source::any(random);
    edge_of(random, source)
}

pub fn edge_of(random: &mut Random, source: Source) -> Record {
    let mut record: Record = std::array::from_fn(|_| source.draw(random));
    for axis in 0..2 {
        if record[LOW + axis] > record[HIGH + axis] {
            record.swap(LOW + axis, HIGH + axis);
        }
    }
    for _ in 0..random.below(4) {
        relate(random, &mut record);
    }
    spoil(random, &mut record);
    record
}

/// The point b, related so many times to a point and a window: a sample after another in a trace.
pub fn related(random: &mut Random, a: Point, b: Point, window: [f64; 4], times: u64) -> Point {
    let mut record = [0.0; 8];
    record[A..B].copy_from_slice(&a);
    record[B..LOW].copy_from_slice(&b);
    record[LOW..].copy_from_slice(&window);
    for _ in 0..times {
        relate(random, &mut record);
    }
    [record[B], record[B + 1]]
}

/// One of the relations that the comment above lists. An exchange of sides by a later one is welcome.
fn relate(random: &mut Random, record: &mut Record) {
    let axis = random.index(2);
    let point = random.pick(&[A, B]);
    let side = random.pick(&[LOW, HIGH]) + axis;
    match random.below(12) {
        0 => record[B + 1] = record[A + 1],
        1 => record[B] = record[A],
        2 => record.copy_within(A..A + 2, B),
        3 => record[point + axis] = record[side],
        4 => record[point + axis] = neighbour(random, record[side]),
        5 => record[HIGH + axis] = record[LOW + axis],
        6 => move_inside(random, record, point),
        7 => {
            move_inside(random, record, A);
            move_inside(random, record, B);
        }
        8 => through_corner(random, record),
        9 => record[point + axis] = zero(random),
        10 => record[side] = zero(random),
        _ => record[B + axis] = neighbour(random, record[A + axis]),
    }
}

fn move_inside(random: &mut Random, record: &mut Record, point: usize) {
    for axis in 0..2 {
        let (low, high) = (record[LOW + axis], record[HIGH + axis]);
        let inside = low + random.fraction() * (high - low);
        if low <= inside && inside <= high {
            record[point + axis] = inside;
        }
    }
}

/// B becomes A's image in a corner: as exactly as floats allow, the edge touches the corner at its middle.
fn through_corner(random: &mut Random, record: &mut Record) {
    for axis in 0..2 {
        let side = random.pick(&[LOW, HIGH]) + axis;
        let image = record[side] + (record[side] - record[A + axis]);
        if image.is_finite() {
            record[B + axis] = image;
        }
    }
}

fn spoil(random: &mut Random, record: &mut Record) {
    if random.once_in(24) {
        let axis = random.index(2);
        record.swap(LOW + axis, HIGH + axis);
    }
    if random.once_in(12) {
        record[random.index(8)] = at_limit(random);
    }
    if random.once_in(12) {
        record[random.index(8)] = refused(random);
    }
    if random.once_in(64) {
        record[random.index(8)] = refused(random);
        record[random.index(8)] = refused(random);
    }
}
