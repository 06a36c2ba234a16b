//! Two engines in one buffer: each has a part of it for a trace or a walk, and neither order of the two may show.

use umblacet::r1::interval::Interval;
use umblacet::r2::{point::Point, rect::Rect};
use umblacet::r3::vector::Vector;
use umblacet::s2::edge_clipping::walk;
use umblacet::trace::{cut_trace, cut_trace_with_touches};
use umblacet::Refusal;

const RECORD: usize = 40;
const UNTOUCHED: u8 = 0xa5;

/// The bytes before both parts, and after them.
const AROUND: usize = 7;

/// Asks for an engine's records, under a trace number, in a buffer; gives their count.
type Engine = fn(u32, &mut [u8]) -> Result<usize, Refusal>;

const ENGINES: [Engine; 6] =
    [longer_trace, shorter_trace, touching_trace, touching_trace_with_touches, longer_walk, walk_on_a_face];

const WINDOW: Rect = Rect { x: Interval::new(1.0, 3.0), y: Interval::new(0.0, 2.0) };

/// Its edges touch a side, cut a corner off, touch another side, touch a corner in passing, and have a dead end.
const TOUCHING: [f64; 12] = [2.0, 3.0, 2.0, 2.0, 3.0, 1.0, 4.0, 1.0, 2.0, 3.0, 2.0, f64::NAN];

fn longer_trace(whose: u32, out: &mut [u8]) -> Result<usize, Refusal> {
    trace(&[0.0, 0.0, 4.0, 2.0, 4.0, f64::NAN, 0.0, 2.0, 4.0, 0.0, 4.0, 5.0], whose, out)
}

fn shorter_trace(whose: u32, out: &mut [u8]) -> Result<usize, Refusal> {
    trace(&[1.25, 1.0, 2.5, 1.5, f64::INFINITY, 1.0], whose, out)
}

fn touching_trace(whose: u32, out: &mut [u8]) -> Result<usize, Refusal> {
    trace(&TOUCHING, whose, out)
}

fn touching_trace_with_touches(whose: u32, out: &mut [u8]) -> Result<usize, Refusal> {
    cut_trace_with_touches(&TOUCHING, WINDOW, whose, out).map(|counts| counts.edges)
}

fn trace(samples: &[f64], whose: u32, out: &mut [u8]) -> Result<usize, Refusal> {
    cut_trace(samples, WINDOW, whose, out).map(|counts| counts.edges)
}

const MIDDLE: Point = Point { x: 0.0, y: 0.0 };
const LEVEL: Vector = Vector::new(0.0, 0.0, 1.0);

fn longer_walk(whose: u32, out: &mut [u8]) -> Result<usize, Refusal> {
    walk(0, MIDDLE, 3, MIDDLE, LEVEL, whose, out)
}

fn walk_on_a_face(whose: u32, out: &mut [u8]) -> Result<usize, Refusal> {
    walk(4, Point { x: 0.25, y: -0.5 }, 4, MIDDLE, LEVEL, whose, out)
}

/// An engine's records, from those that it has alone and under the number 0.
fn records(engine: Engine, whose: u32) -> Vec<u8> {
    let mut bytes = vec![UNTOUCHED; 5 * RECORD];
    let count = engine(0, &mut bytes).expect("there is room");
    bytes.truncate(count * RECORD);
    for record in bytes.chunks_mut(RECORD) {
        assert_eq!(record[1..8], [0; 7], "zeros, the number 0 among them");
        record[4..8].copy_from_slice(&whose.to_le_bytes());
    }
    bytes
}

/// Two engines with their numbers, and the bytes that each part has beyond its records.
#[derive(Clone, Copy)]
struct Pair {
    one: (Engine, u32),
    other: (Engine, u32),
    spare: usize,
}

impl Pair {
    /// What has to stand in the buffer in the end.
    fn due(self) -> Vec<u8> {
        let around = vec![UNTOUCHED; AROUND];
        let spare = vec![UNTOUCHED; self.spare];
        let [one, other] = [self.one, self.other].map(|(engine, whose)| records(engine, whose));
        [&around, &one, &spare, &other, &spare, &around].map(|bytes| &bytes[..]).concat()
    }

    /// Hands a buffer that no one has touched to the function, as its two parts, and gives what then stands in it.
    fn after(self, write: impl FnOnce(&mut [u8], &mut [u8])) -> Vec<u8> {
        let [one, other] = [self.one, self.other].map(|(engine, _)| records(engine, 0).len() + self.spare);
        let mut buffer = vec![UNTOUCHED; AROUND + one + other + AROUND];
        let (first, second) = buffer[AROUND..AROUND + one + other].split_at_mut(one);
        write(first, second);
        buffer
    }
}

fn every_pair() -> impl Iterator<Item = Pair> {
    let numbers = [(0x89ab_cdef, 0x0123_4567), (0, u32::MAX), (1, 0), (0, 0)];
    let places = (0..ENGINES.len()).flat_map(|one| (0..ENGINES.len()).map(move |other| (one, other)));
    places.flat_map(move |(one, other)| {
        numbers.into_iter().flat_map(move |(one_number, other_number)| {
            [0, RECORD - 1, RECORD].map(|spare| Pair {
                one: (ENGINES[one], one_number),
                other: (ENGINES[other], other_number),
                spare,
            })
        })
    })
}

/// The two would show nothing of touches if their records were the same.
#[test]
fn the_touching_traces_differ() {
    let numbers = |engine| records(engine, 0).chunks(RECORD).map(|record| record[0]).collect::<Vec<u8>>();
    assert_eq!(numbers(touching_trace), [1, 0, 1, 1, 2]);
    assert_eq!(numbers(touching_trace_with_touches), [0, 0, 0, 0, 2]);
}

fn write((engine, whose): (Engine, u32), part: &mut [u8]) {
    engine(whose, part).expect("there is room");
}

#[test]
fn either_may_be_written_first() {
    for pair in every_pair() {
        let forth = pair.after(|first, second| {
            write(pair.one, first);
            write(pair.other, second);
        });
        let back = pair.after(|first, second| {
            write(pair.other, second);
            write(pair.one, first);
        });
        assert_eq!(forth, back);
        assert_eq!(forth, pair.due());
    }
}

#[test]
fn one_that_has_no_room_leaves_both_parts() {
    for pair in every_pair().filter(|pair| pair.spare == 0) {
        let due = pair.after(|_, second| write(pair.other, second));
        let found = pair.after(|first, second| {
            write(pair.other, second);
            let (engine, whose) = pair.one;
            let short = first.len() - 1;
            assert_eq!(engine(whose, &mut first[..short]), Err(Refusal::ShortBuffer));
        });
        assert_eq!(found, due);
    }
}
