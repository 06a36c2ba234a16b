//! `oracle pages`: seeded requests of operations 64 and 65, the boxes of a trace of none to eight samples and the
//! search in them. Of four requests three ask 64.
//!
//! Of eight traces one is made with its window as in `oracle requests`, one as in `oracle touching`; six are walks. The
//! floats come from one family, or each from its own; of eight samples of a walk one is the sample before itself, one
//! has a coordinate of it, one has a zero or two, two are fresh and three lie a step away, to the right most of them;
//! each zero has either sign. In one trace of three a sample is dead, in one of six some are, and in one of 16 all. The
//! window of a walk is drawn after the box of some neighbouring edges, which on one axis it touches from either side,
//! misses by one float or by more, holds, or cuts: it lies in it or is a point of it, or reaches past one end; on the
//! other axis it meets the box in three of four. Of eight buffers three are exact, one is a float longer, one a float
//! shorter, one up to 20 floats longer; one has any length, and one is empty, of the greatest length or beyond it. The
//! count of floats is odd in one of 16, then the sides of an axis are exchanged in one of four windows, else in one of
//! 16. The fill is 1 in two of eight; as often as each other it is 0, -0, not finite, next to 1, one of the floats'
//! kind and any word. Of 65 it is 1 in five of eight, and in three of four of these the window holds the point (1, 1),
//! so that every box opens.
//!
//! `oracle paging`: requests of walks so made, each with many windows, all samples asked for in most and a long enough
//! buffer in 15 of 16; one of ten asks 65.

use crate::answers::{BOXES, FLOATS, REQUEST};
use crate::boxes::{box_of, BOX};
use crate::clip::{admitted, LIMIT};
use crate::floats::{neighbour, not_finite, zero, Source};
use crate::r2::point::Point;
use crate::random::Random;
use crate::requests::{filled, request_of, Word, Word::Float, Word::Plain};
use crate::stream::write_words;
use crate::touching::{self, of_either_sign};
use crate::traces::{self, above_limit, kill, kill_some, Sample, Window};
use std::io::{self, BufWriter, Write};

pub fn request(random: &mut Random) -> [u64; REQUEST] {
    let operation = random.pick(&[64, 64, 64, 65]);
    request_of(random, operation)
}

/// The samples are as many as there is room for, whatever the count says.
pub fn arguments(random: &mut Random, operation: u64) -> Vec<Word> {
    let (source, mut window, samples) = trace(random);
    let floats = count(random);
    let turned = if floats % 2 == 1 { 4 } else { 16 };
    if random.once_in(turned) {
        let axis = random.index(2);
        window.swap(axis, axis + 2);
    }
    let length = length(random, floats_for(floats) as u64);
    asked(random, operation, source, window, &samples, floats, length)
}

#[allow(clippy::too_many_arguments)]
fn asked(
    random: &mut Random,
    operation: u64,
    source: Source,
    mut window: Window,
    samples: &[Sample],
    floats: usize,
    length: u64,
) -> Vec<Word> {
    let fill = if operation == 65 && random.coin() { 1.0 } else { fill(random, source) };
    if operation == 65 && fill == 1.0 && !random.once_in(4) {
        hold_one(&mut window);
    }
    let count = Plain(above_limit(random, floats));
    let floats = window.iter().chain(samples.as_flattened()).chain([&fill]).copied().map(Float);
    [count, Plain(length)].into_iter().chain(floats).collect()
}

/// So many floats have the boxes of a trace of so many.
pub fn floats_for(floats: usize) -> usize {
    let edges = (floats / 2).saturating_sub(1);
    BOX * (2 * edges).saturating_sub(1)
}

fn count(random: &mut Random) -> usize {
    match random.below(16) {
        0 => 2 * random.index(FLOATS / 2) + 1,
        1 => 0,
        2 => 2,
        3..=7 => FLOATS,
        _ => 2 * random.between(2, FLOATS as i64 / 2) as usize,
    }
}

fn length(random: &mut Random, boxes: u64) -> u64 {
    let any = random.word();
    match random.below(8) {
        0..=2 => boxes,
        3 => boxes + 1,
        4 => boxes.saturating_sub(1),
        5 => boxes + any % 21,
        6 => any % (BOXES as u64 + 1),
        _ => random.pick(&[0, 75, 76, any]),
    }
}

fn fill(random: &mut Random, source: Source) -> f64 {
    match random.below(8) {
        0 => 0.0,
        1 => -0.0,
        2 => not_finite(random),
        3 => neighbour(random, 1.0),
        4 => source.draw(random),
        5 => f64::from_bits(random.word()),
        _ => 1.0,
    }
}

/// A window whose sides are exchanged stays as it is.
fn hold_one(window: &mut Window) {
    for axis in 0..2 {
        let [low, high] = [window[axis], window[axis + 2]];
        if low <= high {
            window[axis] = if 1.0 < low { 1.0 } else { low };
            window[axis + 2] = if high < 1.0 { 1.0 } else { high };
        }
    }
}

// ---- the trace

fn trace(random: &mut Random) -> (Source, Window, Vec<Sample>) {
    let source = Source::any(random);
    let (window, mut samples) = match random.below(8) {
        0 => traces::trace(random),
        1 => touching::trace(random),
        _ => {
            let samples = walk(random, source);
            (window_about(random, source, &samples), samples)
        }
    };
    die(random, &mut samples);
    (source, window, samples)
}

fn die(random: &mut Random, samples: &mut [Sample]) {
    if random.once_in(16) {
        samples.iter_mut().for_each(|sample| kill(random, sample));
    } else {
        kill_some(random, samples);
    }
}

fn walk(random: &mut Random, source: Source) -> Vec<Sample> {
    let mut samples = vec![fresh(random, source)];
    while samples.len() < FLOATS / 2 {
        let sample = next(random, source, samples[samples.len() - 1]);
        samples.push(sample.map(|float| of_either_sign(random, float)));
    }
    samples
}

fn fresh(random: &mut Random, source: Source) -> Sample {
    [0; 2].map(|_| source.draw(random))
}

fn next(random: &mut Random, source: Source, before: Sample) -> Sample {
    match random.below(8) {
        0 => before,
        1 => {
            let mut sample = before;
            sample[random.index(2)] = source.draw(random);
            sample
        }
        2 => {
            let mut sample = if random.coin() { before } else { fresh(random, source) };
            for _ in 0..random.between(1, 2) {
                sample[random.index(2)] = zero(random);
            }
            sample
        }
        3 | 4 => fresh(random, source),
        _ => {
            let [right, up] = fresh(random, source).map(|float| float / 4.0);
            let right = if random.once_in(4) { right } else { right.abs() };
            [before[0] + right, before[1] + up].map(|float| if admitted(float) { float } else { float / 4.0 })
        }
    }
}

// ---- the window

fn window_about(random: &mut Random, source: Source, samples: &[Sample]) -> Window {
    let first = random.index(samples.len() - 1);
    let last = random.between(first as i64 + 1, samples.len() as i64 - 1) as usize;
    let samples: Vec<Point> = samples[first..=last].iter().map(|[x, y]| Point { x: *x, y: *y }).collect();
    let [low_x, low_y, high_x, high_y, _] = box_of(&samples, 0..samples.len() - 1);
    let mut meets = [false; 2];
    meets[random.index(2)] = !random.once_in(4);
    let [[x_low, x_high], [y_low, y_high]] =
        [(low_x, high_x, meets[0]), (low_y, high_y, meets[1])].map(|(low, high, meets)| {
            let ends = if low <= high { [low, high] } else { [0; 2].map(|_| source.draw(random)) };
            let relation = if meets { random.between(5, 9) } else { random.between(0, 9) };
            let sides = side(random, source, ends, relation).map(|side| side.clamp(-LIMIT, LIMIT));
            sides.map(|side| of_either_sign(random, side))
        });
    [x_low, y_low, x_high, y_high]
}

/// The sides of the window on an axis on which the box goes from low to high.
fn side(random: &mut Random, source: Source, [low, high]: [f64; 2], relation: i64) -> [f64; 2] {
    let [wide, far] = [0; 2].map(|_| source.draw(random).abs());
    let [one, other] = [0; 2].map(|_| (low + random.fraction() * (high - low)).clamp(low, high));
    match relation {
        0 => [low - wide, low],
        1 => [high, high + wide],
        2 => [low.next_down() - wide, low.next_down()],
        3 => [high.next_up(), high.next_up() + wide],
        4 if random.coin() => [low - far - wide, low - far],
        4 => [high + far, high + far + wide],
        5 => [low - wide, high + far],
        6 if one <= other => [one, other],
        6 => [other, one],
        7 => [one, one],
        8 => [low - wide, one],
        _ => [one, high + wide],
    }
}

// ---- many windows of a trace

pub fn run_paging(traces: u64, windows: u64, seed: u64) -> io::Result<()> {
    let mut random = Random::new(seed);
    let mut output = BufWriter::with_capacity(1 << 16, io::stdout().lock());
    for _ in 0..traces {
        paging(&mut random, windows).iter().try_for_each(|request| write_words(&mut output, request))?;
    }
    output.flush()
}

/// Each window is about the trace as it was before samples of it died.
pub fn paging(random: &mut Random, windows: u64) -> Vec<[u64; REQUEST]> {
    let source = Source::any(random);
    let live = walk(random, source);
    let mut samples = live.clone();
    die(random, &mut samples);
    let floats = if random.once_in(4) { count(random) } else { FLOATS };
    let boxes = floats_for(floats) as u64;
    let mut requests = Vec::new();
    for _ in 0..windows {
        let window = window_about(random, source, &live);
        let operation = if random.once_in(10) { 65 } else { 64 };
        let any = length(random, boxes);
        let length = if random.once_in(16) { any } else { any.max(boxes) };
        let arguments = asked(random, operation, source, window, &samples, floats, length);
        requests.push(filled(random, operation, arguments));
    }
    requests
}
