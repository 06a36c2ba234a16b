//! `oracle stretches`: seeded requests of operation 63, the longest clean stretch of a trace of none to eight samples.
//!
//! The floats come from one family, or each from its own, as in the traces of `oracle requests`, and so do the floats
//! that are at the limit, beyond it or not finite. One trace of 16 has an odd count of floats; nine have all that there
//! is room for, some by a greater count. Of eight windows one has no width, one no height and one is a point; in one of
//! 16, but of an odd count in one of four, the sides of an axis are exchanged. Which samples are clean is drawn first:
//! in two traces of eight by a coin for each, in one all are, in one all but one, in one none; three have runs of one
//! length, in one of them with one to three samples between, in two with one; in these the first run is a sample
//! shorter half of the time, and one of four after it a sample longer or shorter. A clean sample is at a corner of the
//! window, on a side or inside. Another lies beyond a side, half of them by one float; but in one trace of four half of
//! these are dead, in one coordinate or in both, and in one all are.
//!
//! `oracle stretch-inputs`: seeded inputs of the program for long traces, made in the same way: of 16 one has 4,096
//! samples, one 4,095, one 4,097 and one up to 9,000; two have up to eight, and the others any number up to 4,096. The
//! runs of one length have up to 99 samples. One of eight ends in a torn sample, and one of 32 has a bad window.

use crate::answers::{FLOATS, REQUEST};
use crate::floats::{refused, Source};
use crate::random::Random;
use crate::requests::{request_of, Word, Word::Float, Word::Plain};
use crate::stream::write_words;
use crate::stretch::line_of;
use crate::touching::{on, Sides};
use crate::trace::{SAMPLES, SAMPLE_BYTES};
use crate::traces::{above_limit, kill, Sample, Window};
use std::io::{self, BufWriter, Write};
use std::{fs, path::Path};

pub fn request(random: &mut Random) -> [u64; REQUEST] {
    request_of(random, 63)
}

/// The samples are as many as there is room for, whatever the count says.
pub fn arguments(random: &mut Random) -> Vec<Word> {
    let (mut sides, samples) = trace(random, FLOATS / 2, 3);
    let floats = count(random);
    let turned = if floats % 2 == 1 { 4 } else { 16 };
    if random.once_in(turned) {
        sides[random.index(2)].swap(0, 1);
    }
    let count = Plain(above_limit(random, floats));
    let floats = window(sides).into_iter().chain(samples.into_iter().flatten()).map(Float);
    [count].into_iter().chain(floats).collect()
}

fn count(random: &mut Random) -> usize {
    match random.below(16) {
        0 => 2 * random.index(FLOATS / 2) + 1,
        1 => 0,
        2 => 2,
        3..=11 => FLOATS,
        _ => 2 * random.between(2, FLOATS as i64 / 2) as usize,
    }
}

fn window([[low_x, high_x], [low_y, high_y]]: Sides) -> Window {
    [low_x, low_y, high_x, high_y]
}

/// So many samples, runs of one length having `most` at the most.
fn trace(random: &mut Random, count: usize, most: i64) -> (Sides, Vec<Sample>) {
    let source = Source::any(random);
    let sides = sides(random, source);
    let dead_of_two = random.pick(&[0, 0, 1, 2]);
    let mut samples = Vec::new();
    for clean in pattern(random, count, most) {
        samples.push(match clean {
            true => on(random, sides),
            false if random.below(2) < dead_of_two => dead(random, sides),
            false => outside(random, source, sides),
        });
    }
    (sides, samples)
}

fn sides(random: &mut Random, source: Source) -> Sides {
    let mut sides = [0; 2].map(|_| {
        let [one, other] = [0; 2].map(|_| source.draw(random));
        if one <= other {
            [one, other]
        } else {
            [other, one]
        }
    });
    let flat: &[usize] = match random.below(8) {
        0 => &[0],
        1 => &[1],
        2 => &[0, 1],
        _ => &[],
    };
    flat.iter().for_each(|axis| sides[*axis][1] = sides[*axis][0]);
    sides
}

/// Which samples are clean.
fn pattern(random: &mut Random, count: usize, most: i64) -> Vec<bool> {
    match random.below(8) {
        0 | 1 => (0..count).map(|_| random.coin()).collect(),
        2 => vec![true; count],
        3 => {
            let spoiled = random.index(count.max(1));
            (0..count).map(|place| place != spoiled).collect()
        }
        4 => vec![false; count],
        kind => runs(random, count, most, kind != 5),
    }
}

/// Runs of one length with some samples between; if varied with one, and some of them a sample longer or shorter.
fn runs(random: &mut Random, count: usize, most: i64, varied: bool) -> Vec<bool> {
    let (length, between) = (random.between(1, most), if varied { 1 } else { 3 });
    // One of two traces begins in a run.
    let mut clean = vec![false; random.index(2)];
    let mut more = if varied { random.pick(&[-1, 0]) } else { 0 };
    while clean.len() < count {
        clean.extend((0..length + more).map(|_| true));
        clean.extend((0..random.between(1, between)).map(|_| false));
        more = if varied && random.once_in(4) { random.pick(&[-1, 1]) } else { 0 };
    }
    clean.truncate(count);
    clean
}

/// Beyond a side, by one float or more.
fn outside(random: &mut Random, source: Source, sides: Sides) -> Sample {
    let mut sample = on(random, sides);
    let axis = random.index(2);
    let [low, high] = sides[axis];
    let far = if random.coin() { 0.0 } else { source.draw(random).abs() };
    sample[axis] = match (random.coin(), low - far, high + far) {
        (true, past, _) if past < low => past,
        (true, ..) => low.next_down(),
        (false, _, past) if past > high => past,
        (false, ..) => high.next_up(),
    };
    if random.once_in(4) {
        sample[1 - axis] = source.draw(random);
    }
    sample
}

/// In one coordinate, now and then in both; the other is the window's.
fn dead(random: &mut Random, sides: Sides) -> Sample {
    let mut sample = on(random, sides);
    for _ in 0..random.pick(&[1, 1, 1, 3]) {
        kill(random, &mut sample);
    }
    sample
}

// ---- long ones

/// Writes them as the files 1 to `count` of the folder, and the line that is due for each on standard output.
pub fn run_inputs(count: u64, seed: u64, folder: &str) -> io::Result<()> {
    let mut random = Random::new(seed);
    let mut output = BufWriter::new(io::stdout().lock());
    for place in 1..=count {
        let input = input(&mut random);
        fs::write(Path::new(folder).join(place.to_string()), &input)?;
        writeln!(output, "{}", line_of(&input)?)?;
    }
    output.flush()
}

/// The window and the samples, as the program reads them.
pub fn input(random: &mut Random) -> Vec<u8> {
    let count = long_count(random);
    let most = random.pick(&[3, 30, 99]);
    let (sides, samples) = trace(random, count, most);
    let mut window = window(sides);
    if random.once_in(32) {
        let side = random.index(4);
        window[side] = if random.coin() { refused(random) } else { window[(side + 2) % 4].next_up() };
    }
    let floats = window.iter().chain(samples.as_flattened()).map(|float| float.to_bits());
    let mut input = Vec::new();
    write_words(&mut input, &floats.collect::<Vec<_>>()).expect("memory can be written");
    if random.once_in(8) {
        input.extend((0..random.between(1, SAMPLE_BYTES as i64 - 1)).map(|byte| byte as u8));
    }
    input
}

fn long_count(random: &mut Random) -> usize {
    match random.below(16) {
        0 => SAMPLES,
        1 => SAMPLES - 1,
        2 => SAMPLES + 1,
        3 => random.between(SAMPLES as i64 + 1, 9000) as usize,
        4 | 5 => random.index(9),
        _ => random.index(SAMPLES + 1),
    }
}
