//! `oracle touching`: seeded requests of traces with many edges that only touch the window (change request W10), and
//! with some that a careless test would take for such.
//!
//! The floats come from one family, or each from its own, as in the traces of `oracle requests`; the count, the dead
//! samples, the buffer, the trace number and which of 61 and 62 is asked are as there. Of eight windows five have a
//! width and a height, one has no width, one no height and one is a point; in one of three a side is a zero, in one of
//! 16 the sides of an axis are exchanged. The first sample lies beyond a side. Of twelve further ones four lie on the
//! window, each coordinate at a side or between two, so that they are at a corner, on a side or inside; three lie
//! beyond a side, one that the sample before is at or past if there is such; three are the image of the sample before
//! in such a place of the window, so that the edge grazes it or goes through; one is the sample before itself; and one
//! is level with it or upright, or in line with a side. Each zero then has either sign.

use crate::answers::{FLOATS, REQUEST};
use crate::clip::admitted;
use crate::floats::{zero, Source};
use crate::random::Random;
use crate::requests::filled;
use crate::traces::{asked, Sample, Window};

/// The low and the high side of each axis.
pub type Sides = [[f64; 2]; 2];

pub fn request(random: &mut Random) -> [u64; REQUEST] {
    let (window, samples) = trace(random);
    let arguments = asked(random, window, samples);
    filled(random, 61, arguments)
}

pub fn trace(random: &mut Random) -> (Window, Vec<Sample>) {
    let source = Source::any(random);
    let mut sides = sides(random, source);
    let mut samples = vec![beyond(random, source, sides, [0.0; 2])];
    while samples.len() < FLOATS / 2 {
        let before = samples[samples.len() - 1];
        let sample = next(random, source, sides, before);
        samples.push(sample.map(|x| of_either_sign(random, x)));
    }
    if random.once_in(16) {
        sides[random.index(2)].swap(0, 1);
    }
    let [[low_x, high_x], [low_y, high_y]] = sides;
    ([low_x, low_y, high_x, high_y], samples)
}

fn sides(random: &mut Random, source: Source) -> Sides {
    let mut sides = [0; 2].map(|_| [0; 2].map(|_| source.draw(random)));
    if random.once_in(3) {
        sides[random.index(2)][random.index(2)] = 0.0;
    }
    let flat: &[usize] = match random.below(8) {
        0 => &[0],
        1 => &[1],
        2 => &[0, 1],
        _ => &[],
    };
    flat.iter().for_each(|axis| sides[*axis][1] = sides[*axis][0]);
    sides.map(|[one, other]| [one.min(other), one.max(other)].map(|x| of_either_sign(random, x)))
}

fn next(random: &mut Random, source: Source, sides: Sides, before: Sample) -> Sample {
    match random.below(12) {
        0..=3 => on(random, sides),
        4..=6 => beyond(random, source, sides, before),
        7..=9 => image(before, on(random, sides)),
        10 => before,
        _ => {
            let mut sample = if random.coin() { before } else { on(random, sides) };
            sample[random.index(2)] = source.draw(random);
            sample
        }
    }
}

/// A place of the window.
pub fn on(random: &mut Random, sides: Sides) -> Sample {
    sides.map(|[low, high]| {
        let between = low + random.fraction() * (high - low);
        random.pick(&[low, high, between.clamp(low, high)])
    })
}

fn beyond(random: &mut Random, source: Source, sides: Sides, before: Sample) -> Sample {
    let mut sample = [0; 2].map(|_| source.draw(random));
    let axis = random.index(2);
    let [low, high] = sides[axis];
    let is_below = match (before[axis] <= low, high <= before[axis]) {
        (true, false) => true,
        (false, true) => false,
        _ => random.coin(),
    };
    let far = sample[axis].abs();
    let past = if is_below { low - far } else { high + far };
    if admitted(past) {
        sample[axis] = past;
    }
    sample
}

/// As exactly as floats allow, the middle of the edge is `at`.
fn image(before: Sample, at: Sample) -> Sample {
    std::array::from_fn(|axis| {
        let image = at[axis] + (at[axis] - before[axis]);
        if admitted(image) {
            image
        } else {
            at[axis]
        }
    })
}

/// A zero; any other float is as it was.
pub fn of_either_sign(random: &mut Random, x: f64) -> f64 {
    if x == 0.0 {
        zero(random)
    } else {
        x
    }
}
