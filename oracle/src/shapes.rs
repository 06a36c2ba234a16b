//! Arguments that meet each other: edges with windows, normals close to a tie, exits at corners.

use crate::floats::{neighbour, zero, Family};
use crate::random::Random;
use crate::records::{edge, Record};
use crate::requests::{zero_or_not, Word, Word::Float, Word::Plain};

/// Arguments for operations 30 to 35, from one edge and its window.
pub fn around_edge(random: &mut Random, operation: u64) -> Vec<Word> {
    let edge = edge(random);
    around(random, operation, edge)
}

pub fn around(random: &mut Random, operation: u64, edge: Record) -> Vec<Word> {
    let [ax, ay, bx, by, low_x, low_y, high_x, high_y] = edge;
    let (box_x, box_y) = (bound(random, ax, bx, low_x, high_x), bound(random, ay, by, low_y, high_y));
    let negative_slope = (ax > bx) != (ay > by);
    let slope = if random.once_in(8) { zero_or_not(random) } else { negative_slope.into() };
    match operation {
        30 => {
            let between = ax + random.fraction() * (bx - ax);
            // The bits of a NaN that arises are the machine's, and requests are to be the same on all.
            let between = if between.is_finite() { between } else { ax };
            let x = random.pick(&[low_x, high_x, between, between, ax, bx]);
            [x, ax, bx, ay, by].map(Float).to_vec()
        }
        31 => {
            let value = random.pick(&[low_x, high_x, ax, bx]);
            vec![Float(box_x[0]), Float(box_x[1]), Plain(zero_or_not(random)), Float(value)]
        }
        32 => {
            let edge = [ax, bx, box_x[0], box_x[1], ay, by, box_y[0], box_y[1]].map(Float);
            [&edge[..], &[Plain(slope), Float(low_x), Float(high_x)]].concat()
        }
        33 => {
            let bound = [box_x[0], box_y[0], box_x[1], box_y[1]];
            let edge = [ax, ay, bx, by, low_x, low_y, high_x, high_y];
            [edge.map(Float).as_slice(), &bound.map(Float)].concat()
        }
        _ => [ax, ay, bx, by, low_x, low_y, high_x, high_y].map(Float).to_vec(),
    }
}

/// An axis of a bound for a to b: most often their box, else with a side of the window for one of its own.
fn bound(random: &mut Random, a: f64, b: f64, low: f64, high: f64) -> [f64; 2] {
    let (mut lo, mut hi) = if a <= b { (a, b) } else { (b, a) };
    match random.below(8) {
        0 => lo = random.pick(&[low, high]),
        1 => hi = random.pick(&[low, high]),
        _ => {}
    }
    [lo, hi]
}

/// A normal: half of them with one component the sum of the others or a float next to it, so that the line goes through
/// or close to a corner of the cube; some with a zero, or with two components alike.
pub fn normal(random: &mut Random, family: Family) -> [f64; 3] {
    let mut normal = [0; 3].map(|_| family.draw(random));
    let (one, two, three) = random.pick(&[(0, 1, 2), (1, 2, 0), (2, 0, 1)]);
    let sum = normal[one] + normal[two];
    match random.below(8) {
        0 | 1 if sum.is_finite() => normal[three] = sum,
        2 | 3 if sum.is_finite() => normal[three] = neighbour(random, sum),
        4 => normal[one] = zero(random),
        5 => normal[one] = normal[two],
        _ => {}
    }
    for component in &mut normal {
        if random.coin() {
            *component = -*component;
        }
    }
    normal
}

/// Arguments for operation 55: the exit is a corner, and the line goes through it or past it by as little as can be.
pub fn at_corner(random: &mut Random) -> Vec<Word> {
    let family = Family::any(random);
    let [u, v] = [0; 2].map(|_| random.pick(&[1.0, -1.0]));
    let [nu, nv] = [0; 2].map(|_| family.draw(random));
    let through = -(u * nu + v * nv);
    let nw = if random.coin() { through } else { neighbour(random, through) };
    let (face, target) = (random.below(6), random.below(6));
    let exit = [Float(u), Float(v), Plain(zero_or_not(random))];
    [&[Plain(face)], &exit[..], &[nu, nv, nw].map(Float), &[Plain(target)]].concat()
}
