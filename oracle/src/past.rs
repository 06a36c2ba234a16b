//! `oracle past`: a search for what change request W8 changes: the crate is asked, and asked again with the clamp.
//! `oracle past-requests`: the requests of that search, for the answering program.
//!
//! Each request is of an operation that takes values from a line. One edge of four is of `oracle records edges`. In the
//! others a side of the window lies in the middle between the ends. Of one in four width and height are of any size that
//! module 4 admits; of two the product that `interpolate` makes there is about half of 2^-1074, so that it rounds to all
//! of that or to nothing: half the width is then any float from 2^-1074 up to 2^-54, often of few steps or few digits.
//! Ends are exchanged, axes mirrored and exchanged at random.

use crate::answers::{line_of, REQUEST};
use crate::clamped::watch;
use crate::clip::{admitted, clip_edge, LIMIT};
use crate::floats::{any_of, neighbour, power};
use crate::likeness::{compare, Likeness::Different};
use crate::number::MISSED;
use crate::operations::kinds;
use crate::r2::{point::Point, rect::Rect};
use crate::random::Random;
use crate::records::{edge, Record};
use crate::requests::{filled, Word::Float, Word::Plain};
use crate::shapes::around;
use crate::walk;
use crate::whose::Whose;
use crate::words::Arguments;
use std::io::{self, Write};

/// Where the two may depart: the operation, the numbers of the crate's answer and of ours, and what that is. Each has to
/// be found, and no other: an edge that both keep has the same points, since only a value that takes an edge away tells.
const SOUGHT: [(u64, &str, &str); 8] = [
    (30, "00", "values of interpolate"),
    (32, "10", "axes that the crate misses"),
    (32, "00", "axes with another end"),
    (33, "10", "boxes that the crate misses"),
    (33, "00", "boxes with another side"),
    (34, "10", "edges that the crate misses"),
    (61, "00", "traces"),
    (62, "00", "traces with touches"),
];

/// Requests are drawn for the first so many: a trace asks 61 or 62 (see `requests.rs`).
const DRAWN: usize = SOUGHT.len() - 1;

/// So many faults are shown.
const SHOWN: usize = 10;

#[derive(Default)]
struct Found {
    departures: [u64; SOUGHT.len()],
    /// Edges with an end of their own in the window, and those of them that do not get it back.
    reaching: u64,
    lost: u64,
    faults: Vec<String>,
}

/// Says no where the two depart in another way, where no value left its ends, where nothing is found, and where with the
/// clamp too an end of an edge that lies in the window does not come back.
pub fn run(count: u64, seed: u64) -> io::Result<bool> {
    let (mut random, mut found) = (Random::new(seed), Found::default());
    for _ in 0..count {
        found.look(&request(&mut random));
    }
    let Found { departures, reaching, lost, mut faults } = found;
    let mut said = format!("{count} requests, explained by the clamp ");
    for ((_, _, name), count) in SOUGHT.iter().zip(departures) {
        said += &format!("{count} {name}, ");
        if count == 0 {
            faults.push(format!("not found: {name}"));
        }
    }
    let mut output = io::stdout().lock();
    writeln!(output, "{said}and {lost} of {reaching} edges with an end in the window lost")?;
    faults.iter().take(SHOWN).try_for_each(|fault| writeln!(output, "{fault}"))?;
    Ok(faults.is_empty())
}

impl Found {
    fn look(&mut self, request: &[u64; REQUEST]) {
        let crates = line_of(request, Whose::Crates);
        let (ours, left) = watch(|| line_of(request, Whose::Ours));
        if compare(kinds(request[0]).1, crates.as_bytes(), ours.as_bytes()) == Different {
            let numbers = [&crates[..1], &ours[..1]].concat();
            match SOUGHT.iter().position(|(operation, of, _)| *operation == request[0] && *of == numbers) {
                Some(place) if left => self.departures[place] += 1,
                _ => self.faults.push(format!("not explained: {request:x?}\n  {crates}  {}", ours.trim_end())),
            }
        }
        if request[0] == 34 {
            self.look_at_ends(&request[1..9]);
        }
    }

    fn look_at_ends(&mut self, edge: &[u64]) {
        let mut arguments = Arguments::new(edge);
        let (a, b, window): (Point, Point, Rect) = (arguments.take(), arguments.take(), arguments.take());
        let (a_inside, b_inside) = (window.contains_point(&a), window.contains_point(&b));
        let back = match clip_edge(Whose::Ours, a, b, window) {
            Ok((kept_a, kept_b)) => (!a_inside || kept_a == a) && (!b_inside || kept_b == b),
            Err(MISSED) => !a_inside && !b_inside,
            Err(_) => return,
        };
        self.reaching += u64::from(a_inside || b_inside);
        if !back {
            self.lost += 1;
            self.faults.push(format!("an end in the window does not come back: {edge:x?}"));
        }
    }
}

pub fn request(random: &mut Random) -> [u64; REQUEST] {
    let (operation, _, _) = random.pick(&SOUGHT[..DRAWN]);
    let edge = match random.below(4) {
        0 => edge(random),
        1 => {
            let [half, height] = [0; 2].map(|_| any_of(random, admitted).abs() / 4.0);
            halved(random, half, height)
        }
        _ => {
            let half = narrow(random);
            // 2^-1075 is no float.
            let height = near(random, power(-537) / half * power(-538));
            halved(random, half, height)
        }
    };
    let arguments = match operation {
        61 => {
            let head = [Plain(4), Plain(walk::RECORD as u64)];
            head.into_iter().chain([&edge[4..], &edge[..4]].concat().into_iter().map(Float)).collect()
        }
        _ => around(random, operation, edge),
    };
    filled(random, operation, arguments)
}

fn narrow(random: &mut Random) -> f64 {
    match random.below(3) {
        0 => f64::from_bits(1 + random.below(64)),
        1 => (1 + random.below(64)) as f64 * power(random.between(-1074, -60)),
        _ => f64::from_bits(1 + random.below(power(-54).to_bits())),
    }
}

/// An edge of about this height, and a window with a side at the half of its width.
fn halved(random: &mut Random, half: f64, height: f64) -> Record {
    let below = [random.fraction(), random.below(100) as f64 / 100.0, power(random.between(-60, -1))];
    let a1 = -height * random.pick(&below);
    let b1 = near(random, a1 + height);
    let a = half * random.pick(&[0.0, 0.0, -1.0, -2.0, 1.0]);
    let (x, b) = (a + half, a + half + half);
    let mut ends = [[a, a1], [b, b1]];
    let cut = random.pick(&[[x, x], [x, b], [x, LIMIT], [a, x], [-LIMIT, x]]);
    let mut window = [cut, random.pick(&[[-LIMIT, LIMIT], [a1, b1], [a1, LIMIT], [b1, LIMIT]])];
    if random.coin() {
        ends.swap(0, 1);
    }
    for axis in 0..2 {
        if random.coin() {
            ends.iter_mut().for_each(|end| end[axis] = -end[axis]);
            window[axis] = [-window[axis][1], -window[axis][0]];
        }
    }
    if random.coin() {
        ends.iter_mut().for_each(|end| end.swap(0, 1));
        window.swap(0, 1);
    }
    let [[ax, ay], [bx, by]] = ends;
    let [[low_x, high_x], [low_y, high_y]] = window;
    [ax, ay, bx, by, low_x, low_y, high_x, high_y]
}

fn near(random: &mut Random, value: f64) -> f64 {
    if random.coin() {
        value
    } else {
        neighbour(random, value)
    }
}

#[cfg(test)]
#[path = "../../bench/clamped.rs"]
#[allow(clippy::too_many_arguments)]
mod bench;

/// What `bench/` measures of the crate clamps as W8 asks.
#[cfg(test)]
#[test]
fn the_bench_clamps_too() {
    let (mut random, mut kept) = (Random::new(1), 0);
    for _ in 0..500_000 {
        let request = request(&mut random);
        if request[0] != 34 {
            continue;
        }
        let mut arguments = Arguments::new(&request[1..]);
        let (a, b, window): (Point, Point, Rect) = (arguments.take(), arguments.take(), arguments.take());
        let ours = clip_edge(Whose::Ours, a, b, window.clone());
        if ours.is_ok() || ours == Err(MISSED) {
            let (kept_a, kept_b, is_kept) = bench::clip_edge(a, b, window.clone());
            assert_eq!(if is_kept { Ok((kept_a, kept_b)) } else { Err(MISSED) }, ours, "{a:?}, {b:?}, {window:?}");
        }
        kept += u64::from(ours.is_ok() && clip_edge(Whose::Crates, a, b, window) == Err(MISSED));
    }
    assert!(kept > 100, "{kept} that the crate misses");
}
