//! `oracle near`: a search for the value of `interpolate` that is the farthest from the exact line, change request W12:
//! of coordinates in -1..1, ends at least 2^-500 apart and x from one to the other. The error is worked out in whole
//! numbers of 2^-1074; no float decides.
//!
//! The cuts come in rounds. A quarter of a round is drawn. Of one in four of these the floats are of every size, or
//! special: ends of the range, zeros, subnormals, x at an end, widths down to 2^-500. In the others all that rounds is
//! about where it rounds the most: the width just above a power of two, x about the middle, the heights about 1 apart
//! or from about -1 to about 1, so that the difference, the product and the quotient are near powers of two. Now and
//! then x is about an end, where a value worked out from the farther one would be twice as far off. The rest of the
//! round climbs from the worst of them: one word or two are changed by some last places, and what is worse is kept.

use crate::floats::{any_of, power};
use crate::random::Random;
use crate::rules::{ours, Cut, Rule};
use crate::whole::Whole;
use std::io::{self, Write};

const ROUND: u64 = 20_000;
const DRAWN: u64 = ROUND / 4;

/// The ends have to differ by as much.
const LEAST: f64 = power(-500);

/// 2^-50 in the units of a share.
const BOUND: u64 = 1 << 60;
/// What W12's proof gives: 49 * 2^-56.
const PROVED: u64 = BOUND / 64 * 49;
/// A search that finds no more than this is blind.
const BLIND: u64 = BOUND / 100 * 45;

/// So many faults are shown.
const SHOWN: usize = 10;

/// How far a value is from the exact line, times the width, and one unit of a share of the width.
struct Miss {
    by: Whole,
    unit: Whole,
}

impl Miss {
    /// |v (b-a) - (a1 (b-x) + b1 (x-a))| beside |b-a|. Products are in units of 2^-2148, so that 2^-110 of the width
    /// is 2^964 times it.
    fn of(value: f64, [x, a, b, a1, b1]: Cut) -> Miss {
        assert!([value, x, a, b, a1, b1].iter().all(|x| x.abs() <= 2.0), "the products fit");
        let [at, from, to] = [x, a, b].map(Whole::of);
        let width = to - from;
        let line = (to - at).times(a1) + (at - from).times(b1);
        Miss { by: (width.times(value) - line).magnitude(), unit: width.magnitude().shifted(964) }
    }

    fn exceeds(&self, share: u64) -> bool {
        self.by > self.unit.scaled(share)
    }

    /// The error in units of 2^-110, rounded down; sixteen times 2^-50 and more is the greatest.
    fn share(&self) -> u64 {
        let mut share = 0;
        for bit in (0..64).rev() {
            let more = share | 1 << bit;
            if self.by >= self.unit.scaled(more) {
                share = more;
            }
        }
        share
    }
}

fn admitted(cut: &Cut) -> bool {
    let [x, a, b, ..] = *cut;
    let between = a.min(b) <= x && x <= a.max(b);
    between && cut.iter().all(|x| x.abs() <= 1.0) && (Whole::of(b) - Whole::of(a)).magnitude() >= Whole::of(LEAST)
}

/// A cut and its share.
type Worst = (u64, Cut);

struct Found {
    rule: Rule,
    greatest: Worst,
    /// From where the round climbs.
    climber: Worst,
    faults: Vec<String>,
}

/// Says no where an error is beyond what is proved, where one at an end is not 0, and where too little is found.
pub fn run(count: u64, seed: u64) -> io::Result<bool> {
    let Found { greatest, mut faults, .. } = search(ours, count, seed);
    if greatest.0 < BLIND {
        faults.push("not found: an error of 0.45, so that the search is blind".to_string());
    }
    say(count, greatest)?;
    let mut output = io::stdout().lock();
    faults.iter().try_for_each(|fault| writeln!(output, "{fault}"))?;
    Ok(faults.is_empty())
}

/// The greatest error of another rule. Nothing is asked of it.
pub fn of_rule(rule: Rule, count: u64, seed: u64) -> io::Result<()> {
    say(count, search(rule, count, seed).greatest)
}

fn say(count: u64, (share, cut): Worst) -> io::Result<()> {
    let mut output = io::stdout().lock();
    writeln!(output, "{count} cuts, the greatest error {} of 2^-50, at {}", decimal(share), shown(cut))
}

fn search(rule: Rule, count: u64, seed: u64) -> Found {
    let mut random = Random::new(seed);
    let mut found = Found { rule, greatest: Worst::default(), climber: Worst::default(), faults: Vec::new() };
    for place in 0..count {
        if place % ROUND == 0 {
            found.climber = Worst::default();
        }
        let (share, worst) = found.climber;
        let climbs = place % ROUND >= DRAWN && share > 0;
        found.look(if climbs { moved(&mut random, worst) } else { drawn(&mut random) });
    }
    found
}

impl Found {
    fn look(&mut self, cut: Cut) {
        let [x, a, b, ..] = cut;
        let miss = Miss::of((self.rule)(cut), cut);
        if miss.exceeds(PROVED) {
            self.fault("an error beyond what is proved", &miss, cut);
        }
        if (x == a || x == b) && miss.exceeds(0) {
            self.fault("not the value at the end", &miss, cut);
        }
        if miss.exceeds(self.climber.0) {
            self.climber = (miss.share(), cut);
            self.greatest = if self.climber.0 > self.greatest.0 { self.climber } else { self.greatest };
        }
    }

    fn fault(&mut self, what: &str, miss: &Miss, cut: Cut) {
        if self.faults.len() < SHOWN {
            self.faults.push(format!("{what}: {} of 2^-50, at {}", decimal(miss.share()), shown(cut)));
        }
    }
}

/// Rounded down, so that nothing is said to be more than it is.
fn decimal(share: u64) -> String {
    let parts = u128::from(share) * 10_000 / u128::from(BOUND);
    format!("{}.{:04}", parts / 10_000, parts % 10_000)
}

fn shown(cut: Cut) -> String {
    let [x, a, b, a1, b1] = cut.map(f64::to_bits);
    format!("30: {x:x} {a:x} {b:x} {a1:x} {b1:x}")
}

fn drawn(random: &mut Random) -> Cut {
    loop {
        let cut = if random.once_in(4) { any(random) } else { rounding(random) };
        if admitted(&cut) {
            return cut;
        }
    }
}

/// The same but for some last places.
fn moved(random: &mut Random, cut: Cut) -> Cut {
    loop {
        let mut cut = cut;
        for _ in 0..random.between(1, 2) {
            let word = &mut cut[random.index(5)];
            let far = 1 << random.below(16);
            *word = f64::from_bits(word.to_bits().wrapping_add_signed(random.between(-far, far)));
        }
        if admitted(&cut) {
            return cut;
        }
    }
}

fn any(random: &mut Random) -> Cut {
    let (a, b) = match random.below(3) {
        0 => (float(random), float(random)),
        1 => (0.0, random.pick(&[LEAST, -LEAST])),
        _ => {
            let (a, width) = (float(random), power(random.between(-500, 0)));
            (a, random.pick(&[a + width, a - width]))
        }
    };
    let a1 = float(random);
    let b1 = if random.once_in(8) { a1 } else { float(random) };
    let inside = a + (b - a) * random.fraction();
    let near_a = a + (b - a) * power(random.between(-60, -1));
    let anywhere = float(random);
    [random.pick(&[a, b, inside, near_a, anywhere]), a, b, a1, b1]
}

/// Of magnitude up to 1.
fn float(random: &mut Random) -> f64 {
    let magnitude = match random.below(6) {
        0 => any_of(random, |x| x.abs() <= 1.0),
        1 => random.pick(&[0.0, 1.0, 1.0f64.next_down(), 0.5]),
        2 => f64::from_bits(random.below(power(-1022).to_bits())),
        3 => power(random.between(-1074, 0)),
        _ => random.fraction(),
    };
    random.pick(&[magnitude, -magnitude])
}

/// The ends lie on both sides of 0, so that differences of them round.
fn rounding(random: &mut Random) -> Cut {
    let least = random.pick(&[-500, -4]);
    let width = power(random.between(least, 0)) * (1.0 + little(random));
    let a = -width * random.fraction();
    let step = random.pick(&[width / 2.0, width / 2.0, width / 2.0, width]);
    let (b, x) = (a + width, a + step * (1.0 - little(random)));
    let (a1, b1) = if random.once_in(4) {
        let below = random.fraction();
        (-below, 1.0 + little(random) - below)
    } else {
        (little(random) - 1.0, 1.0 - little(random))
    };
    let (places, heights) = (random.pick(&[1.0, -1.0]), random.pick(&[1.0, -1.0]));
    let [x, a, b, a1, b1] = [places * x, places * a, places * b, heights * a1, heights * b1];
    random.pick(&[[x, a, b, a1, b1], [x, b, a, b1, a1]])
}

fn little(random: &mut Random) -> f64 {
    random.fraction() * power(random.between(-52, -5))
}

#[cfg(test)]
mod tests {
    use super::*;

    const STEP: f64 = power(-1074);

    fn share(cut: Cut) -> u64 {
        Miss::of(ours(cut), cut).share()
    }

    /// P1's edge and window, a quarter of their size.
    #[test]
    fn on_the_line() {
        for (x, height) in [(0.25, 0.125), (0.75, 0.375)] {
            let cut = [x, 0.0, 1.0, 0.0, 0.5];
            assert_eq!((ours(cut), share(cut)), (height, 0));
        }
    }

    /// The float next to 1/3 is a third of 2^-54 from it. Neither the scale nor the order of the ends tells.
    #[test]
    fn a_third() {
        for scale in [0.25, -0.25, LEAST] {
            assert_eq!(share([scale, 0.0, 3.0 * scale, 0.0, 1.0]), BOUND / 48);
            assert_eq!(share([scale, 3.0 * scale, 0.0, -1.0, 0.0]), BOUND / 48);
        }
    }

    #[test]
    fn beside_the_line() {
        let cut = [0.5, 0.0, 1.0, 0.0, 1.0];
        let shares =
            [0.5, 0.5f64.next_up(), 0.5 - power(-50), 0.5 + 16.0 * power(-50)].map(|v| Miss::of(v, cut).share());
        assert_eq!(shares, [0, BOUND / 8, BOUND, u64::MAX]);
        let miss = Miss::of(0.5 + 6.0 * power(-53), cut);
        assert!(!miss.exceeds(PROVED) && !miss.exceeds(BOUND / 4 * 3) && miss.exceeds(BOUND / 4 * 3 - 1));
    }

    /// Why W12 asks for a least difference: D11's value is 0, where the line has 1/6.
    #[test]
    fn ends_too_near() {
        let cut = [STEP, 0.0, 3.0 * STEP, 0.0, 0.5];
        assert_eq!(ours(cut), 0.0);
        let miss = Miss::of(0.0, cut);
        let width = miss.unit.shifted(110);
        assert!(miss.exceeds(BOUND) && miss.by.scaled(6) == width && !admitted(&cut));
    }

    #[test]
    fn the_least_difference() {
        let to = |b| admitted(&[0.0, 0.0, b, 0.0, 1.0]);
        assert!(to(LEAST) && to(-LEAST) && !to(LEAST.next_down()) && !to(0.0));
        assert!(to(1.0) && !to(1.0f64.next_up()) && !admitted(&[0.5, 0.0, 0.25, 0.0, 1.0]));
    }

    #[test]
    fn decimals() {
        assert_eq!([0, BOUND / 2 - 1, BOUND / 2, PROVED].map(decimal), ["0.0000", "0.4999", "0.5000", "0.7656"]);
    }
}
