//! Floats worth asking about, by family. Numbers that are to meet each other come from the same family.

use crate::clip::{admitted, LIMIT};
use crate::random::Random;

#[derive(Clone, Copy)]
pub enum Family {
    /// Uniform in -1..1.
    Unit,
    /// Uniform in -1000..1000.
    Thousand,
    /// Whole, -4 to 4.
    Whole,
    /// Tenths from -2 to 2, most of them not exact.
    Tenths,
    /// About 1.
    Powers,
    /// 2^1020 up to the greatest float: sums and differences overflow.
    Huge,
    /// About 2^512: products overflow.
    Large,
    /// About 2^-537: products are subnormal or vanish.
    Small,
    /// About 2^-1022, where subnormals begin.
    Least,
    /// 0 to 16 steps of 2^-1074.
    Steps,
    /// The bits of any finite float.
    Bits,
    /// From 2^497 up to the limit of module 4, 2^500, itself and the float below it the most often: there differences
    /// and products are the greatest.
    Limit,
    /// The bits of any float that module 4 admits.
    AdmittedBits,
}

use Family::*;

impl Family {
    /// The ordinary families come more often than the ends of the range.
    pub fn any(random: &mut Random) -> Family {
        Family::ordinary_or(random, &[Huge, Large, Small, Least, Steps, Bits])
    }

    /// The same for module 4: no float is beyond its limit.
    pub fn admitted(random: &mut Random) -> Family {
        Family::ordinary_or(random, &[Limit, Limit, Small, Least, Steps, AdmittedBits])
    }

    fn ordinary_or(random: &mut Random, ends: &[Family]) -> Family {
        if random.once_in(3) {
            random.pick(ends)
        } else {
            random.pick(&[Unit, Unit, Thousand, Whole, Whole, Tenths, Powers])
        }
    }

    pub fn draw(self, random: &mut Random) -> f64 {
        let magnitude = match self {
            Unit => random.fraction(),
            Thousand => 1000.0 * random.fraction(),
            Whole => random.below(5) as f64,
            Tenths => random.below(21) as f64 / 10.0,
            Powers => near_power(random, -4, 4),
            Huge => near_power(random, 1020, 1023),
            Large => near_power(random, 509, 514),
            Small => near_power(random, -545, -530),
            Least => near_power(random, -1025, -1019),
            Steps => f64::from_bits(random.below(17)),
            Bits => any_of(random, f64::is_finite),
            Limit if random.coin() => random.pick(&WITHIN),
            Limit => near_power(random, 497, 499),
            AdmittedBits => any_of(random, admitted),
        };
        of_either_sign(random, magnitude)
    }
}

/// Where the floats of an edge or a trace come from: one family, but in one of eight each has its own.
#[derive(Clone, Copy)]
pub struct Source {
    shared: Family,
    mixed: bool,
}

impl Source {
    pub fn any(random: &mut Random) -> Source {
        Source { shared: Family::admitted(random), mixed: random.once_in(8) }
    }

    #[cfg(test)]
    pub fn of(family: Family) -> Source {
        Source { shared: family, mixed: false }
    }

    pub fn draw(self, random: &mut Random) -> f64 {
        let family = if self.mixed { Family::admitted(random) } else { self.shared };
        family.draw(random)
    }
}

/// A power of two or an eighth part more of it, and now and then a float next to that.
fn near_power(random: &mut Random, low: i64, high: i64) -> f64 {
    let eighths = if random.coin() { 8 } else { random.between(8, 15) };
    let value = eighths as f64 * power(random.between(low, high) - 3);
    if random.once_in(3) {
        neighbour(random, value)
    } else {
        value
    }
}

/// 2^exponent, from -1074 on.
pub const fn power(exponent: i64) -> f64 {
    if exponent < -1022 {
        f64::from_bits(1 << (exponent + 1074))
    } else {
        f64::from_bits(((exponent + 1023) as u64) << 52)
    }
}

/// The float above or below; a finite one stays finite.
pub fn neighbour(random: &mut Random, value: f64) -> f64 {
    let next = if random.coin() { value.next_up() } else { value.next_down() };
    if next.is_finite() {
        next
    } else {
        value
    }
}

pub fn any_of(random: &mut Random, wanted: fn(f64) -> bool) -> f64 {
    loop {
        let value = f64::from_bits(random.word());
        if wanted(value) {
            return value;
        }
    }
}

/// The greatest floats that module 4 admits.
const WITHIN: [f64; 2] = [LIMIT, LIMIT.next_down()];

pub fn at_limit(random: &mut Random) -> f64 {
    let magnitude = random.pick(&WITHIN);
    of_either_sign(random, magnitude)
}

/// Finite, and refused by module 4: the float next to its limit, the greatest, or any from twice the limit up.
pub fn beyond_limit(random: &mut Random) -> f64 {
    let far = random.between(power(501).to_bits() as i64, f64::MAX.to_bits() as i64);
    let magnitude = random.pick(&[LIMIT.next_up(), LIMIT.next_up(), f64::from_bits(far as u64), f64::MAX]);
    of_either_sign(random, magnitude)
}

/// What module 4 refuses, finite or not.
pub fn refused(random: &mut Random) -> f64 {
    if random.coin() {
        not_finite(random)
    } else {
        beyond_limit(random)
    }
}

fn of_either_sign(random: &mut Random, magnitude: f64) -> f64 {
    if random.coin() {
        magnitude
    } else {
        -magnitude
    }
}

pub fn not_finite(random: &mut Random) -> f64 {
    let sign = random.word() & (1 << 63);
    let payload = if random.coin() { 0 } else { random.word() >> 12 };
    f64::from_bits(sign | 0x7ff0_0000_0000_0000 | payload)
}

pub fn zero(random: &mut Random) -> f64 {
    random.pick(&[0.0, -0.0])
}
