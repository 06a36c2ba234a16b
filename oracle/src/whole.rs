//! Exact values: a finite float is a whole number of 2^-1074. With these the crate's claims to be exact are checked.

use crate::r3::vector::Vector;
use std::cmp::Ordering;
use std::ops::{Add, Neg, Sub};

const WORDS: usize = 35;

/// A whole number in two's complement, lowest word first: 2,240 bits, where the greatest float needs 2,098.
#[derive(Clone, Copy, PartialEq, Eq)]
pub struct Whole([u64; WORDS]);

impl Whole {
    /// The float in units of 2^-1074. It has to be finite.
    pub fn of(value: f64) -> Whole {
        let (mantissa, shift) = parts(value);
        let placed = u128::from(mantissa) << (shift % 64);
        let mut words = [0; WORDS];
        words[shift / 64] = placed as u64;
        words[shift / 64 + 1] = (placed >> 64) as u64;
        if value.is_sign_negative() {
            -Whole(words)
        } else {
            Whole(words)
        }
    }

    fn is_negative(&self) -> bool {
        self.0[WORDS - 1] >> 63 == 1
    }

    pub fn magnitude(self) -> Whole {
        if self.is_negative() {
            -self
        } else {
            self
        }
    }

    /// So many times it. Like `shifted`, it has to fit.
    pub fn scaled(mut self, count: u64) -> Whole {
        let mut carry = 0;
        for word in &mut self.0 {
            (*word, carry) = word.carrying_mul(count, carry);
        }
        self
    }

    /// 2^places times it.
    pub fn shifted(self, places: usize) -> Whole {
        let (skipped, rest) = (places / 64, places % 64);
        let mut words = [0; WORDS];
        let mut carry = 0;
        for (word, from) in words[skipped..].iter_mut().zip(self.0) {
            let placed = u128::from(from) << rest;
            (*word, carry) = (placed as u64 | carry, (placed >> 64) as u64);
        }
        Whole(words)
    }

    /// The product with a float, in units of 2^-2148. For floats up to 1 in magnitude, and sums of some, it fits.
    pub fn times(self, value: f64) -> Whole {
        let (mantissa, shift) = parts(value);
        let product = self.scaled(mantissa).shifted(shift);
        if value.is_sign_negative() {
            -product
        } else {
            product
        }
    }
}

/// The magnitude of a finite float as a whole number and the power of two that it is to be multiplied with, in units of
/// 2^-1074.
fn parts(value: f64) -> (u64, usize) {
    assert!(value.is_finite(), "only a finite float has an exact value");
    let bits = value.to_bits();
    let exponent = (bits >> 52 & 0x7ff) as usize;
    let fraction = bits & ((1 << 52) - 1);
    // Subnormals and the least normals have the same unit in the last place.
    if exponent == 0 {
        (fraction, 0)
    } else {
        (fraction | 1 << 52, exponent - 1)
    }
}

impl Add for Whole {
    type Output = Whole;

    fn add(mut self, other: Whole) -> Whole {
        let mut carry = false;
        for (word, more) in self.0.iter_mut().zip(other.0) {
            (*word, carry) = word.carrying_add(more, carry);
        }
        self
    }
}

impl Neg for Whole {
    type Output = Whole;

    fn neg(self) -> Whole {
        let mut one = [0; WORDS];
        one[0] = 1;
        Whole(self.0.map(|word| !word)) + Whole(one)
    }
}

impl Sub for Whole {
    type Output = Whole;

    fn sub(self, other: Whole) -> Whole {
        self + -other
    }
}

impl Ord for Whole {
    fn cmp(&self, other: &Whole) -> Ordering {
        // Of two numbers with the same sign the words decide, from the highest.
        let words = || self.0.iter().rev().cmp(other.0.iter().rev());
        other.is_negative().cmp(&self.is_negative()).then_with(words)
    }
}

impl PartialOrd for Whole {
    fn partial_cmp(&self, other: &Whole) -> Option<Ordering> {
        Some(self.cmp(other))
    }
}

pub fn sum_equal(u: f64, v: f64, w: f64) -> bool {
    Whole::of(u) + Whole::of(v) == Whole::of(w)
}

/// |Nu| + |Nv| >= |Nw|.
pub fn intersects_face(normal: Vector) -> bool {
    let [u, v, w] = magnitudes(normal);
    u + v >= w
}

/// ||Nu| - |Nv|| >= |Nw|.
pub fn intersects_opposite_edges(normal: Vector) -> bool {
    let [u, v, w] = magnitudes(normal);
    (u - v).magnitude() >= w
}

fn magnitudes(normal: Vector) -> [Whole; 3] {
    [normal.x, normal.y, normal.z].map(|component| Whole::of(component).magnitude())
}

#[cfg(test)]
mod tests {
    use super::Whole;
    use crate::floats::Family;
    use crate::random::Random;

    /// The order of floats is that of their exact values, and a sum or product that floats can do exactly is the
    /// same.
    #[test]
    fn agrees_with_floats() {
        let mut random = Random::new(1);
        for _ in 0..100_000 {
            let family = Family::any(&mut random);
            let (x, y) = (family.draw(&mut random), family.draw(&mut random));
            assert_eq!(Whole::of(x).cmp(&Whole::of(y)), x.partial_cmp(&y).unwrap());
            let (x, y) = (random.between(-1 << 52, 1 << 52), random.between(-1 << 52, 1 << 52));
            assert!(Whole::of(x as f64) + Whole::of(y as f64) == Whole::of((x + y) as f64));
            assert!(Whole::of(x as f64) - Whole::of(y as f64) == Whole::of((x - y) as f64));
            let (x, y) = (x >> 27, y >> 27);
            assert!(Whole::of(x as f64).times(y as f64) == Whole::of((x * y) as f64).shifted(1074));
        }
    }
}
