//! Requests as words and answers as words: what the answering program's format makes of each type.

use umblacet::r1::interval::Interval;
use umblacet::r2::{point::Point, rect::Rect};
use umblacet::r3::vector::Vector;
use umblacet::s2::edge_clipping::Axis;

/// Words of a request: the operation, then its arguments.
pub const REQUEST: usize = 24;

/// The words of a request that are still to be taken, in order.
pub struct Arguments<'a>(pub std::slice::Iter<'a, u64>);

impl Arguments<'_> {
    pub fn take<T: Argument>(&mut self) -> T {
        T::taken(self)
    }
}

pub trait Argument {
    fn taken(from: &mut Arguments) -> Self;
}

impl Argument for u64 {
    fn taken(from: &mut Arguments) -> u64 {
        *from.0.next().expect("a request is longer than any operation's arguments")
    }
}

impl Argument for f64 {
    fn taken(from: &mut Arguments) -> f64 {
        f64::from_bits(from.take())
    }
}

impl Argument for bool {
    fn taken(from: &mut Arguments) -> bool {
        from.take::<u64>() != 0
    }
}

/// A face, axis or direction: 255 for a word above it.
impl Argument for u8 {
    fn taken(from: &mut Arguments) -> u8 {
        u8::try_from(from.take::<u64>()).unwrap_or(u8::MAX)
    }
}

/// A trace number: the word modulo 2^32.
impl Argument for u32 {
    fn taken(from: &mut Arguments) -> u32 {
        from.take::<u64>() as u32
    }
}

impl Argument for Axis {
    fn taken(from: &mut Arguments) -> Axis {
        if from.take() {
            Axis::V
        } else {
            Axis::U
        }
    }
}

impl Argument for Point {
    fn taken(from: &mut Arguments) -> Point {
        Point { x: from.take(), y: from.take() }
    }
}

impl Argument for Interval {
    fn taken(from: &mut Arguments) -> Interval {
        Interval { lo: from.take(), hi: from.take() }
    }
}

/// The low corner, then the high one.
impl Argument for Rect {
    fn taken(from: &mut Arguments) -> Rect {
        let (lo, hi): (Point, Point) = (from.take(), from.take());
        Rect { x: Interval::new(lo.x, hi.x), y: Interval::new(lo.y, hi.y) }
    }
}

impl Argument for Vector {
    fn taken(from: &mut Arguments) -> Vector {
        Vector { x: from.take(), y: from.take(), z: from.take() }
    }
}

/// The words that a value's line shows.
pub trait Shown {
    fn words(&self) -> Vec<u64>;
}

/// One NaN stands for all.
impl Shown for f64 {
    fn words(&self) -> Vec<u64> {
        vec![if self.is_nan() { 0x7ff8_0000_0000_0000 } else { self.to_bits() }]
    }
}

impl Shown for bool {
    fn words(&self) -> Vec<u64> {
        vec![u64::from(*self)]
    }
}

impl Shown for u8 {
    fn words(&self) -> Vec<u64> {
        vec![u64::from(*self)]
    }
}

impl Shown for Axis {
    fn words(&self) -> Vec<u64> {
        (*self as u8).words()
    }
}

impl Shown for Point {
    fn words(&self) -> Vec<u64> {
        [self.x, self.y].words()
    }
}

impl Shown for Interval {
    fn words(&self) -> Vec<u64> {
        [self.lo, self.hi].words()
    }
}

impl Shown for Rect {
    fn words(&self) -> Vec<u64> {
        [self.x.lo, self.y.lo, self.x.hi, self.y.hi].words()
    }
}

impl Shown for Vector {
    fn words(&self) -> Vec<u64> {
        [self.x, self.y, self.z].words()
    }
}

impl<T: Shown, const COUNT: usize> Shown for [T; COUNT] {
    fn words(&self) -> Vec<u64> {
        self.iter().flat_map(T::words).collect()
    }
}

impl<A: Shown, B: Shown> Shown for (A, B) {
    fn words(&self) -> Vec<u64> {
        [self.0.words(), self.1.words()].concat()
    }
}

impl<A: Shown, B: Shown, C: Shown> Shown for (A, B, C) {
    fn words(&self) -> Vec<u64> {
        [self.0.words(), self.1.words(), self.2.words()].concat()
    }
}
