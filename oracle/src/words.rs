//! Requests as words and answers as words: what the answering program's format makes of each type.

use crate::number::Answer;
use crate::r1::interval::Interval;
use crate::r2::{point::Point, rect::Rect};
use crate::r3::vector::Vector;

/// The arguments of a request, taken in order.
pub struct Arguments<'a> {
    words: std::slice::Iter<'a, u64>,
}

impl<'a> Arguments<'a> {
    pub fn new(words: &'a [u64]) -> Self {
        Arguments { words: words.iter() }
    }

    pub fn take<T: Argument>(&mut self) -> T {
        T::take(self)
    }
}

pub trait Argument {
    fn take(arguments: &mut Arguments) -> Self;
}

impl Argument for u64 {
    fn take(arguments: &mut Arguments) -> u64 {
        *arguments.words.next().expect("a request is longer than any operation's arguments")
    }
}

/// A trace number: a larger word counts modulo 2^32.
impl Argument for u32 {
    fn take(arguments: &mut Arguments) -> u32 {
        arguments.take::<u64>() as u32
    }
}

impl Argument for f64 {
    fn take(arguments: &mut Arguments) -> f64 {
        f64::from_bits(arguments.take())
    }
}

impl Argument for bool {
    fn take(arguments: &mut Arguments) -> bool {
        arguments.take::<u64>() != 0
    }
}

impl Argument for Point {
    fn take(arguments: &mut Arguments) -> Point {
        Point { x: arguments.take(), y: arguments.take() }
    }
}

impl Argument for Interval {
    fn take(arguments: &mut Arguments) -> Interval {
        Interval { lo: arguments.take(), hi: arguments.take() }
    }
}

impl Argument for Rect {
    fn take(arguments: &mut Arguments) -> Rect {
        let (lo, hi): (Point, Point) = (arguments.take(), arguments.take());
        Rect { x: Interval::new(lo.x, hi.x), y: Interval::new(lo.y, hi.y) }
    }
}

impl Argument for Vector {
    fn take(arguments: &mut Arguments) -> Vector {
        Vector { x: arguments.take(), y: arguments.take(), z: arguments.take() }
    }
}

/// The words that an answer's line shows.
pub fn shown(answer: Answer<impl Shown>) -> Answer<Vec<u64>> {
    let mut words = Vec::new();
    answer?.push_to(&mut words);
    Ok(words)
}

pub trait Shown {
    fn push_to(&self, words: &mut Vec<u64>);
}

impl Shown for f64 {
    /// The bits of a NaN are not the crate's to choose, so one NaN stands for all.
    fn push_to(&self, words: &mut Vec<u64>) {
        words.push(if self.is_nan() { 0x7ff8_0000_0000_0000 } else { self.to_bits() });
    }
}

impl Shown for bool {
    fn push_to(&self, words: &mut Vec<u64>) {
        words.push(u64::from(*self));
    }
}

impl Shown for u8 {
    fn push_to(&self, words: &mut Vec<u64>) {
        words.push(u64::from(*self));
    }
}

impl Shown for Point {
    fn push_to(&self, words: &mut Vec<u64>) {
        [self.x, self.y].push_to(words);
    }
}

impl Shown for Interval {
    fn push_to(&self, words: &mut Vec<u64>) {
        [self.lo, self.hi].push_to(words);
    }
}

impl Shown for Rect {
    fn push_to(&self, words: &mut Vec<u64>) {
        [self.lo(), self.hi()].push_to(words);
    }
}

impl Shown for Vector {
    fn push_to(&self, words: &mut Vec<u64>) {
        [self.x, self.y, self.z].push_to(words);
    }
}

impl<T: Shown, const COUNT: usize> Shown for [T; COUNT] {
    fn push_to(&self, words: &mut Vec<u64>) {
        self.iter().for_each(|item| item.push_to(words));
    }
}

impl<A: Shown, B: Shown> Shown for (A, B) {
    fn push_to(&self, words: &mut Vec<u64>) {
        self.0.push_to(words);
        self.1.push_to(words);
    }
}

impl<A: Shown, B: Shown, C: Shown> Shown for (A, B, C) {
    fn push_to(&self, words: &mut Vec<u64>) {
        self.0.push_to(words);
        self.1.push_to(words);
        self.2.push_to(words);
    }
}
