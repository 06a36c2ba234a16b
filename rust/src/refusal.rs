//! The numbers that stand for no answer.

use std::error::Error;
use std::fmt::{Display, Formatter, Result as Written};

/// Why there is no answer. Each has the number that the library gives for it; 0 is no refusal.
#[derive(Clone, Copy, Debug, Eq, Hash, PartialEq)]
#[non_exhaustive]
#[repr(u8)]
pub enum Refusal {
    /// No part is in the window, or a vector is not on the side of the asked face.
    Missed = 1,
    /// A float other than the window's is NaN or an infinity or, in cutting, beyond 2^500 in magnitude.
    NotFinite = 2,
    /// A side of the window is not finite or beyond 2^500 in magnitude, or lo > hi on an axis.
    BadWindow = 3,
    /// A face above 5, an axis above 2, a direction above 1.
    BadFace = 4,
    /// A vector or normal is all zero, or a divisor is.
    Zero = 5,
    /// The line does not meet a face that is not the target.
    OffFace = 6,
    /// The walk does not come to the target, and no longer one would.
    Unfinished = 7,
    /// The buffer holds fewer whole records, or fewer boxes, than there are.
    ShortBuffer = 8,
    /// A trace has an odd count of floats, or more than 4,096 samples.
    BadTrace = 10,
    /// A number that has no name here: the archive is of another version.
    Unnamed = 255,
}

impl Refusal {
    const NAMED: [Refusal; 9] = [
        Refusal::Missed,
        Refusal::NotFinite,
        Refusal::BadWindow,
        Refusal::BadFace,
        Refusal::Zero,
        Refusal::OffFace,
        Refusal::Unfinished,
        Refusal::ShortBuffer,
        Refusal::BadTrace,
    ];

    /// The library's number.
    pub fn number(self) -> u8 {
        self as u8
    }

    /// The value beside 0, or the refusal that any other number stands for.
    pub(crate) fn unless_done<T>(number: u8, value: T) -> Result<T, Refusal> {
        match number {
            0 => Ok(value),
            _ => Err(Self::NAMED.into_iter().find(|named| named.number() == number).unwrap_or(Refusal::Unnamed)),
        }
    }
}

impl Display for Refusal {
    fn fmt(&self, out: &mut Formatter) -> Written {
        out.write_str(match self {
            Refusal::Missed => "missed: not in the window, or not on the side of the face",
            Refusal::NotFinite => "a float is not finite or, in cutting, beyond 2^500",
            Refusal::BadWindow => "the window has a side that is not finite or beyond 2^500, or lo > hi",
            Refusal::BadFace => "no such face, axis or direction",
            Refusal::Zero => "a vector, a normal or a divisor is zero",
            Refusal::OffFace => "the line does not meet the face",
            Refusal::Unfinished => "the walk does not come to the target",
            Refusal::ShortBuffer => "the buffer is too short for the records or the boxes",
            Refusal::BadTrace => "the trace has an odd count of floats, or more than 4,096 samples",
            Refusal::Unnamed => "a number that has no name here",
        })
    }
}

impl Error for Refusal {}

#[cfg(test)]
mod tests {
    use super::Refusal;

    #[test]
    fn every_number() {
        assert_eq!(Refusal::unless_done(0, "done"), Ok("done"));
        // 9 is the programs' alone.
        let numbers = [1, 2, 3, 4, 5, 6, 7, 8, 10];
        for (number, named) in numbers.into_iter().zip(Refusal::NAMED) {
            assert_eq!(named.number(), number);
            assert_eq!(Refusal::unless_done(number, ()), Err(named));
        }
        for number in (1..=u8::MAX).filter(|number| !numbers.contains(number)) {
            assert_eq!(Refusal::unless_done(number, ()), Err(Refusal::Unnamed));
        }
    }
}
