//! The numbers that document 01 and the change requests give back. Each stands under one name, here and nowhere else.

pub type Number = u8;

pub const DONE: Number = 0;
/// No point of the window is met or, in a trace that drops touches, one alone of an edge that has more; the vector is
/// not on the side of the asked face.
pub const MISSED: Number = 1;
/// A float that is not finite or, in module 4 and in a trace, beyond 2^500 in magnitude; not a window's.
pub const NOT_FINITE: Number = 2;
/// A window with such a float for a side, or lo > hi.
pub const BAD_WINDOW: Number = 3;
/// No such face, axis or direction.
pub const NO_SUCH_FACE: Number = 4;
/// A vector, normal or divisor that is zero.
pub const ZERO: Number = 5;
pub const FACE_MISSED: Number = 6;
pub const TARGET_NOT_REACHED: Number = 7;
pub const BUFFER_TOO_SHORT: Number = 8;
pub const TORN_INPUT: Number = 9;
/// An odd count of floats, or more samples than a trace may have.
pub const BAD_TRACE: Number = 10;
/// None of these: the answering program knows no such operation.
pub const NO_SUCH_OPERATION: Number = 255;

/// What is given back: values, or the number of a miss or a refusal.
pub type Answer<T> = Result<T, Number>;
