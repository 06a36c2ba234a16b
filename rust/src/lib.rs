//! Chart code that is proved to do what it says: safe Rust over `libumblacet.a`, under the names of the crate s2.
//!
//! Every function answers every input and none panics. What the crate s2 would draw from a dead sample, or stop at, is
//! refused here: a function gives its value or a [`Refusal`].
//!
//! ```
//! use umblacet::r1::interval::Interval;
//! use umblacet::r2::{point::Point, rect::Rect};
//! use umblacet::s2::edge_clipping::clip_edge;
//! use umblacet::Refusal;
//!
//! let window = Rect { x: Interval::new(1.0, 3.0), y: Interval::new(0.0, 2.0) };
//! let (a, b) = (Point::new(0.0, 0.0)?, Point::new(4.0, 2.0)?);
//! assert_eq!(clip_edge(a, b, window)?, (Point::new(1.0, 0.5)?, Point::new(3.0, 1.5)?));
//!
//! let dead = Point { x: 4.0, y: f64::NAN };
//! assert_eq!(clip_edge(a, dead, window), Err(Refusal::NotFinite));
//! # Ok::<(), Refusal>(())
//! ```

#![deny(unsafe_code, unsafe_op_in_unsafe_fn, missing_docs)]

#[allow(unsafe_code)]
mod ffi;
mod refusal;

pub use refusal::Refusal;

pub mod pages;
pub mod stretch;
pub mod trace;

/// Has the example of the README run.
#[cfg(doctest)]
#[doc = include_str!("../README.md")]
struct Readme;

/// The line.
pub mod r1 {
    pub mod interval;
}

/// The plane.
pub mod r2 {
    pub mod point;
    pub mod rect;
}

/// Space.
pub mod r3 {
    pub mod vector;
}

/// The cube and its six faces, and cutting.
pub mod s2 {
    pub mod edge_clipping;
    pub mod stuv;
}
