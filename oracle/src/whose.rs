//! Whose answers are given: the crate's own, or those that the port has to give, which are the crate's but in two things.

use crate::clamped::CLAMPED;
use crate::s2::edge_clipping::private::{Cut, CRATES};

#[derive(Clone, Copy)]
pub enum Whose {
    Crates,
    /// Zeros that the crate leaves open are as our definitions have them (`zeros.rs`), and no value is past an end
    /// (`clamped.rs`).
    Ours,
}

impl Whose {
    pub fn cut(self) -> &'static Cut {
        match self {
            Whose::Crates => &CRATES,
            Whose::Ours => &CLAMPED,
        }
    }
}
