//! The crate s2 0.2.0: its own files, compiled unchanged from where `build.rs` found them.
//!
//! The files name each other from the crate's root (`crate::r1`, `crate::s2::stuv`), so `main.rs` lifts these modules
//! there. Included is what edge clipping and the cube need to compile. Where a file would in turn need one that is
//! not in the folder (`s1/chordangle.rs`, `s1/interval.rs`), `missing` has its bare names instead.

// The crate's own text is not ours to tidy.
#![allow(warnings, clippy::all)]

macro_rules! crate_module {
    ($file:literal) => {
        include!(concat!(env!("OUT_DIR"), "/", $file));
    };
}

crate_module!("consts.rs");

pub mod r1 {
    crate_module!("r1/interval.rs");
}

pub mod r2 {
    crate_module!("r2/point.rs");
    crate_module!("r2/rect.rs");
}

pub mod r3 {
    crate_module!("r3/vector.rs");
}

pub mod s1 {
    crate_module!("s1/angle.rs");
    pub use self::angle::*;
    pub use super::missing::ChordAngle;
}

pub mod s2 {
    crate_module!("s2/cellid.rs");
    crate_module!("s2/latlng.rs");
    crate_module!("s2/point.rs");
    crate_module!("s2/predicates.rs");
    crate_module!("s2/stuv.rs");
    pub use super::missing::{cap, cell, rect, region};

    pub mod edge_clipping {
        include!(env!("EDGE_CLIPPING"));

        // A child sees its parent's private functions.
        pub mod private;
    }
}

pub mod point {
    pub use super::s2::point::Point;
}

/// Names that the included files mention and whose own files cannot be included. Nothing that the oracle asks comes
/// here: they are for caps, cells, chords and latitudes, and a call of one stops the program.
pub mod missing {
    pub struct ChordAngle(pub f64);

    pub mod region {
        use super::{cap::Cap, cell::Cell, rect::Rect};

        pub trait Region {
            fn cap_bound(&self) -> Cap;
            fn rect_bound(&self) -> Rect;
            fn contains_cell(&self, cell: &Cell) -> bool;
            fn intersects_cell(&self, cell: &Cell) -> bool;
        }
    }

    pub mod cap {
        pub struct Cap;

        impl From<&crate::s2::point::Point> for Cap {
            fn from(_: &crate::s2::point::Point) -> Self {
                unreachable!("caps are not asked")
            }
        }
    }

    pub mod cell {
        pub struct Cell;

        impl Cell {
            pub fn contains_point(&self, _: &crate::s2::point::Point) -> bool {
                unreachable!("cells are not asked")
            }
        }
    }

    pub mod rect {
        pub struct Rect;

        impl From<crate::s2::latlng::LatLng> for Rect {
            fn from(_: crate::s2::latlng::LatLng) -> Self {
                unreachable!("rectangles of latitude are not asked")
            }
        }
    }

    /// The one function of the crate `libm` that an included file calls, to wrap a longitude.
    pub fn remquo(_: f64, _: f64) -> (f64, i32) {
        unreachable!("longitudes are not asked")
    }
}
