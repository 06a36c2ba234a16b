//! The six faces of the cube and their coordinates. "Refused with" names refusals in the order in which they are tried.

use crate::r3::vector::Vector;
use crate::{ffi, Refusal};

/// The face that r points at, ties to the lower axis. Refused with NotFinite, Zero.
pub fn face(r: &Vector) -> Result<u8, Refusal> {
    ffi::umb_face(*r)
}

/// That face and r's (u, v) there, both from -1 to 1. Refused with NotFinite, Zero.
pub fn xyz_to_face_uv(r: &Vector) -> Result<(u8, f64, f64), Refusal> {
    ffi::umb_xyz_to_face_uv(*r)
}

/// r's (u, v) on the asked face. Refused with BadFace, NotFinite, Missed where r is not on that side of the cube.
pub fn face_xyz_to_uv(face: u8, r: &Vector) -> Result<(f64, f64), Refusal> {
    ffi::umb_face_xyz_to_uv(face, *r).map(|uv| (uv.x, uv.y))
}

/// The point at (u, v) of a face. Refused with BadFace, NotFinite.
pub fn face_uv_to_xyz(face: u8, u: f64, v: f64) -> Result<Vector, Refusal> {
    ffi::umb_face_uv_to_xyz(face, u, v)
}

/// r in the face's own u, v, w. Refused with BadFace, NotFinite.
pub fn face_xyz_to_uvw(face: u8, r: &Vector) -> Result<Vector, Refusal> {
    ffi::umb_face_xyz_to_uvw(face, *r)
}

/// The face that an axis (0, 1, 2 for u, v, w) of a face points at, direction 0 for minus and 1 for plus. Refused with
/// BadFace.
pub fn uvw_face(face: u8, axis: u8, direction: u8) -> Result<u8, Refusal> {
    ffi::umb_uvw_face(face, axis, direction)
}

/// The unit vector along a face's u. Refused with BadFace.
pub fn u_axis(face: u8) -> Result<Vector, Refusal> {
    ffi::umb_u_axis(face)
}

/// The unit vector along a face's v. Refused with BadFace.
pub fn v_axis(face: u8) -> Result<Vector, Refusal> {
    ffi::umb_v_axis(face)
}

/// A normal of the plane through the cube's centre and the face's line at this u. Refused with BadFace, NotFinite.
pub fn unorm(face: u8, u: f64) -> Result<Vector, Refusal> {
    ffi::umb_unorm(face, u)
}

/// A normal of the plane through the cube's centre and the face's line at this v. Refused with BadFace, NotFinite.
pub fn vnorm(face: u8, v: f64) -> Result<Vector, Refusal> {
    ffi::umb_vnorm(face, v)
}
