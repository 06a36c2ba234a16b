//! Document 01's module 5, the six faces: its refusals in order, then the crate.

use crate::finite::admit_finite;
use crate::number::{Answer, MISSED, NO_SUCH_FACE, ZERO};
use crate::point::Point;
use crate::r3::vector::Vector;
use crate::s2::stuv;

/// A face, axis or direction comes as a whole word; the crate takes a byte and would stop at one above its limit.
fn admit_up_to(limit: u8, word: u64) -> Answer<u8> {
    match u8::try_from(word) {
        Ok(number) if number <= limit => Ok(number),
        _ => Err(NO_SUCH_FACE),
    }
}

pub fn admit_face(word: u64) -> Answer<u8> {
    admit_up_to(5, word)
}

pub fn admit_nonzero(v: Vector) -> Answer<()> {
    if v.x == 0.0 && v.y == 0.0 && v.z == 0.0 {
        Err(ZERO)
    } else {
        Ok(())
    }
}

pub fn face(v: Vector) -> Answer<u8> {
    admit_finite(&[&v])?;
    admit_nonzero(v)?;
    Ok(stuv::face(&v))
}

pub fn xyz_to_face_uv(v: Vector) -> Answer<(u8, f64, f64)> {
    admit_finite(&[&v])?;
    admit_nonzero(v)?;
    Ok(stuv::xyz_to_face_uv(&v))
}

pub fn face_xyz_to_uv(face: u64, v: Vector) -> Answer<(f64, f64)> {
    let face = admit_face(face)?;
    admit_finite(&[&v])?;
    stuv::face_xyz_to_uv(face, &Point(v)).ok_or(MISSED)
}

pub fn face_uv_to_xyz(face: u64, u: f64, v: f64) -> Answer<Vector> {
    let face = admit_face(face)?;
    admit_finite(&[&u, &v])?;
    Ok(stuv::face_uv_to_xyz(face, u, v))
}

pub fn face_xyz_to_uvw(face: u64, v: Vector) -> Answer<Vector> {
    let face = admit_face(face)?;
    admit_finite(&[&v])?;
    Ok(stuv::face_xyz_to_uvw(face, &Point(v)).0)
}

pub fn uvw_face(face: u64, axis: u64, direction: u64) -> Answer<u8> {
    Ok(stuv::uvw_face(admit_face(face)?, admit_up_to(2, axis)?, admit_up_to(1, direction)?))
}

pub fn u_axis(face: u64) -> Answer<Vector> {
    Ok(stuv::u_axis(admit_face(face)?).0)
}

pub fn v_axis(face: u64) -> Answer<Vector> {
    Ok(stuv::v_axis(admit_face(face)?).0)
}

pub fn unorm(face: u64, u: f64) -> Answer<Vector> {
    let face = admit_face(face)?;
    admit_finite(&[&u])?;
    Ok(stuv::unorm(face, u))
}

pub fn vnorm(face: u64, v: f64) -> Answer<Vector> {
    let face = admit_face(face)?;
    admit_finite(&[&v])?;
    Ok(stuv::vnorm(face, v))
}
