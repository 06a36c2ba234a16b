//! Document 01's module 7, the walk into a lent buffer: its refusals in order, the crate's loop, its promises checked.

use crate::cube::{admit_face, admit_nonzero};
use crate::finite::admit_finite;
use crate::number::{Answer, BUFFER_TOO_SHORT};
use crate::promises;
use crate::r2::point::Point;
use crate::r3::vector::Vector;
use crate::s2::edge_clipping::private;

/// The target has to be among so many faces.
const FACES: usize = 8;

pub const RECORD: usize = 40;

/// Gives back the count of records. With a number instead, the buffer is as it was.
pub fn walk(
    face: u64,
    a: Point,
    target: u64,
    b: Point,
    normal: Vector,
    trace_number: u32,
    buffer: &mut [u8],
) -> Answer<usize> {
    let (face, target) = (admit_face(face)?, admit_face(target)?);
    admit_finite(&[&a, &b, &normal])?;
    admit_nonzero(normal)?;
    let answer = private::walk(face, a, target, b, normal, FACES);
    promises::check(face, a, target, b, normal, &answer);
    let segments = answer?;
    if buffer.len() / RECORD < segments.len() {
        return Err(BUFFER_TOO_SHORT);
    }
    for (segment, place) in segments.iter().zip(buffer.as_chunks_mut().0) {
        *place = record(segment.face, trace_number, segment.a, segment.b);
    }
    Ok(segments.len())
}

/// A first byte (a face, or the number of an edge's answer), three zero bytes, the trace number, by which a caller says
/// whose the record is (change request W7), then the coordinates of a and b.
pub fn record(first: u8, trace_number: u32, a: Point, b: Point) -> [u8; RECORD] {
    let mut bytes = [0; RECORD];
    bytes[0] = first;
    bytes[4..8].copy_from_slice(&trace_number.to_le_bytes());
    for (place, float) in bytes[8..].as_chunks_mut().0.iter_mut().zip([a.x, a.y, b.x, b.y]) {
        *place = float.to_bits().to_le_bytes();
    }
    bytes
}

/// The trace number of a record.
pub fn trace_number_of(record: &[u8; RECORD]) -> u32 {
    u32::from_le_bytes([record[4], record[5], record[6], record[7]])
}
