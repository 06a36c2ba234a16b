//! The loud end of a check: crate and whole numbers must not disagree on finite input.

use crate::r3::vector::Vector;

/// Stops the program, with the claim and the floats' bits, where the claim does not hold.
pub fn must_hold(holds: bool, claim: &str, floats: &[f64]) {
    if !holds {
        let bits: Vec<String> = floats.iter().map(|float| format!("{:016x}", float.to_bits())).collect();
        panic!("CRATE AND WHOLE NUMBERS DISAGREE: {claim}, at {}", bits.join(" "));
    }
}

pub fn components(normal: Vector) -> [f64; 3] {
    [normal.x, normal.y, normal.z]
}
