//! The rule for the value at x, and others that change request W12's bound can be asked of: `oracle near N SEED RULE`.
//! All of them are held between the heights, as W8 asks.

use crate::whose::Whose;

/// x, a, b, a1, b1, in the order of operation 30.
pub type Cut = [f64; 5];

pub type Rule = fn(Cut) -> f64;

/// The others, by name.
pub const OTHERS: [(&str, Rule); 4] = [
    ("quotient-first", |cut| nearer(cut, |[x, a, b, a1, b1]| a1 + (b1 - a1) * ((x - a) / (b - a)))),
    ("slope-first", |cut| nearer(cut, |[x, a, b, a1, b1]| a1 + (b1 - a1) / (b - a) * (x - a))),
    ("farther-end", |cut| nearer(cut, |[x, a, b, a1, b1]| b1 + (a1 - b1) * (x - b) / (a - b))),
    ("intercept", |cut| held(cut, |[x, a, b, a1, b1]| (b1 - a1) / (b - a) * x + (a1 - (b1 - a1) / (b - a) * a))),
];

pub fn ours([x, a, b, a1, b1]: Cut) -> f64 {
    (Whose::Ours.cut().interpolate)(x, a, b, a1, b1)
}

/// The rule asked with the nearer end first.
fn nearer(cut: Cut, rule: Rule) -> f64 {
    let [x, a, b, a1, b1] = cut;
    held(if (a - x).abs() <= (b - x).abs() { cut } else { [x, b, a, b1, a1] }, rule)
}

fn held(cut: Cut, rule: Rule) -> f64 {
    let [.., a1, b1] = cut;
    rule(cut).clamp(a1.min(b1), a1.max(b1))
}

#[cfg(test)]
mod tests {
    use super::*;

    /// Where nothing rounds all of them give the line's value.
    #[test]
    fn on_the_line() {
        for (name, rule) in OTHERS {
            for cut in [[0.25, 0.0, 1.0, 0.0, 0.5], [0.75, 0.0, 1.0, 0.0, 0.5], [0.75, 1.0, 0.0, 0.5, 0.0]] {
                assert_eq!(rule(cut), cut[0] / 2.0, "{name}");
            }
        }
    }
}
