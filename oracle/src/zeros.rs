//! The zeros that the crate leaves open. Its unions and intersections of intervals go by the standard library's `min`
//! and `max`, which may give either of two zeros; our definitions keep the first interval's.

/// The words of an interval's ends among a rectangle's, axis by axis.
const AXES: [[usize; 2]; 2] = [[0, 2], [1, 3]];

/// Gives the zeros that are open in the results of a union or intersection the first one's signs. Nothing else changes.
pub fn settle(operation: u64, arguments: &[u64], results: &mut [u64]) {
    match operation {
        14 if neither_is_empty(arguments, 2, [0, 1]) => keep_first(arguments, 2, [0, 1], results),
        15 => keep_first(arguments, 2, [0, 1], results),
        28 => {
            for axis in AXES {
                if neither_is_empty(arguments, 4, axis) {
                    keep_first(arguments, 4, axis, results);
                }
            }
        }
        // An empty intersection is the empty rectangle, and none of its zeros is open.
        29 if !is_empty(results, AXES[0]) => AXES.iter().for_each(|axis| keep_first(arguments, 4, *axis, results)),
        _ => {}
    }
}

/// The second interval's words stand `apart` from the first one's. An empty one adds nothing, no zero either.
fn neither_is_empty(arguments: &[u64], apart: usize, ends: [usize; 2]) -> bool {
    !is_empty(arguments, ends) && !is_empty(&arguments[apart..], ends)
}

fn is_empty(words: &[u64], [lo, hi]: [usize; 2]) -> bool {
    f64::from_bits(words[lo]) > f64::from_bits(words[hi])
}

fn keep_first(arguments: &[u64], apart: usize, ends: [usize; 2], results: &mut [u64]) {
    for end in ends {
        if [arguments[end], arguments[end + apart], results[end]].iter().all(|word| f64::from_bits(*word) == 0.0) {
            results[end] = arguments[end];
        }
    }
}

#[cfg(test)]
mod tests {
    use super::settle;

    const PLUS: u64 = 0;
    const MINUS: u64 = 1 << 63;
    const ONE: u64 = 0x3ff0_0000_0000_0000;
    const MINUS_ONE: u64 = 0xbff0_0000_0000_0000;

    fn settled<const COUNT: usize>(operation: u64, arguments: &[u64], mut results: [u64; COUNT]) -> [u64; COUNT] {
        settle(operation, arguments, &mut results);
        results
    }

    #[test]
    fn open_zeros_are_the_first_ones() {
        for operation in [14, 15] {
            let arguments = [PLUS, MINUS, MINUS, PLUS];
            assert_eq!(settled(operation, &arguments, [MINUS, PLUS]), [PLUS, MINUS], "operation {operation}");
        }
        for operation in [28, 29] {
            let arguments = [PLUS, MINUS, ONE, MINUS, MINUS, MINUS, ONE, PLUS];
            assert_eq!(settled(operation, &arguments, [MINUS, MINUS, ONE, PLUS]), [PLUS, MINUS, ONE, MINUS]);
        }
    }

    #[test]
    fn other_words_stay() {
        // Only one end is a zero.
        assert_eq!(settled(15, &[MINUS, ONE, MINUS_ONE, ONE], [MINUS, ONE]), [MINUS, ONE]);
        assert_eq!(settled(14, &[PLUS, ONE, MINUS_ONE, ONE], [MINUS_ONE, ONE]), [MINUS_ONE, ONE]);
        // The first is empty: the second comes back, its zero too.
        assert_eq!(settled(14, &[PLUS, MINUS_ONE, MINUS, MINUS], [MINUS, MINUS]), [MINUS, MINUS]);
        let first_empty_on_x = [PLUS, MINUS, MINUS_ONE, MINUS];
        let arguments = [first_empty_on_x, [MINUS, PLUS, MINUS, PLUS]].concat();
        assert_eq!(settled(28, &arguments, [MINUS, PLUS, MINUS, PLUS]), [MINUS, MINUS, MINUS, MINUS]);
        // The empty rectangle.
        let arguments = [MINUS_ONE, MINUS, MINUS, MINUS, ONE, MINUS, MINUS, MINUS];
        assert_eq!(settled(29, &arguments, [ONE, ONE, PLUS, PLUS]), [ONE, ONE, PLUS, PLUS]);
        // Other operations.
        assert_eq!(settled(1, &[MINUS, MINUS, PLUS, PLUS], [PLUS, PLUS]), [PLUS, PLUS]);
    }
}
