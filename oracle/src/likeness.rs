//! How alike two lines are, or two records. Only floats may differ in a zero's sign or a NaN's bits; any other word (a
//! yes or no, a face, an axis, a count) and any byte has to be the same.

use crate::number::DONE;
use crate::walk::RECORD;

/// From best to worst.
#[derive(Clone, Copy, PartialEq, Eq, PartialOrd, Ord)]
pub enum Likeness {
    Same,
    /// The same numbers, though somewhere a zero has the other sign.
    SameButForAZero,
    /// Not the crate's, but what its text gives with the clamp (`clamped.rs`), where a value left its ends.
    Clamped,
    Different,
}

use Likeness::*;

/// `results` is the kinds of words that follow a 0 (see `operations.rs`). That there is no line is a difference.
pub fn compare(results: &str, a: &[u8], b: &[u8]) -> Likeness {
    if a == b && !a.is_empty() {
        return Same;
    }
    let (Some(a), Some(b)) = (carried(a), carried(b)) else { return Different };
    match results {
        "W" => return compare_lent::<1>(&a, &b, compare_segments),
        "T" => return compare_lent::<4>(&a, &b, compare_edges),
        // W6 fixes every zero's sign and the line every NaN's bits.
        "H" => return Different,
        _ => {}
    }
    let floats: Vec<bool> = results.chars().flat_map(floats_in).collect();
    if a.len() != floats.len() || b.len() != floats.len() {
        return Different;
    }
    let groups = a.iter().zip(&b).zip(floats);
    let likenesses =
        groups.map(|((a, b), float)| if float { compare_floats(word(a), word(b)) } else { compare_bytes(a, b) });
    likenesses.max().unwrap_or(Different)
}

/// For each word of a result of this kind, whether it is a float.
fn floats_in(kind: char) -> std::iter::RepeatN<bool> {
    let (float, count) = match kind {
        'f' => (true, 1),
        'p' | 'i' => (true, 2),
        'v' => (true, 3),
        'r' => (true, 4),
        'b' | 'F' => (false, 1),
        'P' | 'K' => (false, 2),
        _ => unreachable!("no kind of result is called {kind}"),
    };
    std::iter::repeat_n(float, count)
}

/// The groups after a 0. After another number the text itself counts: a refused walk's or trace's line shows its whole
/// buffer, that of a refused stretch its two counts, that of a search its edge and its count.
fn carried(line: &[u8]) -> Option<Vec<&[u8]>> {
    let groups = line.strip_prefix(b"0 ")?.strip_suffix(b"\n")?;
    Some(groups.split(|byte| *byte == b' ').collect())
}

/// The counts and the buffer. The last count is that of the records in it; the bytes after them have to be the same.
fn compare_lent<const COUNTS: usize>(
    a: &[&[u8]],
    b: &[&[u8]],
    compare_records: fn(&[u8; RECORD], &[u8; RECORD]) -> Likeness,
) -> Likeness {
    let (Some((counts, [a])), Some((b_counts, [b]))) =
        (a.split_first_chunk::<COUNTS>(), b.split_first_chunk::<COUNTS>())
    else {
        return Different;
    };
    let (Some(a), Some(b), Some(count)) = (bytes(a), bytes(b), word(counts[COUNTS - 1])) else { return Different };
    let written = (count as usize).saturating_mul(RECORD);
    let halves = (a.split_at_checked(written), b.split_at_checked(written));
    let (Some((a, a_rest)), Some((b, b_rest))) = halves else { return Different };
    if counts != b_counts || a_rest != b_rest {
        return Different;
    }
    let pairs = a.as_chunks().0.iter().zip(b.as_chunks().0);
    pairs.map(|(a, b)| compare_records(a, b)).max().unwrap_or(Same)
}

/// The records of two walks: the first eight bytes, and four floats.
fn compare_segments(a: &[u8; RECORD], b: &[u8; RECORD]) -> Likeness {
    let ((a_head, a), (b_head, b)) = (a.split_at(8), b.split_at(8));
    let float = |bytes: &[u8; 8]| Some(u64::from_le_bytes(*bytes));
    let floats = a.as_chunks().0.iter().zip(b.as_chunks().0).map(|(a, b)| compare_floats(float(a), float(b)));
    compare_bytes(a_head, b_head).max(floats.max().unwrap_or(Different))
}

/// The records of two edges of a trace: the floats are numbers where the edge is kept, and else zeros that W1 fixes.
pub fn compare_edges(a: &[u8; RECORD], b: &[u8; RECORD]) -> Likeness {
    if a[0] == DONE {
        compare_segments(a, b)
    } else {
        compare_bytes(a, b)
    }
}

fn compare_bytes(a: &[u8], b: &[u8]) -> Likeness {
    if a == b {
        Same
    } else {
        Different
    }
}

fn compare_floats(a: Option<u64>, b: Option<u64>) -> Likeness {
    let (Some(a), Some(b)) = (a.map(f64::from_bits), b.map(f64::from_bits)) else { return Different };
    if a.to_bits() == b.to_bits() || a.is_nan() && b.is_nan() {
        Same
    } else if a == b {
        SameButForAZero
    } else {
        Different
    }
}

/// The value of 16 hex digits.
fn word(group: &[u8]) -> Option<u64> {
    Some(u64::from_be_bytes(bytes(group)?.try_into().ok()?))
}

/// The bytes of lower-case hex digits.
fn bytes(digits: &[u8]) -> Option<Vec<u8>> {
    let digit = |digit: u8| match digit {
        b'0'..=b'9' => Some(digit - b'0'),
        b'a'..=b'f' => Some(digit - b'a' + 10),
        _ => None,
    };
    let (pairs, odd) = digits.as_chunks();
    let bytes = pairs.iter().map(|[high, low]| Some(digit(*high)? << 4 | digit(*low)?));
    bytes.collect::<Option<_>>().filter(|_| odd.is_empty())
}

#[cfg(test)]
mod tests {
    use super::*;
    use crate::answers::line_of;
    use crate::operations::{kinds, OPERATIONS};
    use crate::random::Random;
    use crate::requests::request;
    use crate::whose::Whose;

    const RECORDS: &str = "0000000000000000 000000000000f03f 0000000000000080 000000000000f87f 0000000000000040";
    /// The bytes before the floats, and such with another byte that is zero or of the trace number.
    const HEAD: &str = "0000000000000000";
    const HEADS: [&str; 5] =
        ["0000008000000000", "0000000001000000", "0000000000000001", "0000000000000080", "0000000004030201"];
    const ZERO: &str = "0 0000000000000000\n";
    const MINUS_ZERO: &str = "0 8000000000000000\n";

    fn walk(records: &str, rest: &str) -> String {
        format!("0 0000000000000001 {}{rest}\n", records.replace(' ', ""))
    }

    /// Results with a buffer have no kinds of words.
    fn lent(results: &str) -> bool {
        ["W", "T", "H"].contains(&results)
    }

    fn likeness(results: &str, a: &str, b: &str) -> Likeness {
        let (a, b) = (a.as_bytes(), b.as_bytes());
        assert!(compare(results, a, b) == compare(results, b, a), "it goes both ways");
        compare(results, a, b)
    }

    #[test]
    fn floats() {
        let line = "0 0000000000000000 7ff8000000000000\n";
        assert!(likeness("p", line, "0 8000000000000000 7ff8000000000000\n") == SameButForAZero);
        assert!(likeness("ff", line, "0 0000000000000000 fff0000000000001\n") == Same);
        for other in [
            "0 0000000000000001 7ff8000000000000\n",
            "0 0000000000000000 7ff0000000000000\n",
            "0 0000000000000000 7FF8000000000000\n",
            "0 0000000000000000 7ff8000000000000",
            "0 0000000000000000\n",
            "0  0000000000000000 7ff8000000000000\n",
            "0\n",
            "1\n",
            "",
        ] {
            assert!(likeness("i", line, other) == Different, "{other:?}");
        }
        assert!(likeness("f", "1 0000000000000000\n", "1 8000000000000000\n") == Different);
        assert!(likeness("p", ZERO, MINUS_ZERO) == Different, "a word is missing in both");
        assert!(likeness("f", "", "") == Different, "there is no line");
    }

    #[test]
    fn whole_words() {
        assert!(likeness("f", ZERO, MINUS_ZERO) == SameButForAZero);
        assert!(likeness("b", ZERO, MINUS_ZERO) == Different, "-0 is no yes or no");
        assert!(likeness("F", "0 7ff8000000000000\n", "0 7ff8000000000001\n") == Different, "a NaN is no face");
        let line = "0 0000000000000000 0000000000000000 0000000000000000\n";
        assert!(likeness("Fff", line, "0 8000000000000000 0000000000000000 0000000000000000\n") == Different);
        assert!(likeness("Fff", line, "0 0000000000000000 0000000000000000 8000000000000000\n") == SameButForAZero);
        assert!(likeness("", ZERO, MINUS_ZERO) == Different, "an operation that is not listed");
    }

    #[test]
    fn stretches() {
        let line = "0 0000000000000001 0000000000000002\n";
        assert!(likeness("P", line, line) == Same);
        let minus_zero = line.replacen("0000000000000001", "8000000000000000", 1);
        for other in [
            "0 0000000000000000 0000000000000002\n",
            "0 0000000000000001 0000000000000001\n",
            "0 0000000000000001\n",
            "3 0000000000000001 0000000000000002\n",
            "0\n",
            &minus_zero,
        ] {
            assert!(likeness("P", line, other) == Different, "{other:?}");
        }
        let zeros = line.replace(['1', '2'], "0");
        assert!(likeness("P", &zeros, &minus_zero.replace('2', "0")) == Different, "-0 is no sample");
        let refused = zeros.replacen('0', "3", 1);
        assert!(likeness("P", &refused, &refused) == Same);
        assert!(likeness("P", &refused, "3\n") == Different, "no counts");
        assert!(likeness("P", &refused, &refused.replace("0\n", "1\n")) == Different, "a count beside a refusal");
    }

    #[test]
    fn pages() {
        let line = "0 0000000000000005 0 0000000000000000 0000000000000001 0000000000000000 7ff8000000000000\n";
        assert!(likeness("H", line, line) == Same);
        for other in [
            "0 0000000000000005 0 0000000000000000 0000000000000001 8000000000000000 7ff8000000000000\n",
            "0 0000000000000005 0 0000000000000000 0000000000000001 0000000000000000 fff8000000000000\n",
            "0 0000000000000005 0 0000000000000000 0000000000000002 0000000000000000 7ff8000000000000\n",
            "0 0000000000000005 1 0000000000000000 0000000000000001 0000000000000000 7ff8000000000000\n",
            "0 0000000000000004 0 0000000000000000 0000000000000001 0000000000000000 7ff8000000000000\n",
            "0 0000000000000005 0 0000000000000000 0000000000000001 0000000000000000\n",
            "",
        ] {
            assert!(likeness("H", line, other) == Different, "{other:?}");
        }
        let [missed, kept] = ["1 0000000000000000 0000000000000003\n", "0 0000000000000000 0000000000000003\n"];
        assert!(likeness("K", missed, missed) == Same && likeness("K", kept, kept) == Same);
        assert!(likeness("K", missed, kept) == Different);
        assert!(likeness("K", missed, "1\n") == Different, "no count");
        for line in [missed, kept] {
            assert!(likeness("K", line, &line.replace('3', "2")) == Different);
            assert!(likeness("K", line, &line.replacen(" 0", " 8", 1)) == Different, "-0 is no edge");
        }
    }

    #[test]
    fn walks() {
        let line = walk(RECORDS, "a5a5");
        let likeness = |other: &str| likeness("W", &line, other);
        assert!(likeness(&walk(&RECORDS.replace("80 ", "00 "), "a5a5")) == SameButForAZero);
        assert!(likeness(&walk(&RECORDS.replace("f87f", "f8ff"), "a5a5")) == Same);
        assert!(likeness(&walk(&RECORDS.replace("f03f", "f0bf"), "a5a5")) == Different);
        assert!(likeness(&walk(&RECORDS.replacen('0', "8", 1), "a5a5")) == Different);
        for other in HEADS {
            assert!(likeness(&walk(&RECORDS.replacen(HEAD, other, 1), "a5a5")) == Different, "{other}");
        }
        assert!(likeness(&walk(RECORDS, "a5a4")) == Different);
        assert!(likeness(&walk(RECORDS, "a5")) == Different);
        assert!(likeness(&line.replace("0001 ", "0002 ")) == Different);
    }

    #[test]
    fn traces() {
        let kept = RECORDS.replace(' ', "");
        let refused = format!("02{}", "0".repeat(78));
        let trace = |kept: &str, refused: &str, rest: &str| {
            format!("0 0000000000000001 0000000000000000 0000000000000001 0000000000000002 {kept}{refused}{rest}\n")
        };
        let line = trace(&kept, &refused, "a5");
        let likeness = |other: &str| likeness("T", &line, other);
        let spaced = |from: &str, to: &str| RECORDS.replacen(from, to, 1).replace(' ', "");
        assert!(likeness(&trace(&spaced("80 ", "00 "), &refused, "a5")) == SameButForAZero);
        assert!(likeness(&trace(&spaced("f03f", "f0bf"), &refused, "a5")) == Different);
        for other in HEADS {
            assert!(likeness(&trace(&spaced(HEAD, other), &refused, "a5")) == Different, "{other}");
            let other = format!("02{}{}", &other[2..], &refused[16..]);
            assert!(likeness(&trace(&kept, &other, "a5")) == Different, "{other}");
        }
        let minus_zero = format!("{}80", &refused[..78]);
        assert!(likeness(&trace(&kept, &minus_zero, "a5")) == Different, "no zero of the crate's");
        assert!(likeness(&trace(&kept, &refused.replacen('2', "1", 1), "a5")) == Different);
        assert!(likeness(&trace(&kept, &refused, "a4")) == Different);
        assert!(likeness(&line.replacen("01 ", "00 ", 1)) == Different, "a count");
        assert!(likeness(&line.replace("02 ", "01 ")) == Different, "a count of records");
        let none = "0 0000000000000000 0000000000000000 0000000000000000 0000000000000000\n";
        assert!(compare("T", none.as_bytes(), none.as_bytes()) == Same);
        assert!(compare("T", none.as_bytes(), line.as_bytes()) == Different);
    }

    /// A whole word is 13 at the most, and a float is not always: so the kinds are those of the crate's own answers.
    #[test]
    fn kinds_of_results() {
        let mut random = Random::new(1);
        let mut great = std::collections::BTreeSet::new();
        for _ in 0..50_000 {
            let request = request(&mut random);
            let results = kinds(request[0]).1;
            let line = line_of(&request, Whose::Crates);
            let Some(groups) = carried(line.as_bytes()).filter(|_| !lent(results)) else { continue };
            let floats: Vec<bool> = results.chars().flat_map(floats_in).collect();
            assert_eq!(groups.len(), floats.len(), "operation {}", request[0]);
            for (place, group) in groups.iter().enumerate() {
                if word(group).expect("a word") > 13 {
                    assert!(floats[place], "operation {}, word {place}", request[0]);
                    great.insert((request[0], place));
                }
            }
        }
        for (operation, _, results) in OPERATIONS.iter().filter(|(_, _, results)| !lent(results)) {
            for (place, float) in results.chars().flat_map(floats_in).enumerate() {
                // The empty rectangle's high corner is (0,0).
                let can_be_great = float && (*operation, place / 2) != (19, 1);
                assert_eq!(great.contains(&(*operation, place)), can_be_great, "operation {operation}, word {place}");
            }
        }
    }
}
