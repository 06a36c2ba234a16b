//! Document 01's instances, P1 to P14 and those beside them, asked as requests.

use crate::answers::{line_of, request};
use crate::whose::Whose;

const NAN: f64 = f64::NAN;
/// The window of P1, P2 and P5, and an operation's words for a line that is kept.
const WINDOW: [f64; 4] = [1.0, 0.0, 3.0, 2.0];

fn ask(operation: u64, arguments: &[u64]) -> String {
    line_of(&request(operation, arguments), Whose::Crates)
}

fn ask_floats(operation: u64, floats: &[f64]) -> String {
    let words: Vec<u64> = floats.iter().map(|float| float.to_bits()).collect();
    ask(operation, &words)
}

fn done(floats: &[f64]) -> String {
    let groups: Vec<String> = floats.iter().map(|float| format!(" {:016x}", float.to_bits())).collect();
    format!("0{}\n", groups.concat())
}

fn edge(operation: u64, a: [f64; 2], b: [f64; 2], window: [f64; 4]) -> String {
    ask_floats(operation, &[&a[..], &b, &window].concat())
}

/// Face 0 at (0,0) to the target at (0,0).
fn walk(face: u64, target: u64, normal: [f64; 3], length: u64) -> String {
    let normal = normal.map(f64::to_bits);
    ask(60, &[&[face, 0, 0, target, 0, 0], &normal[..], &[length]].concat())
}

fn record(face: u8, floats: [f64; 4]) -> String {
    let bytes: Vec<u8> = floats.iter().flat_map(|float| float.to_bits().to_le_bytes()).collect();
    format!("{face:02x}00000000000000{}", crate::stream::hex(&bytes))
}

#[test]
fn plane() {
    assert_eq!(edge(34, [0.0, 0.0], [4.0, 2.0], WINDOW), done(&[1.0, 0.5, 3.0, 1.5]), "P1");
    assert_eq!(edge(34, [0.0, 2.0], [4.0, 0.0], WINDOW), done(&[1.0, 1.5, 3.0, 0.5]), "P2");
    assert_eq!(edge(34, [0.0, 0.0], [1.0, 1.0], [1.0, 1.0, 2.0, 2.0]), done(&[1.0; 4]), "P3, W10 or not");
    assert_eq!(edge(34, [0.0, 0.0], [1.0, 1.0], [0.0, 0.75, 0.25, 1.0]), "1\n", "P4");
    assert_eq!(edge(35, [0.0, 0.0], [1.0, 1.0], [0.0, 0.75, 0.25, 1.0]), done(&[0.0]), "P4");
    assert_eq!(edge(34, [0.0, 0.0], [4.0, NAN], WINDOW), "2\n", "P5");
    let huge = 2f64.powi(1023);
    assert_eq!(edge(34, [-huge, 0.0], [huge, 1.0], [0.0, 0.0, 1.0, 1.0]), "2\n", "P6, by W5");
    assert_eq!(edge(34, [0.0, NAN], [4.0, 2.0], [1.0, 2.0, NAN, 0.0]), "2\n", "2 comes before 3");
    assert_eq!(edge(34, [0.0, 0.0], [4.0, 2.0], [3.0, 0.0, 1.0, 2.0]), "3\n", "lo > hi");
    assert_eq!(edge(34, [0.0, 0.0], [4.0, 2.0], [2.0, 1.0, 2.0, 1.0]), done(&[2.0, 1.0, 2.0, 1.0]), "lo = hi");
}

#[test]
fn cube() {
    let at = |face: u64, u: f64, v: f64| format!("0 {face:016x} {:016x} {:016x}\n", u.to_bits(), v.to_bits());
    assert_eq!(ask_floats(41, &[1.0, 1.0, 1.0]), at(0, 1.0, 1.0), "P7");
    assert_eq!(ask_floats(41, &[-1.0, 1.0, 1.0]), at(3, -1.0, -1.0), "P7");
    assert_eq!(ask_floats(40, &[0.0, -0.0, 0.0]), "5\n", "P8");
    assert_eq!(ask(45, &[5, 2, 1]), "0 0000000000000005\n", "face 5 admitted");
    for refused in [[6, 0, 0], [0, 3, 0], [0, 0, 2], [256, 0, 0]] {
        assert_eq!(ask(45, &refused), "4\n", "{refused:?}");
    }
    assert_eq!(ask(42, &[0, 0, 0, 0]), "1\n", "the zero vector is on no side");
    assert_eq!(ask(42, &[6, NAN.to_bits(), 0, 0]), "4\n", "4 comes before 2");
}

#[test]
fn line() {
    let (yes, no) = ("0 0000000000000001\n", "0 0000000000000000\n");
    assert_eq!(ask_floats(51, &[1.0, 1.0, 2.0]), yes, "P9");
    assert_eq!(ask_floats(51, &[1.0, 1.0, 2.0 + 2f64.powi(-51)]), no, "P9");
    assert_eq!(ask_floats(52, &[3.0, 1.0, 2.0]), yes, "P10");
    assert_eq!(ask_floats(50, &[1.0, 2f64.powi(-53), 1.0]), no, "P11");
    assert_eq!(ask_floats(51, &[0.0; 3]), yes, "the zero normal");
    assert_eq!(ask_floats(52, &[0.0; 3]), yes, "the zero normal");
    let ones = [1f64.to_bits(); 3];
    assert_eq!(ask(53, &ones), yes, "P12, axis V");
    assert_eq!(ask(54, &[&ones[..], &[1]].concat()), done(&[0.0, -1.0]), "P12");
    assert_eq!(ask_floats(53, &[-0.0, 1.0, 2.0]), no, "the sign bit counts");
    assert_eq!(ask_floats(53, &[0.0, 1.0, 2.0]), yes, "the sign bit counts");
    assert_eq!(ask_floats(54, &[0.0, 1.0, 2.0, 1.0]), "5\n", "zero divisor on V");
}

#[test]
fn walks() {
    let level = [0.0, 0.0, 1.0];
    let records =
        [record(0, [0.0, 0.0, 1.0, -0.0]), record(1, [-1.0, -0.0, 1.0, 0.0]), record(3, [-0.0, -1.0, 0.0, 0.0])];
    let none = "0000000000000000";
    assert_eq!(walk(0, 3, level, 120), format!("0 0000000000000003 {}\n", records.concat()), "P13");
    assert_eq!(walk(0, 3, level, 122), format!("0 0000000000000003 {}a5a5\n", records.concat()), "P13, bytes after it");
    assert_eq!(walk(0, 3, level, 119), format!("8 {none} {}\n", "a5".repeat(119)), "P13 in 119 bytes");
    assert_eq!(walk(0, 2, level, 400), format!("7 {none} {}\n", "a5".repeat(400)), "P14");
    assert_eq!(walk(0, 1, [1.0, 0.0, 0.0], 1000), format!("6 {none} {}\n", "a5".repeat(400)), "6");
    assert_eq!(walk(0, 6, level, 0), format!("4 {none}\n"), "no such target");
    assert_eq!(walk(0, 0, level, 40), format!("0 0000000000000001 {}\n", record(0, [0.0; 4])), "already there");
    assert_eq!(walk(0, 0, [0.0; 3], 40), format!("5 {none} {}\n", "a5".repeat(40)), "a zero normal");
}

#[test]
fn operations() {
    for operation in [0, 8, 9, 16, 18, 36, 39, 56, 59, 66, 255, 256 + 1, u64::MAX] {
        assert_eq!(ask(operation, &[]), "255\n", "operation {operation}");
    }
    assert_eq!(ask(19, &[]), done(&[1.0, 1.0, 0.0, 0.0]), "the empty rectangle");
}
