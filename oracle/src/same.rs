//! `oracle same`: two files of lines, or of a trace's records, compared as document 01 takes numbers. What was asked
//! tells which words of a line are floats, and whether a value left its ends. The first file is the crate's; where one
//! did, the crate is asked again with the clamp, touches dropped or kept as they were, and the second file has to have
//! that.

use crate::answers::{line_of, request, REQUEST};
use crate::clamped::watch;
use crate::cut::RECORD;
use crate::likeness::{compare, compare_edges, Likeness, Likeness::*};
use crate::operations::kinds;
use crate::r2::{point::Point, rect::Rect};
use crate::stream::{hex, read_full, words};
use crate::trace::{self, Touches, SAMPLE_BYTES, WINDOW_BYTES};
use crate::walk;
use crate::whose::Whose;
use crate::words::Arguments;
use std::fmt;
use std::fs::File;
use std::io::{self, BufRead, BufReader, Read, Write};

/// So many differences are shown, the rest only counted.
const SHOWN: usize = 10;

/// Says whether the files agree; what it finds is on standard output. `asked` is the file that the program called
/// `program` read.
pub fn run(program: &str, asked: &str, one: &str, other: &str) -> io::Result<bool> {
    let (asked, one, other) = (open(asked)?, open(one)?, open(other)?);
    let found = match program {
        "trace" => look_at_records(Touches::Dropped, asked, one, other),
        "trace-with-touches" => look_at_records(Touches::Kept, asked, one, other),
        _ => look(program, asked, one, other),
    }?;
    writeln!(io::stdout(), "{found}")?;
    Ok(found.different == 0)
}

/// There has to be a line for each record that was asked, and one for a torn end.
fn look(program: &str, mut asked: impl Read, mut one: impl BufRead, mut other: impl BufRead) -> io::Result<Found> {
    let size = match program {
        "cut" => 8 * RECORD,
        "answers" => 8 * REQUEST,
        _ => {
            let programs = "cut, answers, trace, trace-with-touches";
            return Err(io::Error::other(format!("no program is called {program:?}: {programs}")));
        }
    };
    let asked_in = |record: &[u8]| match program {
        "cut" => request(34, &words::<RECORD>(record)),
        _ => words(record),
    };
    let (mut record, mut a, mut b) = (vec![0; size], Vec::new(), Vec::new());
    let mut found = Found::new("line", shown);
    loop {
        let length = read_full(&mut asked, &mut record)?;
        next_line(&mut one, &mut a)?;
        next_line(&mut other, &mut b)?;
        match length {
            0 if a.is_empty() && b.is_empty() => return Ok(found),
            0 => found.count(Different, &a, &b),
            _ if length < size => found.count(compare("", &a, &b), &a, &b),
            _ => {
                let request = asked_in(&record);
                let alike = |a: &[u8]| compare(kinds(request[0]).1, a, &b);
                found.judge(alike, || line_of(&request, Whose::Ours).into_bytes(), &a, &b);
            }
        }
    }
}

/// There has to be a record for each whole sample after the first.
fn look_at_records(
    touches: Touches,
    mut asked: impl Read,
    mut one: impl Read,
    mut other: impl Read,
) -> io::Result<Found> {
    let mut found = Found::new("record", shown_record);
    let (mut window, mut sample) = ([0; WINDOW_BYTES], [0; SAMPLE_BYTES]);
    let (mut a, mut b) = ([0; walk::RECORD], [0; walk::RECORD]);
    read_full(&mut asked, &mut window)?;
    read_full(&mut asked, &mut sample)?;
    loop {
        let before = sample;
        let whole = read_full(&mut asked, &mut sample)? == SAMPLE_BYTES;
        let (a_length, b_length) = (read_full(&mut one, &mut a)?, read_full(&mut other, &mut b)?);
        match (a_length, b_length) {
            (0, 0) if !whole => return Ok(found),
            (walk::RECORD, walk::RECORD) if whole => {
                let alike = |a: &[u8]| compare_edges(a.try_into().expect("a record"), &b);
                let again = || our_record(touches, &window, &before, &sample, walk::trace_number_of(&a)).to_vec();
                found.judge(alike, again, &a, &b);
            }
            _ => found.count(Different, &a[..a_length], &b[..b_length]),
        }
    }
}

/// The trace number is that of the crate's record, which the other has to have in any case.
fn our_record(
    touches: Touches,
    window: &[u8; WINDOW_BYTES],
    a: &[u8; SAMPLE_BYTES],
    b: &[u8; SAMPLE_BYTES],
    trace_number: u32,
) -> [u8; walk::RECORD] {
    let window: Rect = Arguments::new(&words::<4>(window)).take();
    let [a, b] = [a, b].map(|sample| Arguments::new(&words::<2>(sample)).take::<Point>());
    trace::cut(Whose::Ours, touches, a, b, &window, trace_number)
}

struct Found {
    /// What they are called, and how one is shown.
    name: &'static str,
    shown: fn(&[u8]) -> String,
    total: u64,
    zeros: u64,
    clamped: u64,
    different: u64,
    first_different: Vec<String>,
}

impl Found {
    fn new(name: &'static str, shown: fn(&[u8]) -> String) -> Found {
        Found { name, shown, total: 0, zeros: 0, clamped: 0, different: 0, first_different: Vec::new() }
    }

    /// Where no value leaves its ends it has to be the crate's; else what the crate gives with the clamp.
    fn judge(
        &mut self,
        alike: impl Fn(&[u8]) -> Likeness,
        with_clamp: impl FnOnce() -> Vec<u8>,
        crates: &[u8],
        other: &[u8],
    ) {
        let likeness = alike(crates);
        match watch(with_clamp) {
            (clamped, true) if alike(&clamped) == Different => self.count(Different, &clamped, other),
            (_, true) if likeness == Different => self.count(Clamped, crates, other),
            _ => self.count(likeness, crates, other),
        }
    }

    fn count(&mut self, likeness: Likeness, a: &[u8], b: &[u8]) {
        self.total += 1;
        match likeness {
            Same => {}
            SameButForAZero => self.zeros += 1,
            Clamped => self.clamped += 1,
            Different => {
                self.different += 1;
                if self.first_different.len() < SHOWN {
                    let (a, b) = ((self.shown)(a), (self.shown)(b));
                    self.first_different.push(format!("\n{} {}:\n  {a}\n  {b}", self.name, self.total));
                }
            }
        }
    }
}

impl fmt::Display for Found {
    fn fmt(&self, f: &mut fmt::Formatter) -> fmt::Result {
        write!(f, "{} {}s, ", self.total, self.name)?;
        match (self.different, self.clamped) {
            (0, 0) => write!(f, "all the same")?,
            (0, clamped) => write!(f, "all the same but for {clamped} explained by the clamp")?,
            (different, 0) => write!(f, "{different} different")?,
            (different, clamped) => write!(f, "{different} different, {clamped} explained by the clamp")?,
        }
        if self.zeros > 0 {
            write!(f, " ({} with a zero of the other sign)", self.zeros)?;
        }
        write!(f, "{}", self.first_different.concat())
    }
}

fn open(name: &str) -> io::Result<BufReader<File>> {
    let file = File::open(name).map_err(|error| io::Error::other(format!("{name}: {error}")))?;
    Ok(BufReader::with_capacity(1 << 16, file))
}

/// The next line with its end of line, so that a missing one is a difference; empty after the last.
fn next_line(file: &mut impl BufRead, line: &mut Vec<u8>) -> io::Result<usize> {
    line.clear();
    file.read_until(b'\n', line)
}

fn shown(line: &[u8]) -> String {
    match line {
        [] => "(no line)".to_string(),
        [text @ .., b'\n'] => String::from_utf8_lossy(text).into_owned(),
        _ => format!("{} (no end of line)", String::from_utf8_lossy(line)),
    }
}

fn shown_record(record: &[u8]) -> String {
    match record {
        [] => "(no record)".to_string(),
        _ => hex(record),
    }
}

#[cfg(test)]
mod tests {
    use super::*;
    use crate::answers::request;
    use crate::stream::write_words;

    /// Lines that are not the same and lines with a zero of the other sign, where a product, a line test and a torn end
    /// are asked.
    fn found(one: &str, other: &str) -> (u64, u64) {
        let mut asked = Vec::new();
        for operation in [5, 51] {
            write_words(&mut asked, &request(operation, &[])).expect("memory can be written");
        }
        asked.push(0);
        let found = look("answers", asked.as_slice(), one.as_bytes(), other.as_bytes()).expect("memory can be read");
        (found.different, found.zeros)
    }

    #[test]
    fn files() {
        let lines = "0 0000000000000000\n0 0000000000000000\n9\n";
        assert_eq!(found(lines, lines), (0, 0));
        assert_eq!(found(lines, "0 8000000000000000\n0 0000000000000000\n9\n"), (0, 1), "a float");
        assert_eq!(found(lines, "0 0000000000000000\n0 8000000000000000\n9\n"), (1, 0), "no is not -0");
        assert_eq!(found(lines, "0 0000000000000000\n0 0000000000000000\n"), (1, 0), "a line is missing");
        assert_eq!(found("0 0000000000000000\n", "0 0000000000000000\n"), (2, 0), "two are missing in both");
        let more = format!("{lines}9\n");
        assert_eq!(found(&more, &more), (1, 0), "nobody asked for the last");
    }

    /// Records that are not the same and records with a zero of the other sign, where three samples were sent.
    fn found_records(one: &[u8], other: &[u8]) -> (u64, u64) {
        let found = look_at_records(Touches::Dropped, [0; 80].as_slice(), one, other).expect("memory can be read");
        (found.different, found.zeros)
    }

    #[test]
    fn traces() {
        let mut records = [0; 80];
        records[40] = 2;
        assert_eq!(found_records(&records, &records), (0, 0));
        let changed = |place: usize, byte: u8| {
            let mut changed = records;
            changed[place] = byte;
            found_records(&records, &changed)
        };
        assert_eq!(changed(15, 0x80), (0, 1), "a zero of the other sign");
        for place in (1..8).chain(41..48) {
            assert_eq!(changed(place, 0x80), (1, 0), "byte {place}, before floats: a zero, or the trace number's");
        }
        assert_eq!(changed(55, 0x80), (1, 0), "a float beside a refusal");
        assert_eq!(changed(40, 1), (1, 0), "another number");
        assert_eq!(found_records(&records, &records[..79]), (1, 0), "a torn record");
        assert_eq!(found_records(&records[..40], &records[..40]), (1, 0), "one is missing in both");
        assert_eq!(found_records(&[0; 120], &[0; 120]), (1, 0), "nobody asked for the last");
    }

    /// A value past an end, one that is not, and one whose place is not between the ends: the crate's lines against
    /// these, how many are different and how many explained.
    fn explained(lines: [u64; 3]) -> (u64, u64) {
        let questions = [[5, 0, 10, PAST[0], PAST[1]], [0, 0, 10, PAST[0], PAST[1]], [20, 0, 10, PAST[0], PAST[1]]];
        let (mut asked, mut crates) = (Vec::new(), String::new());
        for words in questions {
            write_words(&mut asked, &request(30, &words)).expect("memory can be written");
            crates += &line_of(&request(30, &words), Whose::Crates);
        }
        let other = lines.map(|word| format!("0 {word:016x}\n")).concat();
        let found = look("answers", asked.as_slice(), crates.as_bytes(), other.as_bytes()).expect("memory can be read");
        (found.different, found.clamped)
    }

    /// -0.06 and 0.04: in the middle of 0 to 10 steps the crate gives the float above 0.04.
    const PAST: [u64; 2] = [0xbfae_b851_eb85_1eb8, 0x3fa4_7ae1_47ae_147b];

    #[test]
    fn the_clamp() {
        let beyond = 0.14f64.to_bits();
        let crates = [PAST[1] + 1, PAST[0], beyond];
        assert_eq!(explained(crates), (1, 0), "the crate itself");
        assert_eq!(explained([PAST[1], PAST[0], beyond]), (0, 1), "the end that was passed");
        assert_eq!(explained([PAST[0], PAST[0], beyond]), (1, 0), "the other end");
        assert_eq!(explained([PAST[1] - 1, PAST[0], beyond]), (1, 0), "no end");
        assert_eq!(explained([PAST[1], PAST[0] - 1, beyond]), (1, 1), "nothing left its ends");
        assert_eq!(explained([PAST[1], PAST[0], PAST[1]]), (1, 1), "clamped where x is beyond the ends");
    }

    /// A trace of an edge in whose middle a value passes its end, and of one of no length there; the window goes from
    /// the middle to `high`.
    fn past_an_end(high: f64) -> [u64; 10] {
        let window = [5, f64::to_bits(-1.0), high.to_bits(), f64::to_bits(1.0)];
        [&window[..], &[0, PAST[0], 10, PAST[1], 10, PAST[1]]].concat().try_into().expect("as many")
    }

    fn records(whose: Whose, touches: Touches, asked: &[u64; 10]) -> [u8; 80] {
        let (window, samples) = (Arguments::new(asked).take(), asked[4..].iter().map(|word| f64::from_bits(*word)));
        let mut buffer = [0; 80];
        let answer = trace::cut_trace(whose, touches, &samples.collect::<Vec<_>>(), &window, 7, &mut buffer);
        answer.expect("there is room");
        buffer
    }

    fn found_in(touches: Touches, asked: &[u64; 10], crates: &[u8], ours: &[u8]) -> (u64, u64) {
        let mut input = Vec::new();
        write_words(&mut input, asked).expect("memory can be written");
        let found = look_at_records(touches, input.as_slice(), crates, ours).expect("memory can be read");
        (found.different, found.clamped)
    }

    #[test]
    fn the_clamp_in_a_trace() {
        let asked = past_an_end(1.0);
        let [crates, mut ours] = [Whose::Crates, Whose::Ours].map(|whose| records(whose, Touches::Dropped, &asked));
        assert_eq!((crates[0], ours[0]), (1, 0), "missed, and kept");
        let found = |ours: &[u8]| found_in(Touches::Dropped, &asked, &crates, ours);
        assert_eq!(found(&ours), (0, 1));
        assert_eq!(found(&crates), (1, 0), "the crate itself");
        ours[8] ^= 1;
        assert_eq!(found(&ours), (1, 0), "another point");
        ours[8] ^= 1;
        ours[4] = 8;
        assert_eq!(found(&ours), (1, 0), "another trace number");
        ours[4] = 7;
        ours[40] = 1;
        assert_eq!(found(&ours), (1, 1), "a whole edge missed");
    }

    /// With no width to the window the crate misses what the clamp keeps as a touch: the two agree only where touches
    /// are dropped.
    #[test]
    fn the_clamp_and_a_touch() {
        let asked = past_an_end(f64::from_bits(5));
        for (touches, other, number, clamped) in
            [(Touches::Dropped, Touches::Kept, 1, 0), (Touches::Kept, Touches::Dropped, 0, 1)]
        {
            let [crates, ours] = [Whose::Crates, Whose::Ours].map(|whose| records(whose, touches, &asked));
            assert_eq!((crates[0], ours[0]), (1, number), "{touches:?}");
            assert_eq!(found_in(touches, &asked, &crates, &ours), (0, clamped), "{touches:?}");
            let others = records(Whose::Ours, other, &asked);
            assert_eq!(found_in(touches, &asked, &crates, &others), (1, 0), "{touches:?}");
        }
    }

    #[test]
    fn cuts() {
        let minus = "0 0000000000000000 0000000000000000 0000000000000000 8000000000000000\n";
        let plus = minus.replace('8', "0");
        let found = look("cut", [0; 64].as_slice(), minus.as_bytes(), plus.as_bytes()).expect("memory can be read");
        assert_eq!((found.total, found.different, found.zeros), (1, 0, 1));
    }
}
