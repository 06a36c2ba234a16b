//! Change request W1, a whole trace in one call: its refusals in order, then module 4's `clip_edge`, edge by edge, and
//! change request W10, which drops touches unless they are asked for.
//! `oracle trace`: the records that the program of that name has to write for its words, a window and samples.

use crate::clip::{admit_window, clip_edge};
use crate::number::{Answer, BAD_TRACE, BAD_WINDOW, BUFFER_TOO_SHORT, DONE, MISSED};
use crate::r2::{point::Point, rect::Rect};
use crate::stream::{read_full, words};
use crate::walk::{record, RECORD};
use crate::whose::Whose;
use crate::words::Arguments;
use std::io::{self, BufReader, BufWriter, Read, Write};

/// A trace of one call has no more samples.
pub const SAMPLES: usize = 4096;

/// Bytes of the window, and of a sample, in the program's input.
pub const WINDOW_BYTES: usize = 32;
pub const SAMPLE_BYTES: usize = 16;

/// Kept, missed and refused edges, by the number of their answer, and all edges.
type Counts = [usize; 4];
const EDGES: usize = 3;

/// What becomes of an edge that only touches the window: it is missed, or kept as any other.
#[derive(Clone, Copy, PartialEq, Eq, Debug)]
pub enum Touches {
    Dropped,
    Kept,
}

/// Gives back the counts. With a number instead, the buffer is as it was.
pub fn cut_trace(
    whose: Whose,
    touches: Touches,
    samples: &[f64],
    window: &Rect,
    trace_number: u32,
    buffer: &mut [u8],
) -> Answer<Counts> {
    let (samples, odd) = samples.as_chunks();
    if !odd.is_empty() || samples.len() > SAMPLES {
        return Err(BAD_TRACE);
    }
    admit_window(window)?;
    let samples: Vec<Point> = samples.iter().map(|[x, y]| Point { x: *x, y: *y }).collect();
    let edges = samples.windows(2);
    let records: Vec<_> = edges.map(|edge| cut(whose, touches, edge[0], edge[1], window, trace_number)).collect();
    if buffer.len() / RECORD < records.len() {
        return Err(BUFFER_TOO_SHORT);
    }
    let mut counts = Counts::default();
    for (record, place) in records.iter().zip(buffer.as_chunks_mut().0) {
        count(&mut counts, record);
        *place = *record;
    }
    Ok(counts)
}

/// The record of an edge: the number of its answer, the trace number and, where it is kept, its points.
pub fn cut(whose: Whose, touches: Touches, a: Point, b: Point, window: &Rect, trace_number: u32) -> [u8; RECORD] {
    const ZERO: Point = Point { x: 0.0, y: 0.0 };
    match clip_edge(whose, a, b, window.clone()) {
        Ok(kept) if touches == Touches::Dropped && only_touches((a, b), kept) => {
            record(MISSED, trace_number, ZERO, ZERO)
        }
        Ok((kept_a, kept_b)) => record(DONE, trace_number, kept_a, kept_b),
        Err(number) => record(number, trace_number, ZERO, ZERO),
    }
}

/// One point of the edge is kept, though it has more than one.
pub fn only_touches((a, b): (Point, Point), (kept_a, kept_b): (Point, Point)) -> bool {
    same_point(kept_a, kept_b) && !same_point(a, b)
}

/// As numbers, so that a zero's sign does not tell. The crate's own equality is another: there a NaN equals everything.
pub fn same_point(a: Point, b: Point) -> bool {
    a.x == b.x && a.y == b.y
}

fn count(counts: &mut Counts, record: &[u8; RECORD]) {
    counts[usize::from(record[0])] += 1;
    counts[EDGES] += 1;
}

/// Beside the records it says on standard error what the program has to say there: a bad window, a torn last sample,
/// and the counts.
pub fn run(touches: Touches, trace_number: u32) -> io::Result<()> {
    let mut input = BufReader::with_capacity(1 << 16, io::stdin().lock());
    let mut window = [0; WINDOW_BYTES];
    if read_full(&mut input, &mut window)? < WINDOW_BYTES {
        return Err(io::Error::other("the input ends inside the window"));
    }
    let window: Rect = Arguments::new(&words::<4>(&window)).take();
    if admit_window(&window).is_err() {
        eprintln!("trace: {BAD_WINDOW}, a bad window");
        return Ok(());
    }
    let mut output = BufWriter::with_capacity(1 << 16, io::stdout().lock());
    let ([kept, missed, refused, edges], torn) =
        write_records(&mut input, touches, &window, trace_number, &mut output)?;
    output.flush()?;
    if torn > 0 {
        eprintln!("trace: the last sample is torn, {torn} bytes of {SAMPLE_BYTES}");
    }
    eprintln!("trace: {kept} kept, {missed} missed, {refused} refused, {edges} edges");
    Ok(())
}

/// Writes the records of a trace of any length; gives back the counts, and the length of a torn end.
fn write_records(
    input: &mut impl Read,
    touches: Touches,
    window: &Rect,
    trace_number: u32,
    output: &mut impl Write,
) -> io::Result<(Counts, usize)> {
    let (mut counts, mut before) = (Counts::default(), None);
    let mut bytes = [0; SAMPLE_BYTES];
    loop {
        let length = read_full(input, &mut bytes)?;
        if length < SAMPLE_BYTES {
            return Ok((counts, length));
        }
        let sample: Point = Arguments::new(&words::<2>(&bytes)).take();
        if let Some(before) = before.replace(sample) {
            let record = cut(Whose::Crates, touches, before, sample, window, trace_number);
            count(&mut counts, &record);
            output.write_all(&record)?;
        }
    }
}

#[cfg(test)]
mod tests {
    use super::*;
    use crate::answers::{line_of, request};
    use crate::clip::LIMIT;
    use crate::stream::hex;

    const NAN: f64 = f64::NAN;
    /// The window of P1 and P2: low corner, high corner.
    const WINDOW: [f64; 4] = [1.0, 0.0, 3.0, 2.0];
    const TURNED: [f64; 4] = [3.0, 0.0, 1.0, 2.0];
    /// P1's edge, two that touch a dead sample, P2's edge, one beside the window.
    const TRACE: [f64; 12] = [0.0, 0.0, 4.0, 2.0, 4.0, NAN, 0.0, 2.0, 4.0, 0.0, 4.0, 5.0];

    /// No edge here only touches its window, so that 62 gives the same line.
    fn ask(count: u64, length: u64, window: [f64; 4], floats: &[f64]) -> String {
        let floats: Vec<u64> = window.iter().chain(floats).map(|float| float.to_bits()).collect();
        let words = [&[count, length], &floats[..]].concat();
        let [line, with_touches] = [61, 62].map(|operation| line_of(&request(operation, &words), Whose::Crates));
        assert_eq!(line, with_touches);
        line
    }

    fn line(number: u8, counts: Counts, bytes: &str) -> String {
        let counts: String = counts.iter().map(|count| format!(" {count:016x}")).collect();
        format!("{number}{counts} {bytes}").trim_end().to_string() + "\n"
    }

    fn untouched(length: usize) -> String {
        "a5".repeat(length)
    }

    fn record_of(number: u8, floats: [f64; 4]) -> String {
        let bytes: Vec<u8> = floats.iter().flat_map(|float| float.to_le_bytes()).collect();
        format!("{number:02x}00000000000000{}", hex(&bytes))
    }

    #[test]
    fn records_and_counts() {
        let records = [
            record_of(0, [1.0, 0.5, 3.0, 1.5]),
            record_of(2, [0.0; 4]),
            record_of(2, [0.0; 4]),
            record_of(0, [1.0, 1.5, 3.0, 0.5]),
            record_of(1, [0.0; 4]),
        ];
        let all = records.concat();
        assert_eq!(ask(12, 200, WINDOW, &TRACE), line(0, [2, 1, 2, 5], &all));
        assert_eq!(ask(12, 201, WINDOW, &TRACE), line(0, [2, 1, 2, 5], &(all.clone() + "a5")), "a byte after them");
        assert_eq!(ask(4, 40, WINDOW, &TRACE), line(0, [1, 0, 0, 1], &records[0]));
        assert_eq!(ask(6, 1000, WINDOW, &TRACE), line(0, [1, 0, 1, 2], &(records[..2].concat() + &untouched(320))));
    }

    #[test]
    fn no_edge() {
        for count in [0, 2] {
            assert_eq!(ask(count, 0, WINDOW, &TRACE), line(0, [0; 4], ""), "{count} floats");
            assert_eq!(ask(count, 41, WINDOW, &TRACE), line(0, [0; 4], &untouched(41)), "{count} floats");
            assert_eq!(ask(count, 3, TURNED, &TRACE), line(3, [0; 4], &untouched(3)), "{count} floats");
        }
        assert_eq!(ask(2, 0, WINDOW, &[NAN, NAN]), line(0, [0; 4], ""), "a dead sample alone");
    }

    #[test]
    fn refusals_in_order() {
        for (number, count, length, window) in [
            (10, 11, 199, TURNED),
            (10, 1, 0, WINDOW),
            (3, 12, 199, TURNED),
            (3, 12, 400, [1.0, 0.0, f64::INFINITY, 2.0]),
            (8, 12, 199, WINDOW),
            (8, 4, 0, WINDOW),
        ] {
            assert_eq!(ask(count, length, window, &TRACE), line(number, [0; 4], &untouched(length as usize)));
        }
    }

    #[test]
    fn floats_beyond_the_limit() {
        let above = LIMIT.next_up();
        let [whole, dead] = [record_of(0, [0.0, 0.0, 1.0, 0.0]), record_of(2, [0.0; 4])];
        let ask = |window, far| ask(6, 80, window, &[0.0, 0.0, far, 0.0, 0.0, 0.0]);
        let back = record_of(0, [1.0, 0.0, 0.0, 0.0]);
        assert_eq!(ask([0.0, 0.0, 1.0, 1.0], LIMIT), line(0, [2, 0, 0, 2], &(whole + &back)));
        assert_eq!(ask([0.0, 0.0, 1.0, 1.0], above), line(0, [0, 0, 2, 2], &dead.repeat(2)));
        assert!(ask([-LIMIT, -LIMIT, LIMIT, LIMIT], 0.0).starts_with("0 "));
        for side in 0..4 {
            let mut window = [-LIMIT, -LIMIT, LIMIT, LIMIT];
            window[side] = above.copysign(window[side]);
            assert_eq!(ask(window, 0.0), line(3, [0; 4], &untouched(80)), "side {side}");
        }
    }

    #[test]
    fn sixteen_floats_at_the_most() {
        let trace = [&TRACE[..], &TRACE[..4]].concat();
        let sixteen = ask(16, 280, WINDOW, &trace);
        assert!(sixteen.starts_with("0 "));
        for count in [17, 18, 256, u64::MAX] {
            assert_eq!(ask(count, 280, WINDOW, &trace), sixteen, "{count} floats");
        }
    }

    fn window() -> Rect {
        Arguments::new(&WINDOW.map(f64::to_bits)).take()
    }

    /// The last edge goes to a corner of the window.
    #[test]
    fn the_program() {
        let samples = [&TRACE[..], &[3.0, 2.0]].concat();
        let mut input: Vec<u8> = samples.iter().flat_map(|float| float.to_le_bytes()).collect();
        for (touches, kept) in [(Touches::Dropped, 2), (Touches::Kept, 3)] {
            let mut expected = [0; 6 * RECORD];
            let counts = cut_trace(Whose::Crates, touches, &samples, &window(), 7, &mut expected);
            assert_eq!(counts, Ok([kept, 4 - kept, 2, 6]), "{touches:?}");
            for torn in [0, 1, 15] {
                input.resize(8 * samples.len() + torn, 0);
                let mut records = Vec::new();
                let said = write_records(&mut input.as_slice(), touches, &window(), 7, &mut records);
                assert_eq!(said.expect("memory can be written"), (counts.expect("there is room"), torn), "{touches:?}");
                assert_eq!(records, expected, "{touches:?}");
            }
        }
    }

    #[test]
    fn the_longest_trace() {
        let mut buffer = vec![0xa5; RECORD * SAMPLES];
        let mut number = |floats: usize, length: usize| {
            let samples = vec![1.0; floats];
            let answer = cut_trace(Whose::Crates, Touches::Dropped, &samples, &window(), 0, &mut buffer[..length]);
            answer.map_or_else(|number| number, |_| DONE)
        };
        let room = RECORD * (SAMPLES - 1);
        assert_eq!(number(2 * SAMPLES, room), DONE);
        assert_eq!(number(2 * SAMPLES, room - 1), BUFFER_TOO_SHORT);
        assert_eq!(number(2 * SAMPLES + 1, room), BAD_TRACE);
        assert_eq!(number(2 * SAMPLES + 2, RECORD * SAMPLES), BAD_TRACE);
    }
}
