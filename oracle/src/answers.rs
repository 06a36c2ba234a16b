//! `oracle answers`: the line that the answering program has to give for each request.

use crate::boxes::{build_pages, first_kept, scan};
use crate::number::{Answer, Number, DONE, NO_SUCH_OPERATION};
use crate::r2::rect::Rect;
use crate::stream::{answer_records, hex, words, write_line};
use crate::stretch::longest_clean;
use crate::trace::{cut_trace, Touches};
use crate::whose::Whose;
use crate::words::{shown, Arguments, Shown};
use crate::zeros::settle;
use crate::{clip, cube, line, plane, walk};
use std::io::{self, Write};

/// Words of a request: the operation, then its arguments.
pub const REQUEST: usize = 24;

/// No walk or trace is asked with a longer buffer.
pub const BUFFER: usize = 400;

/// What every byte of a buffer is before the call.
const UNTOUCHED: u8 = 0xa5;

/// No trace is asked with more floats.
pub const FLOATS: usize = 16;

/// No boxes are asked with more floats.
pub const BOXES: usize = 75;

pub fn run(whose: Whose) -> io::Result<()> {
    answer_records(|record: &[u8; 8 * REQUEST], output| answer(&words(record), whose, output))
}

/// The words after the arguments are ignored, so they may be zeros. A trace number that is not named is 0.
pub fn request(operation: u64, arguments: &[u64]) -> [u64; REQUEST] {
    let mut request = [0; REQUEST];
    request[0] = operation;
    request[1..=arguments.len()].copy_from_slice(arguments);
    request
}

pub fn answer(request: &[u64; REQUEST], whose: Whose, output: &mut impl Write) -> io::Result<()> {
    let (operation, arguments) = (request[0], &request[1..]);
    match operation {
        60 => return write_walk(&mut Arguments::new(arguments), output),
        61 => return write_trace(whose, Touches::Dropped, &mut Arguments::new(arguments), output),
        62 => return write_trace(whose, Touches::Kept, &mut Arguments::new(arguments), output),
        63 => return write_stretch(&mut Arguments::new(arguments), output),
        64 => return write_pages(whose, &mut Arguments::new(arguments), output),
        65 => return write_kept(whose, &mut Arguments::new(arguments), output),
        _ => {}
    }
    let mut answer = results(operation, whose, &mut Arguments::new(arguments));
    if let (Ok(results), Whose::Ours) = (&mut answer, whose) {
        settle(operation, arguments, results);
    }
    write_line(output, &answer)
}

/// The line of a request, its end of line too.
pub fn line_of(request: &[u64; REQUEST], whose: Whose) -> String {
    let mut line = Vec::new();
    answer(request, whose, &mut line).expect("memory can be written");
    String::from_utf8(line).expect("a line is text")
}

/// Rust takes arguments from left to right, so each function's own signature reads the request.
fn results(operation: u64, whose: Whose, a: &mut Arguments) -> Answer<Vec<u64>> {
    match operation {
        1 => shown(plane::sum(a.take(), a.take())),
        2 => shown(plane::difference(a.take(), a.take())),
        3 => shown(plane::scaling(a.take(), a.take())),
        4 => shown(plane::ortho(a.take())),
        5 => shown(plane::dot(a.take(), a.take())),
        6 => shown(plane::cross(a.take(), a.take())),
        7 => shown(plane::new(a.take(), a.take())),
        10 => shown(plane::interval_is_empty(a.take())),
        11 => shown(plane::interval_holds(a.take(), a.take())),
        12 => shown(plane::interval_contains(a.take(), a.take())),
        13 => shown(plane::interval_intersects(a.take(), a.take())),
        14 => shown(plane::interval_union(a.take(), a.take())),
        15 => shown(plane::interval_intersection(a.take(), a.take())),
        17 => shown(plane::interval_of(a.take(), a.take())),
        19 => shown(plane::empty_rect()),
        20 => shown(plane::box_of(a.take(), a.take())),
        21 => shown(plane::vertices(a.take())),
        22 => shown(plane::vertex_ij(a.take(), a.take(), a.take())),
        23 => shown(plane::lo_and_hi(a.take())),
        24 => shown(plane::is_empty(a.take())),
        25 => shown(plane::contains_point(a.take(), a.take())),
        26 => shown(plane::contains(a.take(), a.take())),
        27 => shown(plane::intersects(a.take(), a.take())),
        28 => shown(plane::union(a.take(), a.take())),
        29 => shown(plane::intersection(a.take(), a.take())),
        30 => shown(clip::interpolate(whose, a.take(), a.take(), a.take(), a.take(), a.take())),
        31 => shown(clip::update_endpoint(a.take(), a.take(), a.take())),
        32 => {
            let (a0, b0, bound0, a1, b1) = (a.take(), a.take(), a.take(), a.take(), a.take());
            shown(clip::clip_bound_axis(whose, a0, b0, bound0, a1, b1, a.take(), a.take(), a.take()))
        }
        33 => shown(clip::clip_edge_bound(whose, a.take(), a.take(), a.take(), a.take())),
        34 => shown(clip::clip_edge(whose, a.take(), a.take(), a.take())),
        35 => shown(clip::edge_intersects_rect(a.take(), a.take(), a.take())),
        40 => shown(cube::face(a.take())),
        41 => shown(cube::xyz_to_face_uv(a.take())),
        42 => shown(cube::face_xyz_to_uv(a.take(), a.take())),
        43 => shown(cube::face_uv_to_xyz(a.take(), a.take(), a.take())),
        44 => shown(cube::face_xyz_to_uvw(a.take(), a.take())),
        45 => shown(cube::uvw_face(a.take(), a.take(), a.take())),
        46 => shown(cube::u_axis(a.take())),
        47 => shown(cube::v_axis(a.take())),
        48 => shown(cube::unorm(a.take(), a.take())),
        49 => shown(cube::vnorm(a.take(), a.take())),
        50 => shown(line::sum_equal(a.take(), a.take(), a.take())),
        51 => shown(line::intersects_face(a.take())),
        52 => shown(line::intersects_opposite_edges(a.take())),
        53 => shown(line::exit_axis(a.take())),
        54 => shown(line::exit_point(a.take(), a.take())),
        55 => shown(line::next_face(a.take(), a.take(), a.take(), a.take(), a.take())),
        _ => Err(NO_SUCH_OPERATION),
    }
}

fn write_walk(a: &mut Arguments, output: &mut impl Write) -> io::Result<()> {
    let (face, start, target, end, normal) = (a.take(), a.take(), a.take(), a.take(), a.take());
    let (length, trace_number) = (a.take(), a.take());
    write_lent(output, length, |buffer| Ok([walk::walk(face, start, target, end, normal, trace_number, buffer)?]))
}

/// There is room for all floats, read or not, and the trace number stands after it.
fn write_trace(whose: Whose, touches: Touches, a: &mut Arguments, output: &mut impl Write) -> io::Result<()> {
    let (count, length, window): (u64, u64, Rect) = (a.take(), a.take(), a.take());
    let floats: [f64; FLOATS] = std::array::from_fn(|_| a.take());
    let samples = &floats[..count.min(FLOATS as u64) as usize];
    let trace_number = a.take();
    write_lent(output, length, |buffer| cut_trace(whose, touches, samples, &window, trace_number, buffer))
}

/// Whatever the number, the line has the two counts, as that of a trace with nothing lent.
fn write_stretch(a: &mut Arguments, output: &mut impl Write) -> io::Result<()> {
    let (count, window): (u64, Rect) = (a.take(), a.take());
    let floats: [f64; FLOATS] = std::array::from_fn(|_| a.take());
    let samples = &floats[..count.min(FLOATS as u64) as usize];
    write_lent(output, 0, |_| longest_clean(samples, &window))
}

/// The samples, the window and the floats that are lent as boxes, each of them the fill.
fn paged(a: &mut Arguments) -> (Vec<f64>, Rect, Vec<f64>) {
    let (count, length, window): (u64, u64, Rect) = (a.take(), a.take(), a.take());
    let floats: [f64; FLOATS] = std::array::from_fn(|_| a.take());
    let samples = floats[..count.min(FLOATS as u64) as usize].to_vec();
    (samples, window, vec![a.take(); length.min(BOXES as u64) as usize])
}

/// Boxes that were built find what a scan of all edges finds, at a price that W6 bounds. Whatever the numbers, the line
/// has all words and every float after the call.
fn write_pages(whose: Whose, a: &mut Arguments, output: &mut impl Write) -> io::Result<()> {
    let (samples, window, mut boxes) = paged(a);
    let (number, floats) = match build_pages(&samples, &mut boxes) {
        Ok(floats) => (DONE, floats),
        Err(number) => (number, 0),
    };
    let kept = first_kept(whose, &samples, &window, &boxes);
    if number == DONE {
        let scanned = scan(whose, &samples, &window);
        assert_eq!(scanned.unwrap_or(0), kept.1, "the scan and the search: {samples:?} in {window:?}");
        assert_eq!(scanned.is_some(), kept.0 == DONE, "the scan and the search: {samples:?} in {window:?}");
        assert!(kept.2 <= samples.len().saturating_sub(3), "more boxes than there are: {samples:?} in {window:?}");
    }
    write!(output, "{number} {floats:016x} ")?;
    write_found(output, kept)?;
    let mut words = Vec::new();
    boxes.iter().for_each(|float| float.push_to(&mut words));
    words.iter().try_for_each(|word| write!(output, " {word:016x}"))?;
    writeln!(output)
}

fn write_kept(whose: Whose, a: &mut Arguments, output: &mut impl Write) -> io::Result<()> {
    let (samples, window, boxes) = paged(a);
    write_found(output, first_kept(whose, &samples, &window, &boxes))?;
    writeln!(output)
}

fn write_found(output: &mut impl Write, (number, edge, opened): (Number, usize, usize)) -> io::Result<()> {
    write!(output, "{number} {edge:016x} {opened:016x}")
}

/// The line of a call that is lent a buffer shows its counts and the whole buffer, whatever the number: what was
/// written and what was left alone.
fn write_lent<const COUNTS: usize>(
    output: &mut impl Write,
    length: u64,
    call: impl FnOnce(&mut [u8]) -> Answer<[usize; COUNTS]>,
) -> io::Result<()> {
    let mut buffer = [UNTOUCHED; BUFFER];
    let buffer = &mut buffer[..length.min(BUFFER as u64) as usize];
    let (number, counts) = match call(buffer) {
        Ok(counts) => (DONE, counts),
        Err(number) => (number, [0; COUNTS]),
    };
    write!(output, "{number}")?;
    counts.iter().try_for_each(|count| write!(output, " {count:016x}"))?;
    let space = if buffer.is_empty() { "" } else { " " };
    writeln!(output, "{space}{}", hex(buffer))
}
