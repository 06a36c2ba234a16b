//! The stored list of `crates/answers`, asked of this crate: the lines that the Rust crate s2 gave, with W8's clamp and
//! W10's rule of touches, for the longest clean stretch those that a search over every run of samples gave, and for
//! the boxes of a trace and its first kept edge those that a search written apart from ours gave.

mod words;

use std::collections::BTreeSet;
use std::path::{Path, PathBuf};
use std::{array, fs};
use umblacet::pages::{build_pages, first_kept, Search};
use umblacet::r1::interval::Interval;
use umblacet::r2::{point::Point, rect::Rect};
use umblacet::s2::edge_clipping;
use umblacet::s2::stuv;
use umblacet::stretch::longest_clean;
use umblacet::trace::{cut_trace, cut_trace_with_touches, Counts};
use umblacet::Refusal;
use words::{Arguments, Shown, REQUEST};

const WALK: u64 = 60;
const TRACE: u64 = 61;
const TRACE_WITH_TOUCHES: u64 = 62;
const STRETCH: u64 = 63;
const PAGES: u64 = 64;
const SEARCH: u64 = 65;
const RECORD: usize = 40;

/// A request has room for so many of a trace.
const FLOATS: usize = 16;
/// And no request lends more for boxes.
const BOXES: u64 = 75;

#[test]
fn every_line() {
    let (requests, stored) = list();
    for (place, (request, stored)) in requests.iter().zip(&stored).enumerate() {
        assert_eq!(&line(request), stored, "request {place}, operation {}", request[0]);
    }
}

/// What `segments` gives is what the walk writes, wherever there is room for it.
#[test]
fn every_walk_has_its_segments() {
    for request in list().0.iter().filter(|request| request[0] == WALK) {
        let (walked, bytes) = walk(&mut arguments(request));
        let mut a = arguments(request);
        let segments = edge_clipping::segments(a.take(), a.take(), a.take(), a.take(), a.take());
        let (_, whose): (u64, u32) = (a.take(), a.take());
        match segments {
            Ok(segments) if walked.is_ok() => {
                assert_eq!(walked, Ok(segments.len()));
                let records = segments.iter().flat_map(|segment| record(segment.face, whose, segment.a, segment.b));
                assert!(bytes.starts_with(&records.collect::<Vec<u8>>()));
            }
            Ok(segments) => {
                assert_eq!(walked, Err(Refusal::ShortBuffer));
                assert!(bytes.len() / RECORD < segments.len());
            }
            Err(refusal) => assert_eq!(walked, Err(refusal)),
        }
    }
}

/// What `clip_edge` answers for each edge is what the trace writes, wherever there is room for it; but where the edge
/// only touches the window it is missed, unless touches are asked for.
#[test]
fn every_trace_has_its_edges() {
    let mut seen = BTreeSet::new();
    for request in list().0.iter().filter(|request| [TRACE, TRACE_WITH_TOUCHES].contains(&request[0])) {
        let (Ok(counts), bytes) = trace(request) else { continue };
        let mut a = arguments(request);
        let (_, _, window): (u64, u64, Rect) = (a.take(), a.take(), a.take());
        let samples: [Point; FLOATS / 2] = array::from_fn(|_| a.take());
        let whose = a.take();
        for (edge, written) in samples.windows(2).zip(bytes.chunks(RECORD)).take(counts.edges) {
            let cut = edge_clipping::clip_edge(edge[0], edge[1], window);
            let touches = matches!(cut, Ok((kept_a, kept_b)) if kept_a == kept_b && edge[0] != edge[1]);
            let due = if touches && request[0] == TRACE { Err(Refusal::Missed) } else { cut };
            assert_eq!(written, record_of(due, whose));
            seen.insert((request[0], touches));
        }
    }
    assert_eq!(seen.len(), 4, "edges that only touch and others, by both operations");
}

/// The whole requests, and a line for each; the last line is for the torn end, and is not asked here.
fn list() -> (Vec<[u64; REQUEST]>, Vec<String>) {
    let bytes = fs::read(stored("stdin")).expect("the stored requests");
    let text = fs::read_to_string(stored("stdout")).expect("the stored lines");
    let mut lines: Vec<String> = text.lines().map(String::from).collect();
    let whole = bytes.chunks_exact(8 * REQUEST);
    assert!(!whole.remainder().is_empty() && lines.pop().as_deref() == Some("9"), "a torn end");
    let requests: Vec<_> = whole.map(request).collect();
    assert!(!requests.is_empty() && requests.len() == lines.len(), "a line for each request");
    (requests, lines)
}

fn stored(name: &str) -> PathBuf {
    Path::new(env!("CARGO_MANIFEST_DIR")).join("../crates/answers").join(name)
}

fn request(bytes: &[u8]) -> [u64; REQUEST] {
    let mut words = [0; REQUEST];
    for (word, bytes) in words.iter_mut().zip(bytes.chunks_exact(8)) {
        *word = u64::from_le_bytes(bytes.try_into().expect("eight bytes"));
    }
    words
}

fn arguments(request: &[u64; REQUEST]) -> Arguments<'_> {
    Arguments(request[1..].iter())
}

fn line(request: &[u64; REQUEST]) -> String {
    let mut a = arguments(request);
    match request[0] {
        WALK => {
            let (walked, bytes) = walk(&mut a);
            lent(walked.map(|count| [count]), &bytes)
        }
        TRACE | TRACE_WITH_TOUCHES => {
            let (traced, bytes) = trace(request);
            lent(traced.map(|Counts { kept, missed, refused, edges }| [kept, missed, refused, edges]), &bytes)
        }
        STRETCH => lent(stretch(&mut a), &[]),
        PAGES | SEARCH => pages(request),
        operation => answered(operation, &mut a).unwrap_or_else(|| "255".into()),
    }
}

/// The number, the counts, and the buffer after the call.
fn lent<const COUNTS: usize>(answer: Result<[usize; COUNTS], Refusal>, bytes: &[u8]) -> String {
    let (number, counts) = answer.map_or_else(|refusal| (refusal.number(), [0; COUNTS]), |counts| (0, counts));
    let counts: String = counts.iter().map(|count| format!(" {count:016x}")).collect();
    let bytes: String = bytes.iter().map(|byte| format!("{byte:02x}")).collect();
    format!("{number}{counts} {bytes}").trim_end().into()
}

/// The line of an operation that is lent no buffer; none where it is not listed. Rust takes arguments from left to
/// right, so each function's own signature reads the request.
fn answered(operation: u64, a: &mut Arguments) -> Option<String> {
    Some(match operation {
        1 => shown(a.take::<Point>() + a.take::<Point>()),
        2 => shown(a.take::<Point>() - a.take::<Point>()),
        3 => shown(a.take::<Point>() * a.take::<f64>()),
        4 => shown(a.take::<Point>().ortho()),
        5 => shown(a.take::<Point>().dot(&a.take())),
        6 => shown(a.take::<Point>().cross(&a.take())),
        7 => shown(Point::new(a.take(), a.take())),
        10 => shown(a.take::<Interval>().is_empty()),
        11 => shown(a.take::<Interval>().contains(a.take())),
        12 => shown(a.take::<Interval>().contains_interval(&a.take())),
        13 => shown(a.take::<Interval>().intersects(&a.take())),
        14 => shown(a.take::<Interval>().union(&a.take())),
        15 => shown(a.take::<Interval>().intersection(&a.take())),
        17 => shown(Interval::from_point_pair(a.take(), a.take())),
        19 => shown(Ok(Rect::empty())),
        20 => shown(Rect::from_points(a.take(), a.take())),
        21 => shown(a.take::<Rect>().vertices()),
        22 => shown(a.take::<Rect>().vertex_ij(a.take(), a.take())),
        23 => shown(lo_and_hi(a.take())),
        24 => shown(a.take::<Rect>().is_empty()),
        25 => shown(a.take::<Rect>().contains_point(&a.take())),
        26 => shown(a.take::<Rect>().contains(&a.take())),
        27 => shown(a.take::<Rect>().intersects(&a.take())),
        28 => shown(a.take::<Rect>().union(&a.take())),
        29 => shown(a.take::<Rect>().intersection(&a.take())),
        30 => shown(edge_clipping::interpolate(a.take(), a.take(), a.take(), a.take(), a.take())),
        31 => shown(edge_clipping::update_endpoint(a.take(), a.take(), a.take())),
        32 => shown(edge_clipping::clip_bound_axis(
            a.take(),
            a.take(),
            a.take(),
            a.take(),
            a.take(),
            a.take(),
            a.take(),
            a.take(),
        )),
        33 => shown(edge_clipping::clip_edge_bound(a.take(), a.take(), a.take(), a.take())),
        34 => shown(edge_clipping::clip_edge(a.take(), a.take(), a.take())),
        35 => shown(edge_clipping::edge_intersects_rect(a.take(), a.take(), &a.take())),
        40 => shown(stuv::face(&a.take())),
        41 => shown(stuv::xyz_to_face_uv(&a.take())),
        42 => shown(stuv::face_xyz_to_uv(a.take(), &a.take())),
        43 => shown(stuv::face_uv_to_xyz(a.take(), a.take(), a.take())),
        44 => shown(stuv::face_xyz_to_uvw(a.take(), &a.take())),
        45 => shown(stuv::uvw_face(a.take(), a.take(), a.take())),
        46 => shown(stuv::u_axis(a.take())),
        47 => shown(stuv::v_axis(a.take())),
        48 => shown(stuv::unorm(a.take(), a.take())),
        49 => shown(stuv::vnorm(a.take(), a.take())),
        50 => shown(edge_clipping::sum_equal(a.take(), a.take(), a.take())),
        51 => shown(edge_clipping::intersects_face(a.take())),
        52 => shown(edge_clipping::intersects_opposite_edges(a.take())),
        53 => shown(edge_clipping::exit_axis(a.take())),
        54 => shown(edge_clipping::exit_point(a.take(), a.take())),
        55 => shown(edge_clipping::next_face(a.take(), a.take(), a.take(), a.take(), a.take())),
        _ => return None,
    })
}

fn lo_and_hi(rect: Rect) -> Result<(Point, Point), Refusal> {
    Ok((rect.lo()?, rect.hi()?))
}

/// `0` and a group of 16 digits for each word, or the number alone.
fn shown(answer: Result<impl Shown, Refusal>) -> String {
    match answer {
        Ok(value) => value.words().iter().fold("0".into(), |line, word| format!("{line} {word:016x}")),
        Err(refusal) => refusal.number().to_string(),
    }
}

/// The walk's answer, and its buffer after it: every byte was a5 (hex).
fn walk(a: &mut Arguments) -> (Result<usize, Refusal>, Vec<u8>) {
    let (face, from, target, to, normal) = (a.take(), a.take(), a.take(), a.take(), a.take());
    let mut bytes = vec![0xa5; a.take::<u64>().min(400) as usize];
    (edge_clipping::walk(face, from, target, to, normal, a.take(), &mut bytes), bytes)
}

/// The trace's answer, and its buffer after it. Its number stands after all the floats that a request has room for.
fn trace(request: &[u64; REQUEST]) -> (Result<Counts, Refusal>, Vec<u8>) {
    let entry = if request[0] == TRACE { cut_trace } else { cut_trace_with_touches };
    let mut a = arguments(request);
    let (floats, length, window): (u64, u64, Rect) = (a.take(), a.take(), a.take());
    let samples: [f64; FLOATS] = array::from_fn(|_| a.take());
    let samples = &samples[..floats.min(FLOATS as u64) as usize];
    let mut bytes = vec![0xa5; length.min(400) as usize];
    (entry(samples, window, a.take(), &mut bytes), bytes)
}

/// The place of the part among the samples, and how many it has, by where it is in memory.
fn stretch(a: &mut Arguments) -> Result<[usize; 2], Refusal> {
    let (floats, window): (u64, Rect) = (a.take(), a.take());
    let samples: [f64; FLOATS] = array::from_fn(|_| a.take());
    let samples = &samples[..floats.min(FLOATS as u64) as usize];
    let part = longest_clean(samples, window)?;
    let bytes = part.as_ptr().addr() - samples.as_ptr().addr();
    Ok([bytes / 16, part.len() / 2])
}

/// The boxes built and then searched, or only searched. What fills them stands after all the floats that a request has
/// room for.
fn pages(request: &[u64; REQUEST]) -> String {
    let mut a = arguments(request);
    let (floats, length, window): (u64, u64, Rect) = (a.take(), a.take(), a.take());
    let samples: [f64; FLOATS] = array::from_fn(|_| a.take());
    let samples = &samples[..floats.min(FLOATS as u64) as usize];
    let mut boxes = vec![a.take(); length.min(BOXES) as usize];
    let before = boxes.clone();
    let built = (request[0] == PAGES).then(|| build_pages(samples, &mut boxes));
    let found = search_line(first_kept(samples, window, &boxes));
    let Some(built) = built else { return found };
    let written = built.unwrap_or(0);
    assert!(same_bits(&boxes[written..], &before[written..]), "no float but the boxes' is written");
    let floats = boxes.iter().flat_map(f64::words).map(|word| format!(" {word:016x}"));
    format!("{} {found}{}", lent(built.map(|floats| [floats]), &[]), floats.collect::<String>())
}

/// Beside 1 the count of opened boxes stands too.
fn search_line(found: Result<Search, Refusal>) -> String {
    match found {
        Ok(Search { edge: None, opened }) => format!("1 {:016x} {opened:016x}", 0),
        Ok(Search { edge: Some(edge), opened }) => lent(Ok([edge, opened]), &[]),
        Err(refusal) => lent::<2>(Err(refusal), &[]),
    }
}

fn same_bits(one: &[f64], other: &[f64]) -> bool {
    one.iter().map(|float| float.to_bits()).eq(other.iter().map(|float| float.to_bits()))
}

/// The record of an edge that was cut so.
fn record_of(cut: Result<(Point, Point), Refusal>, whose: u32) -> Vec<u8> {
    let nowhere = Point { x: 0.0, y: 0.0 };
    match cut {
        Ok((a, b)) => record(0, whose, a, b),
        Err(refusal) => record(refusal.number(), whose, nowhere, nowhere),
    }
}

fn record(first: u8, whose: u32, a: Point, b: Point) -> Vec<u8> {
    let floats = [a.x, a.y, b.x, b.y];
    let floats = floats.iter().flat_map(|float| float.to_le_bytes());
    [first, 0, 0, 0].into_iter().chain(whose.to_le_bytes()).chain(floats).collect()
}
