//! The counts, buffers, windows, samples and fills that seeded requests of `pages.rs` and the stored list have to have,
//! and how far the search goes in them, counted; and that operations 64 and 65 move no other request of a seed.

use crate::answers::{line_of, BOXES, FLOATS, REQUEST};
use crate::boxes::{box_of, is_open, ranges, scan, BOX};
use crate::classes::{must_be_seen, Seen};
use crate::clip::{admit_window, admitted, LIMIT};
use crate::finite::Floats;
use crate::operations::is_paged;
use crate::pages::{floats_for, paging, request};
use crate::r1::interval::Interval;
use crate::r2::{point::Point, rect::Rect};
use crate::random::Random;
use crate::requests::{before_w6, page_or, request as any_request};
use crate::stored;
use crate::whose::Whose;
use crate::words::Arguments;
use std::collections::{BTreeMap, BTreeSet};

/// A request of 64 or 65, read.
struct Asked {
    operation: u64,
    count: u64,
    length: u64,
    window: Rect,
    /// As many as the count says.
    samples: Vec<Point>,
    fill: f64,
}

impl Asked {
    fn new(request: &[u64; REQUEST]) -> Asked {
        assert!(is_paged(request[0]));
        let mut a = Arguments::new(&request[1..]);
        let (count, length, window): (u64, u64, Rect) = (a.take(), a.take(), a.take());
        let all: [Point; FLOATS / 2] = std::array::from_fn(|_| a.take());
        let samples = all[..count.min(FLOATS as u64) as usize / 2].to_vec();
        Asked { operation: request[0], count, length, window, samples, fill: a.take() }
    }

    fn floats(&self) -> usize {
        self.count.min(FLOATS as u64) as usize
    }

    fn edges(&self) -> usize {
        self.samples.len().saturating_sub(1)
    }
}

/// What the line says of the search: its number, the edge and how many boxes were opened.
fn searched(request: &[u64; REQUEST]) -> [usize; 3] {
    let line = line_of(request, Whose::Ours);
    let groups: Vec<&str> = line.split_whitespace().skip(if request[0] == 64 { 2 } else { 0 }).collect();
    std::array::from_fn(|place| usize::from_str_radix(groups[place], if place == 0 { 10 } else { 16 }).expect("a word"))
}

fn floats_of(samples: &[Point]) -> Vec<f64> {
    samples.iter().flat_map(|sample| [sample.x, sample.y]).collect()
}

fn see(seen: &mut Seen, names: &[(bool, &'static str)]) {
    for (holds, name) in names {
        *seen.entry(name).or_default() += u64::from(*holds);
    }
}

fn see_refusals(seen: &mut Seen, asked: &Asked) {
    let (floats, room) = (asked.floats(), floats_for(asked.floats()) as u64);
    let (odd, short) = (floats % 2 == 1, asked.length < room);
    let (window, bad) = (&asked.window, admit_window(&asked.window).is_err());
    see(
        seen,
        &[
            (asked.count > FLOATS as u64, "more than sixteen floats"),
            (floats == 0, "no sample"),
            (floats == 2, "one sample"),
            (odd && bad, "an odd count, and a bad window"),
            (odd && short, "an odd count, and a short buffer"),
            (!odd && bad && short, "a bad window, and a short buffer"),
            (floats == 0 && bad, "no sample, and a bad window"),
            (asked.length == room && room > 0, "exact"),
            (asked.length + 1 == room, "a float short"),
            (asked.length == room + 1, "a float more"),
            (asked.length > room + 5, "more than a box more"),
            (asked.length == 0 && room > 0, "nothing lent"),
            (asked.length > 0 && asked.length + 1 < room, "more than a float short"),
            (asked.length > BOXES as u64, "more than 75 floats"),
            (window.x.lo > window.x.hi, "lo > hi in x"),
            (window.y.lo > window.y.hi, "lo > hi in y"),
            (!window.all(f64::is_finite), "a side that is not finite"),
            (window.all(f64::is_finite) && !window.all(admitted), "a side beyond the limit"),
            (!bad && window.x.lo == window.x.hi && window.y.lo == window.y.hi, "a window of one point"),
            (!bad && window.x.lo == window.x.hi && window.y.lo < window.y.hi, "a window of no width"),
            (!bad && window.x.lo < window.x.hi && window.y.lo == window.y.hi, "a window of no height"),
        ],
    );
}

fn see_fill(seen: &mut Seen, asked: &Asked) {
    let fill = asked.fill;
    see(
        seen,
        &[
            (fill.is_nan(), "a NaN fills"),
            (fill.is_infinite() && fill > 0.0, "an infinity fills"),
            (fill.is_infinite() && fill < 0.0, "a negative infinity fills"),
            (fill.to_bits() == 0, "0 fills"),
            (fill.to_bits() == 1 << 63, "-0 fills"),
            (fill == 1.0 && asked.operation == 64, "64: 1 fills"),
            (fill == 1.0 && asked.operation == 65, "65: 1 fills"),
            (fill == 1f64.next_up() || fill == 1f64.next_down(), "what is next to 1 fills"),
            (fill.is_finite() && ![0.0, 1.0].contains(&fill), "another float fills"),
        ],
    );
}

fn see_samples(seen: &mut Seen, samples: &[Point]) {
    for (place, sample) in samples.iter().enumerate() {
        for (x, y) in [(sample.x, sample.y), (sample.y, sample.x)] {
            see(
                seen,
                &[
                    (x.is_nan() && admitted(y), "a NaN alone"),
                    (x.is_infinite() && admitted(y), "an infinity alone"),
                    (x.is_finite() && !admitted(x) && admitted(y), "beyond the limit alone"),
                    (x.abs() == LIMIT && admitted(y), "at the limit"),
                ],
            );
        }
        let before = place.checked_sub(1).map(|place| samples[place]);
        let equal = |before: Point| before.x == sample.x && before.y == sample.y;
        see(seen, &[(before.is_some_and(equal), "equal to the sample before")]);
    }
}

/// How the window lies to the box's ends on an axis.
fn see_axis(seen: &mut Seen, low: f64, high: f64, sides: Interval) {
    see(
        seen,
        &[
            (sides.hi == low && low < high, "touches the low end"),
            (sides.lo == high && low < high, "touches the high end"),
            (sides.hi == low.next_down(), "misses the low end by a float"),
            (sides.lo == high.next_up(), "misses the high end by a float"),
            (sides.lo < low && high < sides.hi, "holds it"),
            (low < sides.lo && sides.hi < high, "lies in it"),
        ],
    );
}

fn see_boxes(seen: &mut Seen, asked: &Asked) {
    let ranges = ranges(asked.edges());
    let boxes: Vec<[f64; BOX]> = ranges.iter().map(|range| box_of(&asked.samples, range.clone())).collect();
    let marked = boxes.iter().filter(|floats| floats[4] == 1.0).count();
    let missed = |edge: usize| scan(Whose::Ours, &floats_of(&asked.samples[edge..=edge + 1]), &asked.window).is_none();
    let open = |floats: &[f64; BOX]| is_open(floats, &asked.window);
    let open_and_missed = boxes.iter().zip(&ranges).any(|(b, r)| r.len() == 1 && open(b) && missed(r.start));
    for (floats, range) in boxes.iter().zip(&ranges).filter(|(floats, _)| floats[4] == 1.0) {
        let [low_x, low_y, high_x, high_y, _] = *floats;
        let [x, y] = [asked.window.x, asked.window.y];
        // Whether the other axis leaves the box open.
        if is_open(&[low_x, y.lo, high_x, y.hi, 1.0], &asked.window) {
            see_axis(seen, low_y, high_y, y);
        }
        if is_open(&[x.lo, low_y, x.hi, high_y, 1.0], &asked.window) {
            see_axis(seen, low_x, high_x, x);
        }
        let corner = (x.hi == low_x || x.lo == high_x) && (y.hi == low_y || y.lo == high_y);
        let below = &asked.samples[range.start..=range.end];
        let both = |end: f64, axis: fn(&Point) -> f64| {
            end == 0.0 && below.iter().any(|p| p.all(admitted) && axis(p) == 0.0 && axis(p).to_bits() != end.to_bits())
        };
        see(
            seen,
            &[
                (corner && low_x < high_x && low_y < high_y, "touches a corner"),
                (both(low_x, |p| p.x) || both(low_y, |p| p.y), "a low end that is a zero of both signs"),
                (both(high_x, |p| p.x) || both(high_y, |p| p.y), "a high end that is a zero of both signs"),
                (low_x == high_x && low_y == high_y, "a box of one point"),
            ],
        );
    }
    see(
        seen,
        &[
            (marked == boxes.len(), "all are live"),
            (marked == 0, "no live edge"),
            (marked > 0 && marked < boxes.len(), "some boxes without a mark"),
            (open_and_missed, "a box of one edge is open, and the edge missed"),
            (marked > 0 && boxes[1..].iter().zip(&ranges[1..]).any(|(b, r)| b[4] != 1.0 && r.len() > 1), "a dead half"),
        ],
    );
}

/// Of 64 how far the search went; of 65 whether the fill opens.
fn see_search(seen: &mut Seen, asked: &Asked, [number, edge, opened]: [usize; 3]) {
    let (edges, kept) = (asked.edges(), number == 0);
    let (most, last) = ((2 * edges).saturating_sub(1), kept && edge + 1 == edges);
    let built = asked.operation == 64;
    see(
        seen,
        &[
            (built && edges > 1 && !kept && opened == 1, "64: the outermost box is shut"),
            (built && !kept && 1 < opened && opened < most, "64: none is kept, and some boxes are not looked at"),
            (built && edges > 1 && !kept && opened == most, "64: none is kept, and all boxes are looked at"),
            (built && edges > 2 && kept && edge == 0, "64: the first edge"),
            (built && edges > 2 && last, "64: the last edge"),
            (built && kept && edge > 0 && !last, "64: one between"),
            (built && edges > 2 && last && opened < most, "64: the last edge, past a shut half"),
            (built && edges == 1 && kept, "64: a single edge"),
            (built && edges == 1 && !kept, "64: a single edge is missed"),
            (!built && edges > 1 && !kept && opened == 1, "65: shut"),
            (!built && edges > 1 && !kept && opened == most, "65: all are open, none is kept"),
            (!built && kept && edge == 0, "65: the first edge"),
            (!built && kept && edge > 0, "65: a later edge"),
            (!built && asked.fill == 1.0 && edges > 1 && opened == 1, "65: the mark, and (1, 1) is not in the window"),
        ],
    );
}

fn see_request(seen: &mut Seen, request: &[u64; REQUEST]) {
    let asked = Asked::new(request);
    see_refusals(seen, &asked);
    see_fill(seen, &asked);
    let searched = searched(request);
    if searched[0] > 1 {
        return;
    }
    see_samples(seen, &asked.samples);
    see_search(seen, &asked, searched);
    if asked.operation == 64 && asked.edges() > 0 {
        see_boxes(seen, &asked);
    }
}

/// Each count, and the numbers that each operation gives.
fn see_counts(seen: &mut BTreeMap<String, u64>, request: &[u64; REQUEST]) {
    let (operation, number) = stored::answered(request);
    *seen.entry(format!("{} floats", Asked::new(request).floats())).or_default() += 1;
    *seen.entry(format!("{operation} gives {number}")).or_default() += 1;
}

fn must_have_all(seen: &BTreeMap<String, u64>, least: u64) {
    let numbers = [(64, ["0,0", "0,1", "0,3", "8,8", "8,3", "10,10"].as_slice()), (65, &["0", "1", "3", "8", "10"])];
    let mut names: BTreeSet<String> = (0..=FLOATS).map(|floats| format!("{floats} floats")).collect();
    for (operation, numbers) in numbers {
        names.extend(numbers.iter().map(|number| format!("{operation} gives {number}")));
    }
    for name in &names {
        let times = seen.get(name).copied().unwrap_or(0);
        println!("{times:8} {name}");
        assert!(times >= least, "{name}: {times} times");
    }
    assert!(seen.keys().all(|name| names.contains(name)), "no other number is given: {seen:?}");
}

/// What `pages.rs` makes itself, and not only what spoils any request or comes with another's traces.
const ON_PURPOSE: [&str; 9] = [
    "64: 1 fills",
    "65: 1 fills",
    "a NaN alone",
    "beyond the limit alone",
    "touches the low end",
    "misses the low end by a float",
    "misses the high end by a float",
    "a low end that is a zero of both signs",
    "a high end that is a zero of both signs",
];

#[test]
fn requests_of_every_kind() {
    let (mut random, mut seen, mut counts) = (Random::new(1), Seen::new(), BTreeMap::new());
    for _ in 0..20_000 {
        let request = request(&mut random);
        see_request(&mut seen, &request);
        see_counts(&mut counts, &request);
    }
    must_be_seen(&seen, &seen.keys().copied().collect::<Vec<_>>(), 100);
    must_be_seen(&seen, &ON_PURPOSE, 1000);
    must_have_all(&counts, 100);
}

#[test]
fn stored_requests_of_every_kind() {
    let (mut seen, mut counts) = (Seen::new(), BTreeMap::new());
    for request in stored::requests().iter().filter(|request| is_paged(request[0])) {
        see_request(&mut seen, request);
        see_counts(&mut counts, request);
    }
    must_be_seen(&seen, &seen.keys().copied().collect::<Vec<_>>(), 1);
    must_have_all(&counts, 1);
}

/// Many windows of one trace: they share its samples, and most have a search to make.
#[test]
fn paging_of_every_kind() {
    let (mut random, mut seen) = (Random::new(1), Seen::new());
    for _ in 0..200 {
        let requests = paging(&mut random, 100);
        assert_eq!(requests.len(), 100);
        let of_one = |request: &[u64; REQUEST]| request[7..23] == requests[0][7..23];
        assert!(requests.iter().all(of_one), "the floats are one trace's");
        let windows: BTreeSet<_> = requests.iter().map(|request| &request[3..7]).collect();
        assert!(windows.len() > 20, "windows of one trace: {}", windows.len());
        requests.iter().for_each(|request| see_request(&mut seen, request));
    }
    let refused = ["lo > hi in x", "lo > hi in y", "a side that is not finite", "a side beyond the limit"];
    let refused =
        |name: &str| refused.contains(&name) || name.contains("a bad window") || name.contains("an odd count");
    let names = seen.keys().copied().filter(|name| !refused(name));
    must_be_seen(&seen, &names.collect::<Vec<_>>(), 3);
}

/// Each request of a seed is that of before W6, or one of 64 or 65 in its place.
#[test]
fn no_other_request_moves() {
    let (mut random, mut before) = (Random::new(1), Random::new(1));
    let mut taken = BTreeMap::new();
    for _ in 0..20_000 {
        let (request, before) = (any_request(&mut random), before_w6(&mut before));
        assert_eq!(request, page_or(before));
        if request != before {
            assert!(is_paged(request[0]));
            assert!(![61, 62, 64, 65].contains(&before[0]), "it reads the last word");
            *taken.entry(request[0]).or_insert(0) += 1;
        }
    }
    assert!((380..520).contains(&taken[&64]), "three of four of one of 32: {taken:?} of 20,000");
    assert!((110..190).contains(&taken[&65]), "one of four of one of 32: {taken:?} of 20,000");
}

/// The floats beyond the count are not read, nor is the fill where nothing is lent.
#[test]
fn words_that_are_not_read() {
    let mut random = Random::new(1);
    for _ in 0..200 {
        let mut request = request(&mut random);
        let line = line_of(&request, Whose::Ours);
        let end = 7 + Asked::new(&request).floats();
        request[end..23].fill(0);
        assert_eq!(line_of(&request, Whose::Ours), line, "floats beyond the count");
        if request[2] == 0 {
            request[23] = 0;
            assert_eq!(line_of(&request, Whose::Ours), line, "the fill of nothing");
        }
    }
}
