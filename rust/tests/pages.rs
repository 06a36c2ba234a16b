//! Is the trace on this page at all? The boxes of a trace, the search down them, and what is refused.

use umblacet::pages::{build_pages, first_kept, floats_for, Search};
use umblacet::r1::interval::Interval;
use umblacet::r2::rect::Rect;
use umblacet::trace::{cut_trace, cut_trace_with_touches, Counts};
use umblacet::Refusal;

const NAN: f64 = f64::NAN;
const BOX: usize = 5;
const RECORD: usize = 40;
const NOTHING: [f64; BOX] = [1.0, 1.0, 0.0, 0.0, 0.0];

const fn window(x: [f64; 2], y: [f64; 2]) -> Rect {
    Rect { x: Interval::new(x[0], x[1]), y: Interval::new(y[0], y[1]) }
}

const TURNED: Rect = window([0.0, 1.0], [1.0, 0.0]);

/// A trace and its boxes.
struct Built<'a> {
    samples: &'a [f64],
    boxes: Vec<f64>,
}

impl Built<'_> {
    fn of(samples: &[f64]) -> Built<'_> {
        let mut boxes = vec![NAN; floats_for(samples)];
        assert_eq!(build_pages(samples, &mut boxes), Ok(boxes.len()));
        Built { samples, boxes }
    }

    fn first_kept(&self, window: Rect) -> (Option<usize>, usize) {
        let Search { edge, opened } = first_kept(self.samples, window, &self.boxes).expect("nothing is refused");
        (edge, opened)
    }
}

fn bits(floats: &[f64]) -> Vec<u64> {
    floats.iter().map(|float| float.to_bits()).collect()
}

// ---- boxes

#[test]
fn boxes_in_their_order() {
    let samples = [0.0, 3.0, 1.0, 5.0, 2.0, 4.0, 3.0, 9.0, 4.0, -1.0, 5.0, 0.0];
    let due = [
        [0.0, -1.0, 5.0, 9.0, 1.0],
        [0.0, 3.0, 3.0, 9.0, 1.0],
        [0.0, 3.0, 2.0, 5.0, 1.0],
        [0.0, 3.0, 1.0, 5.0, 1.0],
        [1.0, 4.0, 2.0, 5.0, 1.0],
        [2.0, 4.0, 3.0, 9.0, 1.0],
        [3.0, -1.0, 5.0, 9.0, 1.0],
        [3.0, -1.0, 4.0, 9.0, 1.0],
        [4.0, -1.0, 5.0, 0.0, 1.0],
    ];
    assert_eq!(Built::of(&samples).boxes, due.concat(), "five edges: three and two");
}

#[test]
fn dead_edges_have_no_box() {
    for dead in [NAN, f64::INFINITY, f64::NEG_INFINITY, 2f64.powi(500).next_up(), f64::MIN] {
        let samples = [1.0, 2.0, 3.0, dead, 5.0, 6.0, 7.0, 8.0];
        let live = [5.0, 6.0, 7.0, 8.0, 1.0];
        assert_eq!(Built::of(&samples).boxes, [live, NOTHING, NOTHING, NOTHING, live].concat());
        assert_eq!(Built::of(&samples[..6]).boxes, [NOTHING; 3].concat());
    }
    let limit = 2f64.powi(500);
    assert_eq!(Built::of(&[limit, 0.0, -limit, 1.0]).boxes, [-limit, 0.0, limit, 1.0, 1.0]);
}

/// Both zeros compare equal, and it is the earliest sample's that stands.
#[test]
fn the_earliest_of_equal_ends() {
    let samples = [-0.0, 0.0, 0.0, -0.0, 0.0, 0.0];
    assert_eq!(bits(&Built::of(&samples).boxes[..4]), bits(&[-0.0, 0.0, -0.0, 0.0]));
    assert_eq!(bits(&Built::of(&samples[2..]).boxes[..4]), bits(&[0.0, -0.0, 0.0, -0.0]));
}

#[test]
fn floats_after_the_boxes_stay() {
    let samples = [0.0, 3.0, 1.0, 5.0, 2.0, 4.0];
    for fills in [0.5, f64::from_bits(0x7ff4_0000_0000_0001), -NAN] {
        let mut boxes = vec![fills; 19];
        assert_eq!(build_pages(&samples, &mut boxes), Ok(15));
        assert_eq!(boxes[..15], Built::of(&samples).boxes);
        assert_eq!(bits(&boxes[15..]), bits(&[fills; 4]));
    }
}

#[test]
fn no_edge() {
    let page = window([0.0, 9.0], [0.0, 9.0]);
    for samples in [&[][..], &[1.0, 1.0], &[NAN, NAN]] {
        assert_eq!(floats_for(samples), 0);
        assert_eq!(build_pages(samples, &mut []), Ok(0));
        assert_eq!(first_kept(samples, page, &[]), Ok(Search { edge: None, opened: 0 }));
    }
}

// ---- the search

/// Eight edges, each of its own page, up and down.
fn stairs() -> Vec<f64> {
    (0..9).flat_map(|i| [f64::from(i), f64::from(i % 2)]).collect()
}

#[test]
fn the_lowest_numbered() {
    let samples = stairs();
    let built = Built::of(&samples);
    let page = |from, to| window([from, to], [0.0, 1.0]);
    assert_eq!(built.first_kept(page(0.0, 9.0)), (Some(0), 4));
    assert_eq!(built.first_kept(page(7.5, 9.0)), (Some(7), 7), "the half that has it, and the one before");
    assert_eq!(built.first_kept(page(4.0, 5.0)), (Some(3), 6), "a touch is kept");
    assert_eq!(built.first_kept(page(9.0, 10.0)), (None, 1), "past the box of all");
    assert_eq!(built.first_kept(window([2.6, 2.7], [0.8, 0.9])), (None, 7), "in boxes, and on no edge");
}

/// A page that is found may draw nothing.
#[test]
fn a_touch_alone() {
    let samples = [0.0, 0.0, 1.0, 1.0];
    let built = Built::of(&samples);
    let corner = window([1.0, 2.0], [1.0, 2.0]);
    assert_eq!(built.first_kept(corner), (Some(0), 1));
    let missed = Counts { missed: 1, edges: 1, ..Counts::default() };
    assert_eq!(cut_trace(&samples, corner, 0, &mut [0; RECORD]), Ok(missed));
}

/// Whatever floats are lent, the same search.
#[test]
fn other_boxes() {
    let samples = stairs();
    let page = window([0.0, 9.0], [0.0, 1.0]);
    let right = Built::of(&samples).boxes;
    let with = |place: usize, float: f64| {
        let mut boxes = right.clone();
        boxes[place] = float;
        Built { samples: &samples, boxes }.first_kept(page)
    };
    for place in 0..BOX {
        assert_eq!(with(place, NAN), (None, 1), "a NaN in the box of all");
        assert_eq!(with(BOX + place, NAN), (Some(4), 5), "a NaN in that of the first half");
    }
    for mark in [0.0, -0.0, 2.0, -1.0, 1f64.next_up(), 1f64.next_down(), f64::INFINITY] {
        assert_eq!(with(4, mark), (None, 1), "{mark} is no mark");
    }
    assert_eq!(with(0, 9.5), (None, 1), "low above high");
    assert_eq!(with(0, -2f64.powi(600)), (Some(0), 4), "no float of a box is refused");
    assert_eq!(first_kept(&samples, page, &vec![0.0; 75]), Ok(Search { edge: None, opened: 1 }));
}

// ---- refusals

/// The buffer stays as it was, beside any refusal.
#[test]
fn refusals_in_order() {
    let open = window([0.0, f64::INFINITY], [0.0, 1.0]);
    let beyond = window([0.0, 2f64.powi(500).next_up()], [0.0, 1.0]);
    let page = window([0.0, 1.0], [0.0, 1.0]);
    let long = vec![0.5; 2 * 4097];
    for (refusal, floats, to, room) in [
        (Refusal::BadTrace, 3, TURNED, 0),
        (Refusal::BadTrace, 1, page, 0),
        (Refusal::BadTrace, 8193, page, 5 * 8191),
        (Refusal::BadTrace, 8194, page, 5 * 8191),
        (Refusal::BadWindow, 0, TURNED, 0),
        (Refusal::BadWindow, 8, TURNED, 24),
        (Refusal::BadWindow, 8, open, 25),
        (Refusal::BadWindow, 8, beyond, 25),
        (Refusal::BadWindow, 8, window([NAN, 1.0], [0.0, 1.0]), 25),
        (Refusal::ShortBuffer, 8, page, 24),
        (Refusal::ShortBuffer, 8, page, 0),
        (Refusal::ShortBuffer, 8192, page, 5 * 8189 - 1),
    ] {
        let mut boxes = vec![NAN; room];
        assert_eq!(first_kept(&long[..floats], to, &boxes), Err(refusal), "{floats} floats, {to:?}, {room} lent");
        if refusal != Refusal::BadWindow {
            assert_eq!(build_pages(&long[..floats], &mut boxes), Err(refusal), "{floats} floats, {room} lent");
            assert_eq!(bits(&boxes), bits(&vec![NAN; room]));
        }
    }
    let built = Built::of(&long[..8192]);
    assert_eq!((built.boxes.len(), built.first_kept(page)), (40945, (Some(0), 13)), "the longest");
    let limit = 2f64.powi(500);
    assert_eq!(built.first_kept(window([-limit, limit], [-limit, limit])), (Some(0), 13));
}

// ---- random traces: what is found, beside what neither is found nor built by halves

/// splitmix64 (Steele, Lea and Flood, 2014)
struct Random(u64);

impl Random {
    fn word(&mut self) -> u64 {
        self.0 = self.0.wrapping_add(0x9e37_79b9_7f4a_7c15);
        let mixed = (self.0 ^ self.0 >> 30).wrapping_mul(0xbf58_476d_1ce4_e5b9);
        let mixed = (mixed ^ mixed >> 27).wrapping_mul(0x94d0_49bb_1331_11eb);
        mixed ^ mixed >> 31
    }

    fn below(&mut self, limit: u64) -> u64 {
        self.word() % limit
    }

    /// From 0 to 1.
    fn part(&mut self) -> f64 {
        (self.word() >> 11) as f64 / (1u64 << 53) as f64
    }

    /// Quarters from -1 to 1, zeros of both signs among them.
    fn quarter(&mut self) -> f64 {
        [self.below(9) as f64 / 4.0 - 1.0, -0.0][usize::from(self.below(8) == 0)]
    }

    fn dead(&mut self) -> f64 {
        let limit = 2f64.powi(500).next_up();
        [NAN, f64::INFINITY, f64::NEG_INFINITY, limit, -limit, f64::MAX][self.below(6) as usize]
    }

    /// Most short, some long.
    fn count(&mut self) -> usize {
        (match self.below(32) {
            0 => self.below(4097),
            1..8 => self.below(300),
            _ => self.below(40),
        }) as usize
    }

    /// Quarters all over, a chart whose x grows, or floats all over; dead samples here and there or in long runs.
    fn samples(&mut self, count: usize) -> Vec<f64> {
        let (kind, dead) = (self.below(3), self.below(4));
        let (mut x, mut y, mut dying) = (0.0, 0.0, false);
        let mut samples = Vec::new();
        for _ in 0..count {
            (x, y) = match kind {
                0 => (self.quarter(), self.quarter()),
                1 => (x + self.part(), y + self.part() - 0.5),
                _ => (4.0 * self.part() - 2.0, 4.0 * self.part() - 2.0),
            };
            dying = match dead {
                0 => false,
                1 => self.below(16) == 0,
                _ => dying != (self.below(10) == 0),
            };
            let place = samples.len() + self.below(2) as usize;
            samples.extend([x, y]);
            if dying {
                samples[place] = self.dead();
            }
        }
        samples
    }

    /// A page about as large as an edge, or larger or smaller, near a sample or far from it.
    fn window(&mut self, samples: &[f64]) -> Rect {
        let near = match self.below(samples.len() as u64 / 2 + 1) as usize {
            0 => [0.0, 0.0],
            place => [samples[2 * place - 2], samples[2 * place - 1]],
        };
        let apart = [0.0, 0.25, 2.0, 8.0][self.below(4) as usize];
        let [x, y] = near.map(|at| {
            let start = if at.abs() <= 2f64.powi(500) { at } else { 0.0 };
            let lo = start + apart * self.quarter();
            [lo, lo + [0.0, 0.25, self.part(), 4.0 * self.part()][self.below(4) as usize]]
        });
        window(x, y)
    }
}

/// The edges below a box, and the place of the box that it is a half of.
struct Below {
    first: usize,
    edges: usize,
    above: Option<usize>,
}

/// By going down from the box of all to the asked place.
fn below(place: usize, all: usize) -> Below {
    let (mut at, mut found) = (0, Below { first: 0, edges: all, above: None });
    while at < place {
        found.above = Some(at);
        let longer = found.edges.div_ceil(2);
        if place < at + 2 * longer {
            at += 1;
            found.edges = longer;
        } else {
            at += 2 * longer;
            found.first += longer;
            found.edges -= longer;
        }
    }
    found
}

/// By a scan of the samples of its live edges.
fn box_due(samples: &[f64], of: &Below) -> [f64; BOX] {
    let edges = samples[2 * of.first..].windows(4).step_by(2).take(of.edges);
    let live = edges.filter(|edge| edge.iter().all(|float| float.abs() <= 2f64.powi(500)));
    let mut due: Option<[f64; BOX]> = None;
    for sample in live.flat_map(|edge| edge.chunks(2)) {
        let (x, y) = (sample[0], sample[1]);
        let found = due.get_or_insert([x, y, x, y, 1.0]);
        for (axis, float) in [x, y].into_iter().enumerate() {
            if float < found[axis] {
                found[axis] = float;
            }
            if float > found[axis + 2] {
                found[axis + 2] = float;
            }
        }
    }
    due.unwrap_or(NOTHING)
}

fn opens(found: &[f64], window: Rect) -> bool {
    let share = |side: Interval, lo: f64, hi: f64| lo.max(side.lo) <= hi.min(side.hi);
    let nan = found.iter().any(|float| float.is_nan());
    !nan && found[4] == 1.0 && share(window.x, found[0], found[2]) && share(window.y, found[1], found[3])
}

/// A box is opened where all that it is below open, unless it comes after the edge that is found.
fn opened_due(boxes: &[f64], table: &[Below], window: Rect, edge: Option<usize>) -> usize {
    let mut open = Vec::with_capacity(table.len());
    let mut opened = 0;
    for (found, of) in boxes.chunks(BOX).zip(table) {
        let reached = of.above.is_none_or(|above| open[above]);
        opened += usize::from(reached && edge.is_none_or(|edge| of.first <= edge));
        open.push(reached && opens(found, window));
    }
    opened
}

fn setting(name: &str, usual: u64) -> u64 {
    std::env::var(name).map_or(usual, |text| text.parse().unwrap_or_else(|_| panic!("{name} is no number: {text}")))
}

/// PAGES_TRACES traces, the first the longest, PAGES_WINDOWS windows for each, the words drawn from PAGES_SEED on.
#[test]
fn random_traces() {
    let (traces, windows) = (setting("PAGES_TRACES", 120), setting("PAGES_WINDOWS", 100));
    let mut random = Random(setting("PAGES_SEED", 1));
    let (mut found, mut passed, mut most) = (0, 0, 0);
    for trace in 0..traces {
        let count = if trace == 0 { 4096 } else { random.count() };
        let samples = random.samples(count);
        let built = Built::of(&samples);
        let edges = (samples.len() / 2).saturating_sub(1);
        let table: Vec<Below> = (0..built.boxes.len() / BOX).map(|place| below(place, edges)).collect();
        for (place, of) in table.iter().enumerate() {
            let given = &built.boxes[BOX * place..][..BOX];
            assert_eq!(bits(given), bits(&box_due(&samples, of)), "trace {trace}, box {place}");
        }
        let mut records = vec![0; RECORD * edges];
        for page in 0..windows {
            let window = random.window(&samples);
            cut_trace_with_touches(&samples, window, 0, &mut records).expect("nothing is refused");
            let edge = records.chunks(RECORD).position(|record| record[0] == 0);
            let due = (edge, opened_due(&built.boxes, &table, window, edge));
            assert_eq!(built.first_kept(window), due, "trace {trace}, window {page}: {window:?}");
            found += u64::from(edge.is_some());
            passed += u64::from(due.1 == 1 && edge.is_none());
            most = most.max(due.1);
        }
    }
    let (asked, share) = (traces * windows, |part: u64| 100 * part / (traces * windows).max(1));
    println!("{asked} searches: {}% find an edge, {}% open one box, and the most {most}", share(found), share(passed));
    assert!(asked < 1000 || (15..85).contains(&share(found)) && share(passed) > 5 && most > 30, "of every kind");
}
