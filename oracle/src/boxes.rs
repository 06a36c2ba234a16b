//! Change request W6, whether a trace is on a page at all: its refusals in order, then the boxes, each by a pass over
//! the edges below it, and the search, along the boxes as they lie, past those below a box that is shut. No half is
//! asked for its box and nothing calls itself, so that no way is shared with ours. The crate has neither function; what
//! is its own here is whether an edge is kept.

use crate::clip::{admit_window, admitted, clip_edge};
use crate::finite::Floats;
use crate::number::{Answer, Number, BAD_TRACE, BUFFER_TOO_SHORT, DONE, MISSED};
use crate::r1::interval::Interval;
use crate::r2::{point::Point, rect::Rect};
use crate::trace::SAMPLES;
use crate::whose::Whose;
use std::ops::Range;

/// Floats of a box: low x, low y, high x, high y and the mark.
pub const BOX: usize = 5;

/// Of edges none of which is live.
const NO_BOX: [f64; BOX] = [1.0, 1.0, 0.0, 0.0, 0.0];

/// Writes the boxes and gives back how many floats they have. With a number instead, the floats are as they were.
pub fn build_pages(samples: &[f64], boxes: &mut [f64]) -> Answer<usize> {
    let samples = trace_of(samples)?;
    let ranges = ranges_of(&samples, boxes)?;
    for (range, place) in ranges.iter().zip(boxes.as_chunks_mut().0) {
        *place = box_of(&samples, range.clone());
    }
    Ok(BOX * ranges.len())
}

/// The number, the edge and how many boxes were opened: beside a refusal both are 0, and no edge is kept with 1.
pub fn first_kept(whose: Whose, samples: &[f64], window: &Rect, boxes: &[f64]) -> (Number, usize, usize) {
    match found(whose, samples, window, boxes) {
        Ok((Some(edge), opened)) => (DONE, edge, opened),
        Ok((None, opened)) => (MISSED, 0, opened),
        Err(number) => (number, 0, 0),
    }
}

fn found(whose: Whose, samples: &[f64], window: &Rect, boxes: &[f64]) -> Answer<(Option<usize>, usize)> {
    let samples = trace_of(samples)?;
    admit_window(window)?;
    let ranges = ranges_of(&samples, boxes)?;
    Ok(search(&ranges, boxes, window, |edge| is_kept(whose, &samples, window, edge)))
}

/// The same edge by a scan of all, as `cut_trace_with_touches` keeps them; none where something is refused, too.
pub fn scan(whose: Whose, samples: &[f64], window: &Rect) -> Option<usize> {
    let samples = trace_of(samples).ok()?;
    (0..edges_of(&samples)).find(|edge| is_kept(whose, &samples, window, *edge))
}

fn is_kept(whose: Whose, samples: &[Point], window: &Rect, edge: usize) -> bool {
    clip_edge(whose, samples[edge], samples[edge + 1], window.clone()).is_ok()
}

// ---- what is refused

fn trace_of(samples: &[f64]) -> Answer<Vec<Point>> {
    let (samples, odd) = samples.as_chunks();
    if !odd.is_empty() || samples.len() > SAMPLES {
        return Err(BAD_TRACE);
    }
    Ok(samples.iter().map(|[x, y]| Point { x: *x, y: *y }).collect())
}

fn edges_of(samples: &[Point]) -> usize {
    samples.len().saturating_sub(1)
}

fn ranges_of(samples: &[Point], boxes: &[f64]) -> Answer<Vec<Range<usize>>> {
    let ranges = ranges(edges_of(samples));
    if boxes.len() < BOX * ranges.len() {
        return Err(BUFFER_TOO_SHORT);
    }
    Ok(ranges)
}

// ---- the boxes

/// The edges below each box, in the order of the boxes: those of all edges, then of the first half, then of the second.
pub fn ranges(edges: usize) -> Vec<Range<usize>> {
    let (mut ranges, mut waiting) = (Vec::new(), Vec::from_iter((edges > 0).then_some(0..edges)));
    while let Some(range) = waiting.pop() {
        if range.len() > 1 {
            let middle = range.start + range.len().div_ceil(2);
            waiting.extend([middle..range.end, range.start..middle]);
        }
        ranges.push(range);
    }
    ranges
}

/// Of two ends that compare equal the earlier sample's stands.
pub fn box_of(samples: &[Point], edges: Range<usize>) -> [f64; BOX] {
    let live = edges.filter(|edge| samples[*edge].all(admitted) && samples[*edge + 1].all(admitted));
    let mut sides: Option<[f64; 4]> = None;
    for Point { x, y } in live.flat_map(|edge| [samples[edge], samples[edge + 1]]) {
        let [low_x, low_y, high_x, high_y] = sides.get_or_insert([x, y, x, y]);
        for (low, high, float) in [(low_x, high_x, x), (low_y, high_y, y)] {
            if float < *low {
                *low = float;
            }
            if float > *high {
                *high = float;
            }
        }
    }
    sides.map_or(NO_BOX, |[low_x, low_y, high_x, high_y]| [low_x, low_y, high_x, high_y, 1.0])
}

// ---- the search

/// The first edge that is kept and whose box no shut one is above, and how many boxes were looked at.
fn search(
    ranges: &[Range<usize>],
    boxes: &[f64],
    window: &Rect,
    is_kept: impl Fn(usize) -> bool,
) -> (Option<usize>, usize) {
    let boxes = boxes.as_chunks().0;
    let (mut place, mut opened) = (0, 0);
    while place < ranges.len() {
        let (edges, open) = (&ranges[place], is_open(&boxes[place], window));
        opened += 1;
        if open && edges.len() == 1 && is_kept(edges.start) {
            return (Some(edges.start), opened);
        }
        // Those below it are as many as it has edges, less one, and as many again.
        place += if open { 1 } else { 2 * edges.len() - 1 };
    }
    (None, opened)
}

/// It has its mark and shares a point with the window. With a NaN it shares none.
pub fn is_open(&[low_x, low_y, high_x, high_y, mark]: &[f64; BOX], window: &Rect) -> bool {
    mark == 1.0 && shares(low_x, high_x, window.x) && shares(low_y, high_y, window.y)
}

fn shares(low: f64, high: f64, sides: Interval) -> bool {
    low <= high && low <= sides.hi && sides.lo <= high
}

#[cfg(test)]
mod tests {
    use super::*;
    use crate::answers::{line_of, request, FLOATS};
    use crate::clip::LIMIT;
    use crate::number::BAD_WINDOW;
    use crate::random::Random;
    use crate::trace::{cut_trace, Touches};
    use crate::walk::RECORD;
    use crate::words::Arguments;

    const NAN: f64 = f64::NAN;
    /// Low corner, high corner.
    const WINDOW: [f64; 4] = [1.0, 0.0, 3.0, 2.0];
    const TURNED: [f64; 4] = [3.0, 0.0, 1.0, 2.0];
    /// Three edges: beside the window, up to it, through it.
    const TRACE: [f64; 8] = [-4.0, 1.0, -2.0, 1.0, 0.0, 5.0, 4.0, 1.0];
    /// All three, the first two, the first, the second, the third.
    const BOXES: [[f64; BOX]; 5] = [
        [-4.0, 1.0, 4.0, 5.0, 1.0],
        [-4.0, 1.0, 0.0, 5.0, 1.0],
        [-4.0, 1.0, -2.0, 1.0, 1.0],
        [-2.0, 1.0, 0.0, 5.0, 1.0],
        [0.0, 1.0, 4.0, 5.0, 1.0],
    ];
    const FILL: f64 = -7.5;

    fn rect(window: [f64; 4]) -> Rect {
        Arguments::new(&window.map(f64::to_bits)).take()
    }

    fn points(floats: &[f64]) -> Vec<Point> {
        floats.as_chunks().0.iter().map(|[x, y]| Point { x: *x, y: *y }).collect()
    }

    fn ask(operation: u64, count: u64, length: u64, window: [f64; 4], floats: &[f64], fill: f64) -> String {
        let mut words = [0; 6 + FLOATS + 1];
        words[..2].copy_from_slice(&[count, length]);
        for (word, float) in words[2..].iter_mut().zip(window.iter().chain(floats)) {
            *word = float.to_bits();
        }
        words[6 + FLOATS] = fill.to_bits();
        let request = request(operation, &words);
        let [line, ours] = [Whose::Crates, Whose::Ours].map(|whose| line_of(&request, whose));
        assert_eq!(line, ours);
        line
    }

    fn bits(floats: &[f64]) -> String {
        floats.iter().map(|float| format!(" {:016x}", float.to_bits())).collect()
    }

    fn built(number: u8, floats: usize, (kept, edge, opened): (u8, usize, usize), buffer: &[f64]) -> String {
        format!("{number} {floats:016x} {kept} {edge:016x} {opened:016x}{}\n", bits(buffer))
    }

    fn searched((number, edge, opened): (u8, usize, usize)) -> String {
        format!("{number} {edge:016x} {opened:016x}\n")
    }

    #[test]
    fn boxes_and_the_search() {
        let boxes = BOXES.as_flattened();
        // The first half misses the window: the boxes of all, of that half and of the third edge are looked at.
        assert_eq!(ask(64, 8, 25, WINDOW, &TRACE, FILL), built(0, 25, (0, 2, 3), boxes));
        let longer = [boxes, &[FILL; 3]].concat();
        assert_eq!(ask(64, 8, 28, WINDOW, &TRACE, FILL), built(0, 25, (0, 2, 3), &longer), "floats past the boxes");
        let far = [10.0, 0.0, 11.0, 2.0];
        assert_eq!(ask(64, 8, 25, far, &TRACE, FILL), built(0, 25, (1, 0, 1), boxes), "the outermost box misses");
        let corner = [0.5, 1.0, 1.0, 1.5];
        assert_eq!(ask(64, 8, 25, corner, &TRACE, FILL), built(0, 25, (1, 0, 3), boxes), "under the third edge");
        let touched = [-2.0, -1.0, -1.0, 1.0];
        assert_eq!(ask(64, 8, 25, touched, &TRACE, FILL), built(0, 25, (0, 0, 3), boxes), "a touch is kept");
    }

    #[test]
    fn no_edge() {
        for count in [0, 2] {
            assert_eq!(ask(64, count, 0, WINDOW, &TRACE, FILL), built(0, 0, (1, 0, 0), &[]), "{count} floats");
            let buffer = [FILL; 4];
            assert_eq!(ask(64, count, 4, WINDOW, &TRACE, FILL), built(0, 0, (1, 0, 0), &buffer), "{count} floats");
            assert_eq!(ask(64, count, 4, TURNED, &TRACE, FILL), built(0, 0, (3, 0, 0), &buffer), "{count} floats");
            assert_eq!(ask(65, count, 4, WINDOW, &TRACE, 1.0), searched((1, 0, 0)), "{count} floats");
        }
    }

    #[test]
    fn refusals_in_order() {
        for (built_number, kept_number, count, length, window) in [
            (10, 10, 7, 24, TURNED),
            (10, 10, 1, 75, WINDOW),
            (8, 3, 8, 24, TURNED),
            (8, 8, 8, 24, WINDOW),
            (8, 8, 4, 0, WINDOW),
            (8, 3, 4, 4, [1.0, NAN, 3.0, 2.0]),
        ] {
            let buffer = vec![FILL; length];
            let line = built(built_number, 0, (kept_number, 0, 0), &buffer);
            assert_eq!(ask(64, count, length as u64, window, &TRACE, FILL), line, "{count} floats, {length} lent");
            let line = searched((kept_number, 0, 0));
            assert_eq!(ask(65, count, length as u64, window, &TRACE, 1.0), line, "{count} floats, {length} lent");
        }
        let line = built(0, 25, (3, 0, 0), BOXES.as_flattened());
        assert_eq!(ask(64, 8, 25, TURNED, &TRACE, FILL), line, "built, and a bad window");
    }

    /// An edge of a dead sample is below no box.
    #[test]
    fn dead_samples() {
        for dead in [NAN, f64::INFINITY, f64::NEG_INFINITY, LIMIT.next_up(), -f64::MAX] {
            for sample in [[dead, 1.0], [1.0, dead]] {
                let trace = [&[-9.0, 9.0], &sample[..], &[2.0, 1.0, 2.0, -1.0]].concat();
                let [live, none] = [[2.0, -1.0, 2.0, 1.0, 1.0], [1.0, 1.0, 0.0, 0.0, 0.0]];
                let boxes = [live, none, none, none, live];
                let line = built(0, 25, (0, 2, 3), boxes.as_flattened());
                assert_eq!(ask(64, 8, 25, WINDOW, &trace, FILL), line, "{sample:?}");
            }
        }
        let line = built(0, 15, (1, 0, 1), [[1.0, 1.0, 0.0, 0.0, 0.0]; 3].as_flattened());
        assert_eq!(ask(64, 6, 15, [-LIMIT, -LIMIT, LIMIT, LIMIT], &[NAN; 6], FILL), line, "no live edge");
    }

    #[test]
    fn the_limit() {
        let boxes = [[-LIMIT, -LIMIT, LIMIT, LIMIT, 1.0]; 3];
        let trace = [-LIMIT, LIMIT, LIMIT, -LIMIT, -LIMIT, LIMIT];
        let line = built(0, 15, (0, 0, 2), boxes.as_flattened());
        assert_eq!(ask(64, 6, 15, [-LIMIT, -LIMIT, LIMIT, LIMIT], &trace, FILL), line);
        for side in 0..4 {
            let mut window = [-LIMIT, -LIMIT, LIMIT, LIMIT];
            window[side] = LIMIT.next_up().copysign(window[side]);
            let line = built(0, 15, (3, 0, 0), boxes.as_flattened());
            assert_eq!(ask(64, 6, 15, window, &trace, FILL), line, "side {side}");
        }
    }

    /// Of two zeros the earlier sample's, on either end and whichever half it is in.
    #[test]
    fn zeros_of_both_signs() {
        for zero in [0.0, -0.0] {
            let line = |boxes: &[[f64; BOX]]| built(0, BOX * boxes.len(), (1, 0, 1), boxes.as_flattened());
            let far = [5.0, 5.0, 6.0, 6.0];
            let still = [zero, zero, zero, zero, 1.0];
            assert_eq!(ask(64, 4, 5, far, &[zero, zero, -zero, -zero], FILL), line(&[still]));
            let boxes = [still, still, [-zero, -zero, -zero, -zero, 1.0]];
            assert_eq!(ask(64, 6, 15, far, &[zero, zero, -zero, -zero, zero, zero], FILL), line(&boxes));
            let [first, second] = [[-1.0, zero, -zero, 1.0, 1.0], [-zero, -zero, -zero, 1.0, 1.0]];
            let trace = [-1.0, zero, -zero, 1.0, zero, -zero];
            assert_eq!(ask(64, 6, 15, far, &trace, FILL), line(&[first, first, second]));
        }
    }

    /// The fill is every box's: a point with a mark, or one that is shut.
    #[test]
    fn any_other_buffer() {
        let all = [0.0, 0.0, 3.0, 2.0];
        assert_eq!(ask(65, 8, 25, all, &TRACE, 1.0), searched((0, 2, 5)), "every box opens");
        let none = [0.5, 0.5, 1.0, 1.0];
        assert_eq!(ask(65, 8, 25, none, &TRACE, 1.0), searched((1, 0, 5)), "every box opens, and no edge is kept");
        assert_eq!(ask(65, 8, 25, [1.5, 0.0, 3.0, 2.0], &TRACE, 1.0), searched((1, 0, 1)), "a kept edge is not found");
        for fill in [0.0, -0.0, -1.0, 2.0, NAN, f64::INFINITY, 1f64.next_up(), 1f64.next_down()] {
            let widest = [-LIMIT, -LIMIT, LIMIT, LIMIT];
            assert_eq!(ask(65, 8, 25, widest, &TRACE, fill), searched((1, 0, 1)), "no mark: {fill}");
        }
    }

    #[test]
    fn a_nan_shuts() {
        let window = rect([-LIMIT, -LIMIT, LIMIT, LIMIT]);
        assert!(is_open(&[0.0, 0.0, 1.0, 1.0, 1.0], &window));
        for place in 0..BOX {
            let mut floats = [0.0, 0.0, 1.0, 1.0, 1.0];
            floats[place] = NAN;
            assert!(!is_open(&floats, &window), "float {place}");
        }
        assert!(!is_open(&[1.0, 0.0, 0.0, 1.0, 1.0], &window), "low beyond high");
        assert!(!is_open(&[0.0, 1.0, 1.0, 0.0, 1.0], &window), "low beyond high");
    }

    #[test]
    fn sides_touch() {
        let window = rect(WINDOW);
        for (floats, open) in [
            ([-1.0, -1.0, 1.0, 0.0, 1.0], true),
            ([3.0, 2.0, 9.0, 9.0, 1.0], true),
            ([-1.0, -1.0, 1f64.next_down(), 0.0, 1.0], false),
            ([-1.0, -1.0, 1.0, 0f64.next_down(), 1.0], false),
            ([3f64.next_up(), 2.0, 9.0, 9.0, 1.0], false),
            ([3.0, 2f64.next_up(), 9.0, 9.0, 1.0], false),
        ] {
            assert_eq!(is_open(&floats, &window), open, "{floats:?}");
        }
    }

    #[test]
    fn the_most() {
        for count in [16, 17, 18, 256, u64::MAX] {
            for length in [75, 76, 1 << 32, u64::MAX] {
                let still = [[1.0, 1.0, 1.0, 1.0, 1.0]; 13];
                let buffer = [still.as_flattened(), &[FILL; 10]].concat();
                let line = built(0, 65, (0, 0, 4), &buffer);
                assert_eq!(ask(64, count, length, WINDOW, &[1.0; FLOATS], FILL), line, "{count} and {length}");
            }
        }
    }

    #[test]
    fn the_longest_trace() {
        let room = BOX * (2 * (SAMPLES - 1) - 1);
        let mut boxes = vec![FILL; room + 10];
        assert_eq!(build_pages(&vec![1.0; 2 * SAMPLES], &mut boxes[..room - 1]), Err(BUFFER_TOO_SHORT));
        assert_eq!(build_pages(&vec![1.0; 2 * SAMPLES - 1], &mut boxes), Err(BAD_TRACE));
        assert_eq!(build_pages(&vec![1.0; 2 * SAMPLES + 2], &mut boxes), Err(BAD_TRACE));
        assert!(boxes.iter().all(|float| *float == FILL));
        assert_eq!(build_pages(&vec![1.0; 2 * SAMPLES], &mut boxes[..room]), Ok(room));
        assert!(boxes[..room].iter().all(|float| *float == 1.0));
        let kept = |floats: usize, window| first_kept(Whose::Ours, &vec![1.0; floats], &rect(window), &boxes[..room]);
        assert_eq!(kept(2 * SAMPLES, WINDOW), (DONE, 0, 13), "twelve levels above an edge");
        assert_eq!(kept(2 * SAMPLES + 2, TURNED), (BAD_TRACE, 0, 0));
        assert_eq!(kept(2 * SAMPLES, TURNED), (BAD_WINDOW, 0, 0));
    }

    /// The rules of places: of n edges at place i the halves are at i + 1 and at i and twice the longer half.
    #[test]
    fn places() {
        for edges in 1..200 {
            let ranges = ranges(edges);
            assert_eq!((ranges.len(), ranges[0].clone()), (2 * edges - 1, 0..edges));
            for (place, range) in ranges.iter().enumerate().filter(|(_, range)| range.len() > 1) {
                let longer = range.len() - range.len() / 2;
                let middle = range.start + longer;
                assert_eq!(ranges[place + 1], range.start..middle, "{edges} edges, place {place}");
                assert_eq!(ranges[place + 2 * longer], middle..range.end, "{edges} edges, place {place}");
            }
        }
        assert!(ranges(0).is_empty());
    }

    /// The rules as W6 writes them, by halves: the box of both, and the search of one and then of the other.
    struct Halves<'a> {
        samples: &'a [Point],
        window: &'a Rect,
        boxes: Vec<[f64; BOX]>,
    }

    impl Halves<'_> {
        fn build(&mut self, edges: Range<usize>) -> [f64; BOX] {
            let place = self.boxes.len();
            self.boxes.push(NO_BOX);
            let longer = edges.len() - edges.len() / 2;
            let middle = edges.start + longer;
            self.boxes[place] = if edges.len() == 1 {
                box_of(self.samples, edges)
            } else {
                let [one, other] = [edges.start..middle, middle..edges.end].map(|half| self.build(half));
                match (one[4] == 1.0, other[4] == 1.0) {
                    (true, true) => [
                        if other[0] < one[0] { other[0] } else { one[0] },
                        if other[1] < one[1] { other[1] } else { one[1] },
                        if one[2] < other[2] { other[2] } else { one[2] },
                        if one[3] < other[3] { other[3] } else { one[3] },
                        1.0,
                    ],
                    (true, false) => one,
                    _ => other,
                }
            };
            self.boxes[place]
        }

        fn find(&self, place: usize, edges: Range<usize>) -> (Option<usize>, usize) {
            if !is_open(&self.boxes[place], self.window) {
                return (None, 1);
            }
            if edges.len() == 1 {
                let kept = is_kept(Whose::Ours, self.samples, self.window, edges.start);
                return (kept.then_some(edges.start), 1);
            }
            let longer = edges.len() - edges.len() / 2;
            let middle = edges.start + longer;
            match self.find(place + 1, edges.start..middle) {
                (None, opened) => {
                    let (edge, more) = self.find(place + 2 * longer, middle..edges.end);
                    (edge, opened + more + 1)
                }
                (edge, opened) => (edge, opened + 1),
            }
        }
    }

    /// Steps of whole numbers, some of them dead, each zero of either sign.
    fn walked(random: &mut Random, samples: usize) -> Vec<f64> {
        let (mut at, mut floats) = ([0.0; 2], Vec::new());
        for _ in 0..samples {
            at = at.map(|float| float + random.between(-2, 2) as f64);
            let dead = random.once_in(5);
            for float in at {
                let zero = random.pick(&[0.0, -0.0]);
                let float = if float == 0.0 { zero } else { float };
                floats.push(if dead { random.pick(&[NAN, LIMIT.next_up(), float]) } else { float });
            }
        }
        floats
    }

    /// The first kept edge by the records of operation 62.
    fn first_record(floats: &[f64], window: &Rect) -> Option<usize> {
        let edges = floats.len() / 2 - 1;
        let mut records = vec![0; RECORD * edges];
        let counts = cut_trace(Whose::Ours, Touches::Kept, floats, window, 0, &mut records);
        counts.expect("there is room");
        records.as_chunks::<RECORD>().0.iter().position(|record| record[0] == DONE)
    }

    /// Long traces and small windows: the boxes and the search by halves, the edge by a scan and by records.
    #[test]
    fn by_halves() {
        let mut random = Random::new(1);
        let (mut opened_once, mut deeper, mut later) = (0, 0, 0);
        for samples in [2, 3, 4, 5, 7, 8, 9, 33, 100, 257, 1000].repeat(40) {
            let floats = walked(&mut random, samples);
            let [x, y] = [0; 2].map(|_| random.between(-9, 9) as f64);
            let window = rect([x, y, x + random.below(6) as f64, y + random.below(6) as f64]);
            let points = points(&floats);
            let mut halves = Halves { samples: &points, window: &window, boxes: Vec::new() };
            halves.build(0..samples - 1);
            let mut boxes = vec![FILL; BOX * (2 * samples - 3)];
            assert_eq!(build_pages(&floats, &mut boxes), Ok(boxes.len()));
            assert_eq!(bits(&boxes), bits(halves.boxes.as_flattened()), "{samples} samples");
            let (edge, opened) = halves.find(0, 0..samples - 1);
            let number = if edge.is_some() { DONE } else { MISSED };
            let found = first_kept(Whose::Ours, &floats, &window, &boxes);
            assert_eq!(found, (number, edge.unwrap_or(0), opened), "{samples} samples");
            assert_eq!(scan(Whose::Ours, &floats, &window), edge, "{samples} samples");
            assert_eq!(first_record(&floats, &window), edge, "{samples} samples");
            assert!(opened <= 2 * samples - 3);
            opened_once += u32::from(opened == 1 && samples > 2);
            deeper += u32::from(opened > 1 && edge.is_none());
            later += u32::from(edge.is_some_and(|edge| edge > 0));
        }
        assert!(opened_once > 30 && deeper > 30 && later > 30, "{opened_once}, {deeper}, {later}");
    }
}
