//! Change request W4, the longest clean stretch of a trace: its refusals in order, then every run of samples is tried.
//! The crate has no such function; what is its own here is whether the window holds a sample.
//! `oracle stretch`: the line that the program of that name has to write for a window and samples.

use crate::clip::{admit_window, admitted};
use crate::finite::Floats;
use crate::number::{Answer, BAD_TRACE, DONE};
use crate::r2::{point::Point, rect::Rect};
use crate::stream::words;
use crate::trace::{SAMPLES, SAMPLE_BYTES, WINDOW_BYTES};
use crate::words::Arguments;
use std::io::{self, Read, Write};

/// The first sample, 0 being the trace's own first, and the count of samples.
pub type Stretch = [usize; 2];

pub fn longest_clean(samples: &[f64], window: &Rect) -> Answer<Stretch> {
    let (samples, odd) = samples.as_chunks();
    if !odd.is_empty() || samples.len() > SAMPLES {
        return Err(BAD_TRACE);
    }
    admit_window(window)?;
    let clean: Vec<bool> = samples.iter().map(|[x, y]| is_clean(&Point { x: *x, y: *y }, window)).collect();
    Ok(longest(&clean))
}

/// Not dead, and in the window, its sides included.
pub fn is_clean(sample: &Point, window: &Rect) -> bool {
    sample.all(admitted) && window.contains_point(sample)
}

/// Of all runs the clean ones, of these the longest, of these the earliest. A run of no sample is clean, so that it is
/// the first such where no sample is clean.
fn longest(clean: &[bool]) -> Stretch {
    let spoiled = spoiled_before(clean);
    let [mut best_first, mut best_count] = [0, 0];
    for first in 0..=clean.len() {
        for count in 0..=clean.len() - first {
            let all_clean = spoiled[first] == spoiled[first + count];
            if all_clean && count > best_count {
                [best_first, best_count] = [first, count];
            }
        }
    }
    [best_first, best_count]
}

/// For each place, the end too, how many before it are not clean: a run has as many as its two ends differ by.
fn spoiled_before(clean: &[bool]) -> Vec<usize> {
    let mut spoiled = vec![0];
    for clean in clean {
        spoiled.push(spoiled[spoiled.len() - 1] + usize::from(!clean));
    }
    spoiled
}

pub fn run() -> io::Result<()> {
    let mut input = Vec::new();
    io::stdin().lock().read_to_end(&mut input)?;
    writeln!(io::stdout(), "{}", line_of(&input)?)
}

/// The number, the first sample and the count of samples. A torn last sample is left out.
pub fn line_of(input: &[u8]) -> io::Result<String> {
    let Some((window, samples)) = input.split_at_checked(WINDOW_BYTES) else {
        return Err(io::Error::other("the input ends inside the window"));
    };
    let window: Rect = Arguments::new(&words::<4>(window)).take();
    let samples = samples.as_chunks::<SAMPLE_BYTES>().0.as_flattened();
    let floats: Vec<f64> = samples.as_chunks().0.iter().map(|bytes| f64::from_le_bytes(*bytes)).collect();
    let (number, [first, count]) = match longest_clean(&floats, &window) {
        Ok(stretch) => (DONE, stretch),
        Err(number) => (number, [0, 0]),
    };
    Ok(format!("{number} {first} {count}"))
}

#[cfg(test)]
mod tests {
    use super::*;
    use crate::answers::{line_of as answered, request, FLOATS};
    use crate::clip::LIMIT;
    use crate::number::BAD_WINDOW;
    use crate::whose::Whose;

    const NAN: f64 = f64::NAN;
    /// Low corner, high corner.
    const WINDOW: [f64; 4] = [1.0, 0.0, 3.0, 2.0];
    const TURNED: [f64; 4] = [3.0, 0.0, 1.0, 2.0];
    const IN: [f64; 2] = [2.0, 1.0];
    const OUT: [f64; 2] = [4.0, 1.0];
    const DEAD: [f64; 2] = [2.0, NAN];

    fn rect(window: [f64; 4]) -> Rect {
        Arguments::new(&window.map(f64::to_bits)).take()
    }

    /// The crate's side and the port's are asked alike: no value here is the crate's to round.
    fn ask(count: u64, window: [f64; 4], samples: &[[f64; 2]]) -> String {
        let floats = window.iter().chain(samples.as_flattened()).map(|float| float.to_bits());
        let request = request(63, &[count].into_iter().chain(floats).collect::<Vec<_>>());
        let [line, ours] = [Whose::Crates, Whose::Ours].map(|whose| answered(&request, whose));
        assert_eq!(line, ours);
        line
    }

    fn line(number: u8, [first, count]: Stretch) -> String {
        format!("{number} {first:016x} {count:016x}\n")
    }

    fn must_be(samples: &[[f64; 2]], stretch: Stretch) {
        assert_eq!(ask(2 * samples.len() as u64, WINDOW, samples), line(0, stretch), "{samples:?}");
    }

    #[test]
    fn the_longest() {
        must_be(&[IN], [0, 1]);
        must_be(&[IN; 8], [0, 8]);
        must_be(&[OUT, IN, IN, OUT, IN, OUT], [1, 2]);
        must_be(&[IN, OUT, IN, IN, OUT], [2, 2]);
        must_be(&[IN, OUT, OUT, IN, IN, IN], [3, 3]);
        must_be(&[OUT, OUT, OUT, OUT, OUT, OUT, OUT, IN], [7, 1]);
    }

    #[test]
    fn the_earliest_of_those_as_long() {
        must_be(&[IN, IN, OUT, IN, IN], [0, 2]);
        must_be(&[OUT, IN, OUT, IN, OUT, IN, OUT, IN], [1, 1]);
        must_be(&[IN, OUT, IN, IN, DEAD, IN, IN, OUT], [2, 2]);
    }

    #[test]
    fn none() {
        must_be(&[], [0, 0]);
        must_be(&[OUT], [0, 0]);
        must_be(&[DEAD, OUT, DEAD], [0, 0]);
        must_be(&[[NAN; 2]; 8], [0, 0]);
    }

    #[test]
    fn dead_samples_part_runs() {
        for dead in [NAN, f64::INFINITY, f64::NEG_INFINITY, LIMIT.next_up(), -f64::MAX] {
            must_be(&[IN, [dead, 1.0], IN, IN, [2.0, dead], IN], [2, 2]);
        }
    }

    #[test]
    fn sides_are_in_the_window() {
        let [low_x, low_y, high_x, high_y] = WINDOW;
        must_be(&[[low_x, low_y], [high_x, high_y], [low_x, 1.0], [2.0, high_y], [low_x, -0.0]], [0, 5]);
        for outside in
            [[low_x.next_down(), 1.0], [high_x.next_up(), 1.0], [2.0, low_y.next_down()], [2.0, high_y.next_up()]]
        {
            must_be(&[IN, outside, IN, IN], [2, 2]);
        }
    }

    /// No float beyond the limit is in a window that is not refused.
    #[test]
    fn the_limit() {
        let widest = [-LIMIT, -LIMIT, LIMIT, LIMIT];
        let above = LIMIT.next_up();
        let samples = [[LIMIT, -LIMIT], [above, 0.0], [-LIMIT, LIMIT], [0.0, 0.0], [0.0, -above]];
        assert_eq!(ask(10, widest, &samples), line(0, [2, 2]));
        for side in 0..4 {
            let mut window = widest;
            window[side] = above.copysign(window[side]);
            assert_eq!(ask(10, window, &samples), line(3, [0, 0]), "side {side}");
        }
    }

    #[test]
    fn refusals_in_order() {
        for (number, count, window) in [
            (10, 3, TURNED),
            (10, 1, WINDOW),
            (3, 4, TURNED),
            (3, 0, TURNED),
            (3, 4, [1.0, 0.0, f64::INFINITY, 2.0]),
            (3, 4, [1.0, NAN, 3.0, 2.0]),
        ] {
            assert_eq!(ask(count, window, &[IN; 2]), line(number, [0, 0]), "{count} floats, {window:?}");
        }
    }

    #[test]
    fn sixteen_floats_at_the_most() {
        for count in [16, 17, 18, 256, u64::MAX] {
            assert_eq!(ask(count, WINDOW, &[IN; FLOATS / 2]), line(0, [0, 8]), "{count} floats");
        }
    }

    #[test]
    fn the_longest_trace() {
        let ask = |floats: usize| longest_clean(&vec![1.0; floats], &rect(WINDOW));
        assert_eq!(ask(2 * SAMPLES), Ok([0, SAMPLES]));
        assert_eq!(ask(2 * SAMPLES - 1), Err(BAD_TRACE));
        assert_eq!(ask(2 * SAMPLES + 1), Err(BAD_TRACE));
        assert_eq!(ask(2 * SAMPLES + 2), Err(BAD_TRACE));
        let turned = longest_clean(&[1.0; 2], &rect(TURNED));
        assert_eq!(turned, Err(BAD_WINDOW));
    }

    /// Each of the 256 patterns of eight, by the runs themselves and not by counts of what is before them.
    #[test]
    fn every_pattern() {
        for pattern in 0..256 {
            let clean: [bool; 8] = std::array::from_fn(|place| pattern >> place & 1 == 1);
            let holds = |first: usize, count: usize| clean[first..first + count].iter().all(|clean| *clean);
            let of = |count: usize| (0..=8 - count).find(|first| holds(*first, count)).map(|first| [first, count]);
            let expected = (0..=8).rev().find_map(of).expect("the run of none");
            assert_eq!(longest(&clean), expected, "{clean:?}");
        }
    }

    #[test]
    fn the_program() {
        let samples = [OUT, IN, IN, DEAD, IN];
        let input = |window: [f64; 4], samples: &[[f64; 2]], torn: usize| {
            let floats = window.iter().chain(samples.as_flattened());
            floats.flat_map(|float| float.to_le_bytes()).chain(vec![0; torn]).collect::<Vec<u8>>()
        };
        for torn in [0, 1, 8, 15] {
            assert_eq!(line_of(&input(WINDOW, &samples, torn)).expect("a window"), "0 1 2", "{torn} bytes");
            assert_eq!(line_of(&input(WINDOW, &[], torn)).expect("a window"), "0 0 0", "{torn} bytes");
            assert_eq!(line_of(&input(TURNED, &samples, torn)).expect("a window"), "3 0 0", "{torn} bytes");
        }
        assert_eq!(line_of(&input(WINDOW, &[IN; SAMPLES], 15)).expect("a window"), "0 0 4096");
        assert_eq!(line_of(&input(TURNED, &[IN; SAMPLES + 1], 0)).expect("a window"), "10 0 0");
        assert!(line_of(&input(WINDOW, &[], 0)[..31]).is_err(), "no window");
    }
}
