//! `oracle samples`: a window, and a seeded trace that drifts about it. It goes on by a 32nd of the window's width and
//! height at the most, and no further from it than half of them; but one sample of 16 is anywhere there, and one of
//! eight is related to the one before it and to the window as the ends of an edge of `oracle records edges` are. One of
//! 24 lies on the window, at a corner, on a side or inside, and one of 24 is the one before again. Now and then the
//! probe is dead, for one sample or some, or a coordinate is as great as is admitted for one sample, while the trace
//! drifts on.

use crate::floats::at_limit;
use crate::random::Random;
use crate::records::related;
use crate::stream::write_words;
use crate::touching::on;
use crate::traces::{kill, Sample, Window};
use std::io::{self, BufWriter, Write};

pub fn run(count: u64, seed: u64) -> io::Result<()> {
    let mut trace = Trace::new(seed);
    let mut output = BufWriter::with_capacity(1 << 16, io::stdout().lock());
    write_words(&mut output, &trace.window.map(f64::to_bits))?;
    for _ in 0..count {
        write_words(&mut output, &trace.next_sample().map(f64::to_bits))?;
    }
    output.flush()
}

struct Trace {
    random: Random,
    window: Window,
    at: Sample,
    /// So many samples more are dead.
    dead: u64,
}

impl Trace {
    fn new(seed: u64) -> Trace {
        let mut random = Random::new(seed);
        let low = [0; 2].map(|_| 100.0 * random.fraction());
        let [high_x, high_y] = low.map(|low| low + 10.0 + 90.0 * random.fraction());
        Trace { random, window: [low[0], low[1], high_x, high_y], at: low, dead: 0 }
    }

    fn next_sample(&mut self) -> Sample {
        self.drift();
        if self.dead == 0 && self.random.once_in(128) {
            self.dead = self.random.pick(&[1, 1, 1, 2, 9, 36]);
        }
        let mut sample = self.at;
        if self.dead > 0 {
            self.dead -= 1;
            kill(&mut self.random, &mut sample);
        } else if self.random.once_in(64) {
            sample[self.random.index(2)] = at_limit(&mut self.random);
        }
        sample
    }

    fn drift(&mut self) {
        let [low_x, low_y, high_x, high_y] = self.window;
        let (random, [x, y]) = (&mut self.random, self.at);
        let step = if random.once_in(16) { jump } else { step };
        let next = [step(random, x, low_x, high_x), step(random, y, low_y, high_y)];
        let times = random.once_in(8).into();
        let related = related(random, self.at, next, self.window, times);
        self.at = match random.below(24) {
            0 => on(random, [[low_x, high_x], [low_y, high_y]]),
            1 => self.at,
            _ => related,
        };
    }
}

fn jump(random: &mut Random, _: f64, low: f64, high: f64) -> f64 {
    low + (2.0 * random.fraction() - 0.5) * (high - low)
}

/// From far outside it comes back at once.
fn step(random: &mut Random, at: f64, low: f64, high: f64) -> f64 {
    let width = high - low;
    at.clamp(low - width / 2.0, high + width / 2.0) + (random.fraction() - 0.5) * width / 16.0
}

#[cfg(test)]
mod tests {
    use super::*;
    use crate::classes::{must_be_seen, see_edge, Seen, CLOSE, EDGES, TOUCHES};
    use crate::clip::LIMIT;
    use crate::r2::{point::Point, rect::Rect};
    use crate::words::Arguments;

    #[test]
    fn edges_of_every_class() {
        let (mut trace, mut seen) = (Trace::new(1), Seen::new());
        let window: Rect = Arguments::new(&trace.window.map(f64::to_bits)).take();
        let mut next = || Arguments::new(&trace.next_sample().map(f64::to_bits)).take::<Point>();
        let mut before = next();
        for _ in 0..20_000 {
            let sample = next();
            let greatest = sample.x.abs().max(sample.y.abs());
            *seen.entry("at the limit").or_default() += u64::from(greatest == LIMIT);
            *seen.entry("beyond the limit").or_default() += u64::from(greatest > LIMIT && greatest.is_finite());
            see_edge(&mut seen, before, sample, &window);
            before = sample;
        }
        must_be_seen(&seen, &["at the limit", "beyond the limit"], 40);
        must_be_seen(&seen, &EDGES, 40);
        // The window has a width and a height, and no zero for a side.
        must_be_seen(&seen, &TOUCHES[..3], 20);
        let close: Vec<_> = CLOSE.into_iter().filter(|name| !name.contains("zero")).collect();
        must_be_seen(&seen, &close, 10);
    }
}
