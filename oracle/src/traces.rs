//! Seeded traces for operations 61 and 62: none to eight samples.
//!
//! The first two and the window are an edge's of `oracle records edges`. Each further sample is fresh, then related to
//! the one before it and to the window as the ends of such an edge are. One trace of 16 has an odd count of floats, one
//! of 18 a count above what a request holds; in one of three a sample is dead, in one of six some are. Three buffers of
//! eight are exact, one is a byte longer, one a byte shorter, one up to 59 bytes longer; one has any length, and one is
//! empty, of the greatest length or beyond it.

use crate::answers::{BUFFER, FLOATS};
use crate::floats::{refused, Source};
use crate::random::Random;
use crate::records::{edge_of, related};
use crate::requests::{Word, Word::Float, Word::Plain};
use crate::walk::RECORD;

pub type Sample = [f64; 2];
/// Low x, low y, high x, high y.
pub type Window = [f64; 4];

pub fn arguments(random: &mut Random) -> Vec<Word> {
    let (window, samples) = trace(random);
    asked(random, window, samples)
}

/// A request of these samples, which are as many as there is room for, whatever the count says.
pub fn asked(random: &mut Random, window: Window, mut samples: Vec<Sample>) -> Vec<Word> {
    kill_some(random, &mut samples);
    let floats = count(random);
    let records = (floats / 2).saturating_sub(1) * RECORD;
    let head = [Plain(above_limit(random, floats)), Plain(length(random, records as u64))];
    let floats = window.iter().chain(samples.as_flattened()).copied().map(Float);
    head.into_iter().chain(floats).collect()
}

pub fn trace(random: &mut Random) -> (Window, Vec<Sample>) {
    let source = Source::any(random);
    let [ax, ay, bx, by, window @ ..] = edge_of(random, source);
    let mut samples = vec![[ax, ay], [bx, by]];
    while samples.len() < FLOATS / 2 {
        let fresh = [0; 2].map(|_| source.draw(random));
        let times = random.below(4);
        samples.push(related(random, samples[samples.len() - 1], fresh, window, times));
    }
    (window, samples)
}

pub fn kill_some(random: &mut Random, samples: &mut [Sample]) {
    let count = match random.below(6) {
        0 | 1 => 1,
        2 => random.between(2, 4),
        _ => 0,
    };
    for _ in 0..count {
        let place = random.index(samples.len());
        kill(random, &mut samples[place]);
    }
}

/// Either coordinate makes a sample a dead one: it is not finite, or beyond the limit of module 4.
pub fn kill(random: &mut Random, sample: &mut Sample) {
    sample[random.index(2)] = refused(random);
}

fn count(random: &mut Random) -> usize {
    match random.below(16) {
        0 => 2 * random.index(FLOATS / 2) + 1,
        1 => 0,
        2 => 2,
        3 | 4 => FLOATS,
        _ => 2 * random.between(2, FLOATS as i64 / 2) as usize,
    }
}

/// The count as the request has it: now and then more than there is room for, which counts as that.
pub fn above_limit(random: &mut Random, floats: usize) -> u64 {
    let any = random.word();
    if floats == FLOATS && random.once_in(4) {
        random.pick(&[17, 18, 256, 1 << 32, any.max(17)])
    } else {
        floats as u64
    }
}

fn length(random: &mut Random, records: u64) -> u64 {
    let any = random.word();
    match random.below(8) {
        0..=2 => records,
        3 => records + 1,
        4 => records.saturating_sub(1),
        5 => records + any % 60,
        6 => any % (BUFFER as u64 + 1),
        _ => random.pick(&[0, 400, 401, any]),
    }
}

#[cfg(test)]
mod tests {
    use super::*;
    use crate::classes::{must_be_seen, see_edge, Seen, EDGES, TOUCHES};
    use crate::clip::admitted;
    use crate::finite::Floats;
    use crate::r2::{point::Point, rect::Rect};
    use crate::words::Arguments;

    /// What the comment above promises of a request, and the classes of all edges in it.
    fn see_request(seen: &mut Seen, edges: &mut Seen, words: &[u64]) {
        let mut a = Arguments::new(words);
        let (count, length, window): (u64, u64, Rect) = (a.take(), a.take(), a.take());
        let samples: [Point; FLOATS / 2] = std::array::from_fn(|_| a.take());
        let floats = count.min(FLOATS as u64);
        let records = (floats / 2).saturating_sub(1) * RECORD as u64;
        for (holds, name) in [
            (count > FLOATS as u64, "more than sixteen floats"),
            (floats % 2 == 1, "an odd count"),
            (floats == 0, "no sample"),
            (floats == 2, "one sample"),
            (length == records, "exact"),
            (length == records + 1, "a byte more"),
            (length + 1 == records, "a byte short"),
            (length == 0 && records > 0, "nothing lent"),
            (length > BUFFER as u64, "more than 400 bytes"),
            (window.x.lo == window.x.hi || window.y.lo == window.y.hi, "lo = hi"),
            (window.x.lo > window.x.hi || window.y.lo > window.y.hi, "lo > hi"),
            (!window.all(f64::is_finite), "a side that is not finite"),
            (window.all(f64::is_finite) && !window.all(admitted), "a side beyond the limit"),
            (!samples[0].all(admitted), "the first is dead"),
            (!samples[4].all(admitted), "one between is dead"),
            (!samples[7].all(admitted), "the last is dead"),
        ] {
            *seen.entry(name).or_default() += u64::from(holds);
        }
        samples.windows(2).for_each(|edge| see_edge(edges, edge[0], edge[1], &window));
    }

    #[test]
    fn requests_of_every_kind() {
        let (mut random, mut seen, mut edges) = (Random::new(1), Seen::new(), Seen::new());
        for _ in 0..20_000 {
            let words = arguments(&mut random).into_iter().map(|word| match word {
                Float(value) => value.to_bits(),
                Plain(value) => value,
            });
            see_request(&mut seen, &mut edges, &words.collect::<Vec<_>>());
        }
        must_be_seen(&seen, &seen.keys().copied().collect::<Vec<_>>(), 100);
        must_be_seen(&edges, &EDGES, 100);
        must_be_seen(&edges, &TOUCHES, 50);
    }
}
