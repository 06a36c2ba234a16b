//! The search behind what D6, D7, D10 and D19 say of the floats that module 4 admits: nothing overflows there, but for
//! `interpolate` beyond its ends.

use crate::clip::admitted;
use crate::floats::{power, Family, Source};
use crate::random::Random;
use crate::records::edge_of;
use crate::words::Arguments;

const TRIES: usize = 1_000_000;

fn ask<T, const COUNT: usize>(ask: fn(&mut Arguments) -> T, floats: [f64; COUNT]) -> T {
    ask(&mut Arguments::new(&floats.map(f64::to_bits)))
}

/// Edges and windows about as great as is admitted are answered as those 2^-400 of their size are. An overflow would
/// show; and of floats that are at least 2^300, or 0, nothing underflows at either size.
#[test]
fn great_edges_are_cut_as_small_ones() {
    let (mut random, mut tried) = (Random::new(1), 0);
    while tried < TRIES {
        let great = edge_of(&mut random, Source::of(Family::Limit));
        if !great.iter().all(|x| admitted(*x) && (*x == 0.0 || x.abs() >= power(300))) {
            continue;
        }
        let small = great.map(|x| x * power(-400));
        let cut = ask(super::cut, small).map(|points| points.map(|x| x * power(400)));
        assert_eq!(ask(super::cut, great), cut, "{great:?}");
        assert_eq!(ask(super::meets, great), ask(super::meets, small), "{great:?}");
        let line = |[ax, ay, bx, by, x, ..]: [f64; 8]| ask(super::interpolate, [x, ax, bx, ay, by]);
        assert_eq!(line(great), line(small) * power(400), "{great:?}");
        tried += 1;
    }
}

/// Of floats of every size.
#[test]
fn interpolate_between_its_ends() {
    let mut random = Random::new(1);
    for _ in 0..TRIES {
        let source = Source::any(&mut random);
        let [anywhere, a, b, a1, b1] = [0; 5].map(|_| source.draw(&mut random));
        let between = (a + random.fraction() * (b - a)).clamp(a.min(b), a.max(b));
        let value = |x| ask(super::interpolate, [x, a, b, a1, b1]);
        assert!(!value(anywhere).is_nan() && value(between).is_finite(), "{:?}", [anywhere, between, a, b, a1, b1]);
        assert!(a == b || (value(a) == a1 && value(b) == b1), "{:?}", [a, b, a1, b1]);
    }
}
