//! docs/DIFFERENCES.md, entry by entry: what the crate itself answers, asked with no refusal before it. The inputs are
//! those of the requests that keep the entry, so that the page, the stored list and these tests have the same bits.

mod cube;
mod overflow;

use crate::clamped::CLAMPED;
use crate::kept::{KEPT, LEFT_OUT, W10};
use crate::r1::interval::Interval;
use crate::r2::{point::Point, rect::Rect};
use crate::s2::edge_clipping::private::{self, Cut, CRATES};
use crate::whole;
use crate::words::Arguments;

/// The arguments of all requests that keep an entry, one for each of these operations.
fn asked<const COUNT: usize>(name: &str, operations: [u64; COUNT]) -> [Arguments<'static>; COUNT] {
    let kept: Vec<_> = KEPT.iter().chain(W10).filter(|(entry, _, _)| *entry == name).collect();
    assert_eq!(kept.iter().map(|(_, operation, _)| *operation).collect::<Vec<_>>(), operations, "{name}");
    std::array::from_fn(|place| Arguments::new(kept[place].2))
}

fn left_out(name: &str) -> Arguments<'static> {
    let (_, words) = LEFT_OUT.iter().find(|(entry, _)| *entry == name).expect("an entry that is left out");
    Arguments::new(words)
}

fn bits<const COUNT: usize>(floats: [f64; COUNT]) -> [u64; COUNT] {
    floats.map(f64::to_bits)
}

fn ends(interval: Interval) -> [f64; 2] {
    [interval.lo, interval.hi]
}

fn sides(rect: Rect) -> [f64; 4] {
    [rect.x.lo, rect.x.hi, rect.y.lo, rect.y.hi]
}

/// Operation 34's arguments: the points that are kept.
fn cut(a: &mut Arguments) -> Option<[f64; 4]> {
    let (kept_a, kept_b, kept) = (CRATES.clip_edge)(a.take(), a.take(), a.take());
    kept.then_some([kept_a.x, kept_a.y, kept_b.x, kept_b.y])
}

/// Operation 35's arguments.
fn meets(a: &mut Arguments) -> bool {
    private::edge_intersects_rect(a.take(), a.take(), &a.take())
}

/// Operation 30's arguments.
fn interpolate(a: &mut Arguments) -> f64 {
    (CRATES.interpolate)(a.take(), a.take(), a.take(), a.take(), a.take())
}

/// Operation 32's arguments.
fn clip_bound_axis(a: &mut Arguments) -> (Interval, Interval, bool) {
    (CRATES.clip_bound_axis)(a.take(), a.take(), a.take(), a.take(), a.take(), a.take(), a.take(), a.take())
}

#[test]
fn d1_product_of_two_points() {
    let mut a = left_out("D1");
    let product = a.take::<Point>() * a.take::<Point>();
    assert_eq!([product.x, product.y], [4.0, 49.0]);
}

#[test]
fn d2_a_nan_equals_every_point() {
    let mut a = left_out("D2");
    let (dead, five, six): (Point, Point, Point) = (a.take(), a.take(), a.take());
    assert!(dead == five && dead == six && five != six);
}

#[test]
fn d3_empty_by_its_x_axis_alone() {
    let [mut empty_on_y, mut contained, mut united] = asked("D3", [24, 26, 28]);
    assert!(!empty_on_y.take::<Rect>().is_empty());
    let (unit, empty_on_x): (Rect, Rect) = (contained.take(), contained.take());
    assert!(empty_on_x.is_empty() && !unit.contains(&empty_on_x));
    let (unit, empty_on_x): (Rect, Rect) = (united.take(), united.take());
    assert_eq!(sides(unit.union(&empty_on_x)), [0.0, 1.0, 0.0, 6.0]);
}

#[test]
fn d4_a_dead_sample_draws_a_level_line() {
    let [mut in_b, mut in_a, mut infinite] = asked("D4", [34, 34, 34]);
    assert_eq!(cut(&mut in_b), Some([1.0, 0.0, 3.0, 0.0]));
    let [ax, ay, bx, by] = cut(&mut in_a).expect("it is kept");
    assert!(ax == 1.0 && ay.is_nan() && bx == 3.0 && by.is_nan());
    assert_eq!(cut(&mut infinite), Some([1.0, 0.0, 3.0, 0.0]));
}

#[test]
fn d5_a_window_of_nans_keeps_everything() {
    let [mut a] = asked("D5", [34]);
    assert_eq!(cut(&mut a), Some([0.0, 0.0, 4.0, 2.0]));
}

#[test]
fn d6_interpolate_at_an_end() {
    let [mut at_a, mut at_b, mut at_both] = asked("D6", [30, 30, 30]);
    assert!(interpolate(&mut at_a).is_nan() && interpolate(&mut at_b).is_nan());
    assert_eq!(interpolate(&mut at_both), 2.0);
}

#[test]
fn d7_interpolate_past_an_end() {
    let [mut overflow, mut underflow, mut falling, mut beyond] = asked("D7", [30, 30, 30, 30]);
    assert_eq!(interpolate(&mut overflow), f64::INFINITY);
    assert_eq!(interpolate(&mut underflow).to_bits(), 0x1e59_0000_0000_0000);
    assert_eq!(interpolate(&mut falling), 0.5);
    assert_eq!(interpolate(&mut beyond), f64::INFINITY);
}

#[test]
fn d8_a_point_window_on_the_line_and_one_beside_it() {
    let [mut on_it, mut beside_it] = asked("D8", [34, 34]);
    assert!(cut(&mut on_it).is_none() && whole::sum_equal(0.1, 0.1, 0.2), "(0.1,0.1) is the edge's middle");
    assert_eq!(cut(&mut beside_it), Some([0.1, 0.2, 0.1, 0.2]));
    assert!(!whole::sum_equal(0.1, 0.3, 2.0 * 0.2), "(0.1,0.2) is not");
}

#[test]
fn d9_a_missed_bound_is_not_the_original_one() {
    let [mut a] = asked("D9", [33]);
    let (bound, kept) = (CRATES.clip_edge_bound)(a.take(), a.take(), a.take(), a.take());
    assert!(!kept);
    assert_eq!(sides(bound), [0.0, 0.25, 0.0, 0.25]);
}

#[test]
fn d10_edge_intersects_rect_beyond_its_bound() {
    let [mut far_points, mut through_it, mut past_it, mut tiny, mut through_its_middle, mut far_past_it] =
        asked("D10", [35; 6]);
    assert!(meets(&mut far_points));
    // The window's point is A x B / |AB| = 2^-44 / |AB| from the line, and |AB| is less than 45.26.
    assert!(2f64.powi(-44) / 45.26 > 1.3 * private::INTERSECT_RECT_ERROR_UV_DIST);
    assert!(!meets(&mut through_it), "by a NaN");
    assert!(meets(&mut past_it), "by an overflow");
    assert!(meets(&mut tiny), "by an underflow");
    // B is -2 A, so that (0,0) is between them.
    assert!(!meets(&mut through_its_middle), "by rounding");
    assert!(meets(&mut far_past_it), "by rounding");
}

#[test]
fn d11_a_cut_value_far_from_the_line() {
    let [mut edge, mut third] = asked("D11", [34, 30]);
    let step = f64::from_bits(1);
    let kept = cut(&mut edge).expect("it is kept");
    assert_eq!(kept, [step, 0.0, 2.0 * step, 0.5]);
    assert!(0.25 - kept[1] > private::EDGE_CLIP_ERROR_UV_COORD);
    // A third of 0.5; `near.rs` has its exact error.
    assert_eq!(interpolate(&mut third), 0.0);
}

#[test]
fn d12_the_interval_of_two_zeros() {
    let [mut a] = asked("D12", [17]);
    let (plus, minus) = (a.take(), a.take());
    assert_eq!(bits(ends(Interval::from_point_pair(plus, minus))), bits([0.0, -0.0]));
    assert_eq!(bits(ends(Interval::from_point(plus) + minus)), bits([0.0, 0.0]));
}

/// Which zero it is the standard library leaves open.
#[test]
fn d18_the_zeros_of_union_and_intersection() {
    let [mut union, mut intersection] = asked("D18", [14, 15]);
    assert_eq!(ends(union.take::<Interval>().union(&union.take())), [0.0, 0.0]);
    assert_eq!(ends(intersection.take::<Interval>().intersection(&intersection.take())), [0.0, 0.0]);
}

#[test]
fn d19_a_cut_value_by_overflow() {
    let [mut beyond, mut at_the_limit] = asked("D19", [34, 34]);
    assert_eq!(cut(&mut beyond), Some([0.0, 0.0, 1.0, 0.0]));
    assert_eq!(cut(&mut at_the_limit), Some([0.0, 0.5, 1.0, 0.5]));
}

#[test]
fn d22_an_end_that_is_not_moved() {
    let [mut below, mut nan] = asked("D22", [31, 31]);
    for a in [&mut below, &mut nan] {
        let (interval, moved) = private::update_endpoint(a.take(), a.take(), a.take());
        assert!(moved && ends(interval) == [0.0, 0.0]);
    }
}

#[test]
fn d23_intervals_beyond_the_window() {
    let [mut beyond, mut empty] = asked("D23", [32, 32]);
    let (first, other, kept) = clip_bound_axis(&mut beyond);
    assert!(kept && ends(first) == [0.0, 0.0] && ends(other) == [1.0, 1.0]);
    let (first, _, kept) = clip_bound_axis(&mut empty);
    assert!(kept && first.is_empty());
}

#[test]
fn d24_vertices_that_go_clockwise() {
    let [mut a] = asked("D24", [21]);
    let vertices = a.take::<Rect>().vertices();
    assert_eq!(vertices.map(|vertex| [vertex.x, vertex.y]), [[1.0, 0.0], [0.0, 0.0], [0.0, 1.0], [1.0, 1.0]]);
    let [first, second, third, _] = vertices;
    assert!((second - first).cross(&(third - second)) < 0.0, "a turn to the right");
}

#[test]
fn d25_a_box_that_does_not_hold_its_points() {
    let [mut second, mut first, mut interval] = asked("D25", [20, 20, 10]);
    let (zero, dead) = (second.take(), second.take());
    assert_eq!(sides(Rect::from_points(&[zero, dead])), [0.0; 4]);
    let (dead, zero) = (first.take(), first.take());
    let nowhere = Rect::from_points(&[dead, zero]);
    assert!(nowhere.x.lo.is_nan() && nowhere.x.hi.is_nan() && !nowhere.contains_point(&zero));
    let nans: Interval = interval.take();
    assert!(!nans.is_empty() && !nans.contains(0.0));
}

#[test]
fn d30_windows_that_are_empty_or_open() {
    let [mut empty, mut open] = asked("D30", [34, 34]);
    assert_eq!(cut(&mut empty), None);
    assert_eq!(cut(&mut open), Some([1.0, 0.5, 4.0, 2.0]));
}

/// The crate answers beyond the limit as at it.
#[test]
fn d32_floats_beyond_the_limit() {
    let [mut at, mut above, mut side_at, mut side_above] = asked("D32", [34; 4]);
    for a in [&mut at, &mut above, &mut side_at, &mut side_above] {
        assert_eq!(cut(a), Some([0.0, 0.0, 1.0, 0.0]));
    }
}

/// With the clamp too, where the page says so.
#[test]
fn d33_an_edge_that_vanishes() {
    let ask = |text: &Cut| {
        let [mut value, mut edge, mut bound, mut crossing] = asked("D33", [30, 34, 33, 34]);
        let (kept, _) = (text.clip_edge_bound)(bound.take(), bound.take(), bound.take(), bound.take());
        let [edge, crossing] = [&mut edge, &mut crossing].map(|a| {
            let (a, b, kept) = (text.clip_edge)(a.take(), a.take(), a.take());
            kept.then_some([a.x, a.y, b.x, b.y])
        });
        let value = (text.interpolate)(value.take(), value.take(), value.take(), value.take(), value.take());
        (value, edge, ends(kept.y), crossing)
    };
    let (step, past) = (f64::from_bits(1), 0.04f64.next_up());
    assert_eq!(ask(&CRATES), (past, None, [past, 1.0], None));
    assert_eq!(ask(&CLAMPED), (0.04, Some([5.0 * step, 0.04, 10.0 * step, 0.04]), [0.04, 1.0], None));
}

/// Each edge is asked twice, by 61 and by 62.
#[test]
fn d34_an_edge_that_only_touches() {
    let kept = asked("D34", [61, 62, 61, 62, 61, 62, 61, 62]).map(|mut a| {
        let (_, _, window): (u64, u64, Rect) = (a.take(), a.take(), a.take());
        let (kept_a, kept_b, kept) = (CRATES.clip_edge)(a.take(), a.take(), window);
        kept.then_some([kept_a.x, kept_a.y, kept_b.x, kept_b.y])
    });
    let [corner, side, crossing, of_no_length] = [[1.0; 4], [1.0, 1.5, 1.0, 1.5], [1.0; 4], [1.5; 4]].map(Some);
    assert_eq!(kept, [corner, corner, side, side, crossing, crossing, of_no_length, of_no_length]);
}
