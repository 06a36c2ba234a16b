//! Document 01's modules 1 to 3, points, intervals and rectangles: the refusal, then the crate.

use crate::finite::admit_finite;
use crate::number::Answer;
use crate::r1::interval::Interval;
use crate::r2::{point::Point, rect, rect::Rect};

pub fn sum(p: Point, q: Point) -> Answer<Point> {
    admit_finite(&[&p, &q])?;
    Ok(p + q)
}

pub fn difference(p: Point, q: Point) -> Answer<Point> {
    admit_finite(&[&p, &q])?;
    Ok(p - q)
}

pub fn scaling(p: Point, factor: f64) -> Answer<Point> {
    admit_finite(&[&p, &factor])?;
    Ok(&p * factor)
}

pub fn ortho(p: Point) -> Answer<Point> {
    admit_finite(&[&p])?;
    Ok(p.ortho())
}

pub fn dot(p: Point, q: Point) -> Answer<f64> {
    admit_finite(&[&p, &q])?;
    Ok(p.dot(&q))
}

pub fn cross(p: Point, q: Point) -> Answer<f64> {
    admit_finite(&[&p, &q])?;
    Ok(p.cross(&q))
}

pub fn new(x: f64, y: f64) -> Answer<Point> {
    admit_finite(&[&x, &y])?;
    Ok(Point::new(x, y))
}

pub fn interval_is_empty(interval: Interval) -> Answer<bool> {
    admit_finite(&[&interval])?;
    Ok(interval.is_empty())
}

pub fn interval_holds(interval: Interval, x: f64) -> Answer<bool> {
    admit_finite(&[&interval, &x])?;
    Ok(interval.contains(x))
}

pub fn interval_contains(interval: Interval, other: Interval) -> Answer<bool> {
    admit_finite(&[&interval, &other])?;
    Ok(interval.contains_interval(&other))
}

pub fn interval_intersects(interval: Interval, other: Interval) -> Answer<bool> {
    admit_finite(&[&interval, &other])?;
    Ok(interval.intersects(&other))
}

pub fn interval_union(interval: Interval, other: Interval) -> Answer<Interval> {
    admit_finite(&[&interval, &other])?;
    Ok(interval.union(&other))
}

pub fn interval_intersection(interval: Interval, other: Interval) -> Answer<Interval> {
    admit_finite(&[&interval, &other])?;
    Ok(interval.intersection(&other))
}

/// As the crate's box of two points makes it. Its `from_point_pair` keeps both numbers where they compare equal.
pub fn interval_of(x: f64, y: f64) -> Answer<Interval> {
    admit_finite(&[&x, &y])?;
    Ok(Interval::from_point(x) + y)
}

pub fn empty_rect() -> Answer<Rect> {
    Ok(rect::EMPTY)
}

pub fn box_of(p: Point, q: Point) -> Answer<Rect> {
    admit_finite(&[&p, &q])?;
    Ok(Rect::from_points(&[p, q]))
}

pub fn vertices(rect: Rect) -> Answer<[Point; 4]> {
    admit_finite(&[&rect])?;
    Ok(rect.vertices())
}

pub fn vertex_ij(rect: Rect, i: bool, j: bool) -> Answer<Point> {
    admit_finite(&[&rect])?;
    Ok(rect.vertex_ij(i.into(), j.into()))
}

pub fn lo_and_hi(rect: Rect) -> Answer<(Point, Point)> {
    admit_finite(&[&rect])?;
    Ok((rect.lo(), rect.hi()))
}

pub fn is_empty(rect: Rect) -> Answer<bool> {
    admit_finite(&[&rect])?;
    Ok(rect.is_empty())
}

pub fn contains_point(rect: Rect, p: Point) -> Answer<bool> {
    admit_finite(&[&rect, &p])?;
    Ok(rect.contains_point(&p))
}

pub fn contains(rect: Rect, other: Rect) -> Answer<bool> {
    admit_finite(&[&rect, &other])?;
    Ok(rect.contains(&other))
}

pub fn intersects(rect: Rect, other: Rect) -> Answer<bool> {
    admit_finite(&[&rect, &other])?;
    Ok(rect.intersects(&other))
}

pub fn union(rect: Rect, other: Rect) -> Answer<Rect> {
    admit_finite(&[&rect, &other])?;
    Ok(rect.union(&other))
}

pub fn intersection(rect: Rect, other: Rect) -> Answer<Rect> {
    admit_finite(&[&rect, &other])?;
    Ok(rect.intersection(&other))
}
