//! The box of points and what its placement is refused for.

use crate::oracle::{Bounds, Point};

/// The box of points given as x, y, x, y and so on; an odd last number is left out, and no point
/// at all gives zeros. On each axis the box starts at the first point and is moved by what lies
/// truly outside it, so that of equal parts the first stays.
pub fn box_of(numbers: &[f32]) -> Bounds {
    let axis = |from: usize| -> Vec<f32> {
        let points = numbers.chunks_exact(2);
        points.map(|point| point[from]).collect()
    };
    let (xs, ys) = (axis(0), axis(1));
    let min = Point::new(least(&xs), least(&ys));
    let max = Point::new(greatest(&xs), greatest(&ys));
    Bounds { min, max }
}

/// The first part that no part is below. A first part of NaN is never moved; a later one moves
/// nothing.
fn least(parts: &[f32]) -> f32 {
    outermost(parts, |a, b| a < b)
}

fn greatest(parts: &[f32]) -> f32 {
    outermost(parts, |a, b| a > b)
}

fn outermost(parts: &[f32], beyond: fn(&f32, &f32) -> bool) -> f32 {
    let first = parts.first().copied().unwrap_or(0.0);
    if first.is_nan() {
        return first;
    }
    let mut numbers = parts.iter().filter(|part| !part.is_nan());
    let none_beyond = |part: &f32| !parts.iter().any(|other| beyond(other, part));
    numbers
        .find(|part| none_beyond(part))
        .copied()
        .unwrap_or(0.0)
}

/// Whether zeno's box, which starts at f32::MAX and f32::MIN and not at the first point, must agree
/// on an axis with these parts: no part is NaN, and a finite one is there.
pub fn within_axis(mut parts: impl Iterator<Item = f32> + Clone) -> bool {
    !parts.clone().any(f32::is_nan) && parts.any(f32::is_finite)
}

/// Where a float has no halves any more: sums from here on are not placed.
const TOO_FAR: f32 = 8_388_608.0;

/// Whether a box moved by an offset is not placed: one of the four sums is NaN or infinite, or at
/// least 2^23 from zero.
pub fn place_is_refused(b: &Bounds, offset: Point) -> bool {
    let sums = [
        b.min.x + offset.x,
        b.min.y + offset.y,
        b.max.x + offset.x,
        b.max.y + offset.y,
    ];
    // Not `>=`, so that NaN is refused too.
    !sums.iter().all(|sum| sum.abs() < TOO_FAR)
}
