//! Combining and moving over whole numbers: each product and sum of floats beside that of integers.
//! What is not the integer that it should be is nothing.

use crate::oracle::{Point, Transform};

/// One transform followed by another.
pub fn combined(a: Transform, b: Transform) -> Option<Transform> {
    Some(Transform {
        xx: products((a.xx, b.xx), (a.xy, b.yx))?,
        xy: products((a.xx, b.xy), (a.xy, b.yy))?,
        yx: products((a.yx, b.xx), (a.yy, b.yx))?,
        yy: products((a.yx, b.xy), (a.yy, b.yy))?,
        x: plus(products((a.x, b.xx), (a.y, b.yx))?, b.x)?,
        y: plus(products((a.x, b.xy), (a.y, b.yy))?, b.y)?,
    })
}

/// The point where the transform sends it.
pub fn moved(t: Transform, p: Point) -> Option<Point> {
    Some(Point {
        x: plus(products((p.x, t.xx), (p.y, t.yx))?, t.x)?,
        y: plus(products((p.x, t.xy), (p.y, t.yy))?, t.y)?,
    })
}

/// The sum of two products.
fn products(first: (f32, f32), second: (f32, f32)) -> Option<f32> {
    plus(times(first.0, first.1)?, times(second.0, second.1)?)
}

fn times(a: f32, b: f32) -> Option<f32> {
    kept(a * b, whole(a)?.checked_mul(whole(b)?)?)
}

fn plus(a: f32, b: f32) -> Option<f32> {
    kept(a + b, whole(a)?.checked_add(whole(b)?)?)
}

/// The float, if it is this integer.
fn kept(float: f32, integer: i128) -> Option<f32> {
    (whole(float)? == integer).then_some(float)
}

/// A whole float as an integer, unless it is too large for one.
fn whole(float: f32) -> Option<i128> {
    let is_whole = float.fract() == 0.0 && float.abs() < i128::MAX as f32;
    is_whole.then_some(float as i128)
}

#[cfg(test)]
mod tests {
    use super::*;
    use crate::combining::entries;

    const LAST: f32 = 16_777_216.0;

    #[test]
    fn what_is_rounded_is_nothing() {
        assert_eq!(times(4096.0, 4097.0), Some(16_781_312.0));
        assert_eq!(times(4097.0, 4097.0), None);
        assert_eq!(plus(LAST, -1.0), Some(16_777_215.0));
        assert_eq!(plus(LAST, 1.0), None);
        assert_eq!(plus(LAST, 2.0), Some(16_777_218.0));
        assert_eq!(times(LAST, LAST), Some(281_474_976_710_656.0));
    }

    #[test]
    fn what_is_not_whole_is_nothing() {
        assert_eq!(plus(0.5, 0.5), None);
        assert_eq!(times(0.5, 2.0), None);
        assert_eq!(times(f32::MAX, 0.0), None);
        assert_eq!(plus(f32::INFINITY, 1.0), None);
        assert_eq!(plus(f32::NAN, 1.0), None);
        assert_eq!(times(-0.0, 3.0), Some(0.0));
    }

    /// 2, 3, 5, 7, 11, 13 followed by 17, 19, 23, 29, 31, 37, and where they send (41, 43).
    #[test]
    fn every_product_is_in_its_place() {
        let low = Transform::new(2.0, 3.0, 5.0, 7.0, 11.0, 13.0);
        let high = Transform::new(17.0, 19.0, 23.0, 29.0, 31.0, 37.0);
        let both = combined(low, high).unwrap();
        assert_eq!(entries(both), [103.0, 125.0, 246.0, 298.0, 517.0, 623.0]);
        let point = Point::new(41.0, 43.0);
        assert_eq!(moved(low, point), Some(Point::new(308.0, 437.0)));
        assert_eq!(moved(both, point), Some(Point::new(15_318.0, 18_562.0)));
    }

    #[test]
    fn each_sum_must_be_exact() {
        let ones = Transform::new(1.0, 1.0, 1.0, 1.0, 1.0, 1.0);
        for (x, y, is_exact) in [(LAST, 1.0, false), (LAST, 0.0, false), (LAST, -1.0, true)] {
            let far = Transform::new(0.0, 0.0, 0.0, 0.0, x, y);
            assert_eq!(combined(far, ones).is_some(), is_exact, "{y}");
            assert_eq!(moved(ones, Point::new(x, y)).is_some(), is_exact, "{y}");
        }
    }
}
