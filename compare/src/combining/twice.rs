//! A point under two transforms: whole numbers of several sizes, and where every step is exact.

use super::exact::{combined, moved};
use super::transform_of;
use crate::numbers::Dice;
use crate::oracle::{Point, Transform};

/// Two transforms, one to follow the other, and the point that they move.
#[derive(Clone, Copy, Debug)]
pub struct Twice {
    pub first: Transform,
    pub second: Transform,
    pub point: Point,
}

impl Twice {
    /// Of fourteen numbers, in the order of the fields.
    pub fn of(n: &[f32]) -> Twice {
        Twice {
            first: transform_of(n),
            second: transform_of(&n[6..]),
            point: Point::new(n[12], n[13]),
        }
    }

    /// Where the point goes, if every product and every sum is exact, both of the combined transform
    /// and its point and of the point moved twice.
    pub fn exact(&self) -> Option<Point> {
        moved(combined(self.first, self.second)?, self.point)?;
        moved(self.second, moved(self.first, self.point)?)
    }

    /// Whether xx, xy, yx and yy are at most `factor` in size, and all other numbers at most `rest`.
    pub fn is_within(&self, factor: f32, rest: f32) -> bool {
        let transform = |t: Transform| {
            let factors = [t.xx, t.xy, t.yx, t.yy];
            factors.iter().all(|n| n.abs() <= factor) && t.x.abs() <= rest && t.y.abs() <= rest
        };
        let point = self.point.x.abs() <= rest && self.point.y.abs() <= rest;
        transform(self.first) && transform(self.second) && point
    }
}

/// Fourteen whole numbers: mostly all of one size, zeros of either sign among them.
pub fn whole_numbers(dice: &mut Dice) -> Vec<f32> {
    match dice.below(8) {
        0 => (0..14).map(|_| within(128, dice)).collect(),
        1 => with_transforms(|dice| std::array::from_fn(|_| within(16, dice)), dice),
        2 => with_transforms(|dice| dice.pick(&TURNS), dice),
        3 => (0..14).map(|_| within(1, dice)).collect(),
        4 => (0..14).map(|_| within(4096, dice)).collect(),
        5 => (0..14).map(|_| power_of_two(dice)).collect(),
        6 => (0..14).map(|_| large_and_odd(dice)).collect(),
        _ => (0..14).map(|_| any_size(dice)).collect(),
    }
}

/// Turns by quarters, and the mirrors.
const TURNS: [[f32; 4]; 8] = [
    [1.0, 0.0, 0.0, 1.0],
    [0.0, 1.0, -1.0, 0.0],
    [-1.0, 0.0, 0.0, -1.0],
    [0.0, -1.0, 1.0, 0.0],
    [-1.0, -0.0, 0.0, 1.0],
    [1.0, 0.0, -0.0, -1.0],
    [0.0, 1.0, 1.0, 0.0],
    [-0.0, -1.0, -1.0, -0.0],
];

/// Two transforms by their xx, xy, yx and yy, their moves and the point up to 4096.
fn with_transforms(factors: fn(&mut Dice) -> [f32; 4], dice: &mut Dice) -> Vec<f32> {
    let mut numbers = Vec::with_capacity(14);
    for _ in 0..2 {
        numbers.extend(factors(dice));
        numbers.extend([within(4096, dice), within(4096, dice)]);
    }
    numbers.extend([within(4096, dice), within(4096, dice)]);
    numbers
}

/// Up to `most` in size, the ends and the zeros more often.
fn within(most: i64, dice: &mut Dice) -> f32 {
    let end = most as f32;
    match dice.below(8) {
        0 => dice.pick(&[0.0, -0.0]),
        1 => dice.pick(&[end, -end]),
        _ => dice.between(-most, most) as f32,
    }
}

fn power_of_two(dice: &mut Dice) -> f32 {
    let power = (1 << dice.below(21)) as f32;
    dice.pick(&[power, -power, power, -power, 0.0, -0.0])
}

/// Odd, and up to 2^24 in size.
fn large_and_odd(dice: &mut Dice) -> f32 {
    (2 * dice.between(-(1 << 23), (1 << 23) - 1) + 1) as f32
}

fn any_size(dice: &mut Dice) -> f32 {
    match dice.below(8) {
        0 => power_of_two(dice),
        1 => large_and_odd(dice),
        2 => within(4096, dice),
        3 => within(128, dice),
        4 => within(16, dice),
        _ => within(1, dice),
    }
}

#[cfg(test)]
mod tests {
    use super::*;
    use crate::combining::then;

    /// Where the point goes under the combined transform, and where it goes step by step.
    fn both_ways(case: &Twice) -> [Point; 2] {
        let Twice {
            first,
            second,
            point,
        } = *case;
        [
            then(first, second).transform_point(point),
            second.transform_point(first.transform_point(point)),
        ]
    }

    /// By zeno through the swap: exact steps keep the law, and where one is not it may fail.
    #[test]
    fn exact_steps_keep_the_law() {
        let mut dice = Dice::new(63);
        let (mut exact, mut same, mut elsewhere) = (0, 0, 0);
        for _ in 0..40_000 {
            let case = Twice::of(&whole_numbers(&mut dice));
            let [at_once, twice] = both_ways(&case);
            match case.exact() {
                Some(point) => {
                    assert_eq!([at_once, twice], [point; 2], "{case:?}");
                    exact += 1;
                }
                None if at_once == twice => same += 1,
                None => elsewhere += 1,
            }
        }
        let counts = [exact, same, elsewhere];
        assert!(counts.iter().all(|&count| count > 4000), "{counts:?}");
    }

    #[test]
    fn within_the_limits_every_step_is_exact() {
        let mut dice = Dice::new(64);
        for (factor, rest) in [(128, 128), (16, 4096)] {
            for _ in 0..4000 {
                let mut end = |most: i64| dice.pick(&[-1, 1]) as f32 * most as f32;
                let mut numbers = [(); 14].map(|()| end(rest));
                for at in [0, 1, 2, 3, 6, 7, 8, 9] {
                    numbers[at] = end(factor);
                }
                let case = Twice::of(&numbers);
                assert!(case.is_within(factor as f32, rest as f32));
                assert!(case.exact().is_some(), "{case:?}");
            }
        }
    }

    #[test]
    fn drawn_numbers_are_whole_and_of_every_size() {
        let mut dice = Dice::new(65);
        let mut shapes = [0; 2];
        let (mut negative_zeros, mut large) = (0, 0);
        for _ in 0..8000 {
            let numbers = whole_numbers(&mut dice);
            assert_eq!(numbers.len(), 14);
            assert!(numbers.iter().all(|n| n.fract() == 0.0), "{numbers:?}");
            let case = Twice::of(&numbers);
            shapes[0] += usize::from(case.is_within(128.0, 128.0));
            shapes[1] += usize::from(case.is_within(16.0, 4096.0));
            negative_zeros += numbers.iter().filter(|n| n.to_bits() == 1 << 31).count();
            large += numbers.iter().filter(|n| n.abs() > 8_388_608.0).count();
        }
        assert!(shapes.iter().all(|&count| count > 1000), "{shapes:?}");
        assert!(negative_zeros > 2000 && large > 2000);
    }

    /// Nothing is larger than a limit in any of its places.
    #[test]
    fn limits_hold_for_each_number() {
        for at in 0..14 {
            let is_factor = at < 12 && at % 6 < 4;
            let limit = if is_factor { 16.0 } else { 4096.0 };
            let mut numbers = [0.0; 14];
            numbers[at] = -limit;
            assert!(Twice::of(&numbers).is_within(16.0, 4096.0));
            numbers[at] = limit + 1.0;
            assert!(!Twice::of(&numbers).is_within(16.0, 4096.0), "{at}");
        }
    }
}
