//! One transform followed by another. zeno combines as if xy and yx were exchanged, so the functions
//! here ask it through a swap of the two: what they answer is zeno's, each product and sum in its
//! place. A scale and a translation are their own swaps.

mod exact;
mod table;
mod twice;

pub use table::{table, Row, Side};
pub use twice::{whole_numbers, Twice};

use crate::oracle::Transform;

/// The transform with xy and yx exchanged.
pub fn swapped(t: Transform) -> Transform {
    Transform {
        xy: t.yx,
        yx: t.xy,
        ..t
    }
}

fn through_the_swap(t: Transform, step: impl FnOnce(Transform) -> Transform) -> Transform {
    swapped(step(swapped(t)))
}

pub fn then(t: Transform, u: Transform) -> Transform {
    through_the_swap(t, |t| t.then(&swapped(u)))
}

pub fn then_scale(t: Transform, x: f32, y: f32) -> Transform {
    through_the_swap(t, |t| t.then_scale(x, y))
}

pub fn pre_scale(t: Transform, x: f32, y: f32) -> Transform {
    through_the_swap(t, |t| t.pre_scale(x, y))
}

pub fn pre_translate(t: Transform, x: f32, y: f32) -> Transform {
    through_the_swap(t, |t| t.pre_translate(x, y))
}

/// The transform of the first six numbers, in the order of `entries`.
pub fn transform_of(n: &[f32]) -> Transform {
    Transform::new(n[0], n[1], n[2], n[3], n[4], n[5])
}

pub fn entries(t: Transform) -> [f32; 6] {
    [t.xx, t.xy, t.yx, t.yy, t.x, t.y]
}

#[cfg(test)]
mod tests {
    use super::*;
    use crate::numbers::{same, Dice, Palette};
    use crate::oracle::Point;

    fn drawn(dice: &mut Dice) -> Transform {
        transform_of(&Palette::draw(dice).numbers(dice, 6))
    }

    fn bits(t: Transform) -> [u32; 6] {
        entries(t).map(f32::to_bits)
    }

    #[test]
    fn two_swaps_are_none() {
        let mut dice = Dice::new(60);
        for _ in 0..2000 {
            let t = drawn(&mut dice);
            assert_eq!(bits(swapped(swapped(t))), bits(t));
        }
        let t = Transform::new(1.0, 2.0, 3.0, 4.0, 5.0, 6.0);
        assert_eq!(entries(swapped(t)), [1.0, 3.0, 2.0, 4.0, 5.0, 6.0]);
    }

    /// A quarter turn sends (1, 0) to (0, 1), of which scale (2, 1) leaves y.
    #[test]
    fn zeno_scales_a_turned_point_the_other_way() {
        let turn = Transform::new(0.0, 1.0, -1.0, 0.0, 0.0, 0.0);
        let right = Point::new(1.0, 0.0);
        let by_zeno = turn.then_scale(2.0, 1.0);
        assert_eq!(by_zeno.transform_point(right), Point::new(0.0, 2.0));
        let through_the_swap = then_scale(turn, 2.0, 1.0);
        let sent = through_the_swap.transform_point(right);
        assert_eq!(sent, Point::new(0.0, 1.0));
        let twice = Transform::scale(2.0, 1.0).transform_point(turn.transform_point(right));
        assert_eq!(sent, twice);
    }

    /// The sums as docs/RULES.md writes them, of numbers of every character.
    #[test]
    fn combining_is_the_rules_through_the_swap() {
        let mut dice = Dice::new(61);
        for _ in 0..20_000 {
            let (a, b) = (drawn(&mut dice), drawn(&mut dice));
            let by_the_rule = [
                a.xx * b.xx + a.xy * b.yx,
                a.xx * b.xy + a.xy * b.yy,
                a.yx * b.xx + a.yy * b.yx,
                a.yx * b.xy + a.yy * b.yy,
                a.x * b.xx + a.y * b.yx + b.x,
                a.x * b.xy + a.y * b.yy + b.y,
            ];
            let mut pairs = by_the_rule.into_iter().zip(entries(then(a, b)));
            assert!(pairs.all(|(rule, zeno)| same(rule, zeno)), "{a:?} {b:?}");
        }
    }

    #[test]
    fn scales_and_moves_are_combined_too() {
        let mut dice = Dice::new(62);
        for _ in 0..2000 {
            let t = drawn(&mut dice);
            let palette = Palette::draw(&mut dice);
            let (x, y) = (palette.number(&mut dice), palette.number(&mut dice));
            let (scale, moved) = (Transform::scale(x, y), Transform::translation(x, y));
            for (short, long) in [
                (then_scale(t, x, y), then(t, scale)),
                (pre_scale(t, x, y), then(scale, t)),
                (pre_translate(t, x, y), then(moved, t)),
            ] {
                let mut pairs = entries(short).into_iter().zip(entries(long));
                assert!(pairs.all(|(short, long)| same(short, long)), "{t:?}");
            }
        }
    }

    /// The identity's entries are zeno's, those of a transform with zeros for xy and yx but for the
    /// signs of zeros.
    #[test]
    fn what_is_not_slanted_is_scaled_with_no_swap() {
        let mut dice = Dice::new(66);
        let mut signs = 0;
        for _ in 0..4000 {
            let n = dice.pick(Palette::FINITE).numbers(&mut dice, 6);
            let (x, y) = (n[4], n[5]);
            let identity = Transform::IDENTITY;
            let by_zeno = [identity.then_scale(x, y), identity.pre_scale(x, y)];
            let ours = [then_scale(identity, x, y), pre_scale(identity, x, y)];
            assert_eq!(ours.map(bits), by_zeno.map(bits), "{x} {y}");
            let mut zero = || dice.pick(&[0.0, -0.0]);
            let t = Transform::new(n[0], zero(), zero(), n[1], n[2], n[3]);
            let (ours, by_zeno) = (then_scale(t, x, y), t.then_scale(x, y));
            assert_eq!(entries(ours), entries(by_zeno), "{t:?} {x} {y}");
            signs += usize::from(bits(ours) != bits(by_zeno));
        }
        assert!(signs > 1000, "{signs}");
    }
}
