//! Boxes of points. The port's box starts at the first point, zeno's at f32::MAX and f32::MIN: the
//! rule decides every case, and zeno every axis on which the two must agree.

use super::{agree, listed, Kind, Verdict};
use crate::face;
use compare::numbers::{Dice, Palette};
use compare::oracle::{Bounds, Point};
use compare::reading::{box_of, within_axis};
use compare::shrink::{shorter_numbers, simpler_numbers, Candidates};

/// Points of finite numbers only, or of every character.
pub enum Boxes {
    Finite,
    Any,
}

const PARTS: [&str; 4] = ["min.x", "min.y", "max.x", "max.y"];

impl Kind for Boxes {
    type Case = Vec<f32>;

    fn name(&self) -> String {
        match self {
            Boxes::Finite => "box of finite points".to_string(),
            Boxes::Any => "box of any points".to_string(),
        }
    }

    /// Mostly a few numbers, an odd count as often as an even one. Of infinite and NaN ones there
    /// are often several on an axis, and now and then nothing else.
    fn draw(&self, _: u64, dice: &mut Dice) -> Vec<f32> {
        let count = match dice.below(16) {
            0 => dice.below(100),
            1..=5 => dice.below(3),
            _ => dice.below(14),
        };
        let palette = match self {
            Boxes::Finite => dice.pick(Palette::FINITE),
            Boxes::Any => dice.pick(&[Palette::Infinite, Palette::Any, Palette::Finite]),
        };
        let mut numbers = palette.numbers(dice, count);
        if matches!(self, Boxes::Any) && dice.one_in(3) {
            fill_an_axis(&mut numbers, dice);
        }
        repeat_some(&mut numbers, dice);
        numbers
    }

    fn judge(&self, case: &Vec<f32>) -> Verdict {
        let ours = parts(face::box_of(case));
        agree("the rule", &PARTS, &ours, &parts(box_of(case)))?;
        let points: Vec<Point> = case
            .chunks_exact(2)
            .map(|p| Point::new(p[0], p[1]))
            .collect();
        let zeno = parts(Bounds::from_points(&points));
        let with_x = points.is_empty() || within_axis(points.iter().map(|p| p.x));
        let with_y = points.is_empty() || within_axis(points.iter().map(|p| p.y));
        for (part, with_axis) in [(0, with_x), (1, with_y), (2, with_x), (3, with_y)] {
            if with_axis {
                agree(
                    "zeno",
                    &PARTS[part..],
                    &ours[part..=part],
                    &zeno[part..=part],
                )?;
            }
        }
        let heading = match (with_x, with_y) {
            (true, true) => "by the rule, and zeno on both axes",
            (false, false) => "by the rule alone",
            _ => "by the rule, and zeno on one axis",
        };
        Ok(heading.into())
    }

    fn simpler<'a>(&self, case: &'a Vec<f32>) -> Candidates<'a, Vec<f32>> {
        let points = shorter_numbers(case, 2).into_iter();
        let numbers = shorter_numbers(case, 1).into_iter();
        Box::new(points.chain(numbers).chain(simpler_numbers(case)))
    }

    fn show(&self, case: &Vec<f32>) -> String {
        listed(["x", "y"].into_iter().cycle(), case)
    }
}

fn parts(b: Bounds) -> [f32; 4] {
    [b.min.x, b.min.y, b.max.x, b.max.y]
}

/// Makes every part of an axis infinite or NaN.
fn fill_an_axis(numbers: &mut [f32], dice: &mut Dice) {
    let ends = [f32::INFINITY, f32::NEG_INFINITY, f32::NAN];
    let same = dice.pick(&ends);
    let mixed = dice.one_in(3);
    for part in numbers.iter_mut().skip(dice.below(2)).step_by(2) {
        *part = if mixed { dice.pick(&ends) } else { same };
    }
}

/// Repeats an earlier number on its axis, negated where it is a zero: ties.
fn repeat_some(numbers: &mut [f32], dice: &mut Dice) {
    if numbers.len() > 2 && dice.one_in(2) {
        let at = 2 + dice.below(numbers.len() - 2);
        let earlier = numbers[at % 2];
        numbers[at] = if earlier == 0.0 { -earlier } else { earlier };
    }
}
