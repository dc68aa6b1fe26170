//! One call of bounds or of a placement, and calls drawn from the dice.

use crate::drawing::{floats_shown, odd_offset, odd_transform, simpler_floats};
use crate::grid::{beside_the_grid, each_float, Moved};
use crate::list;
use crate::numbers::{Dice, Palette};
use crate::oracle::{Command, Origin, Point, Transform};
use crate::paths::{damaged, Character};
use crate::shrink::Candidates;

/// What a placement takes; bounds take the first two.
#[derive(Clone, Debug)]
pub struct Placing {
    pub list: Vec<u8>,
    pub transform: Transform,
    pub offset: Point,
    pub origin: Origin,
}

impl Placing {
    /// Simpler calls, the boldest first.
    pub fn simpler(&self) -> Candidates<'_, Placing> {
        let floats = simpler_floats(&self.transform, self.offset).into_iter();
        let with_floats = floats.map(|(transform, offset)| Placing {
            transform,
            offset,
            ..self.clone()
        });
        let candidates = self
            .with_lists(list::shorter(&self.list))
            .chain(with_floats)
            .chain(self.with_lists(list::plainer(&self.list)));
        Box::new(candidates)
    }

    fn with_lists(&self, lists: Vec<Vec<u8>>) -> impl Iterator<Item = Placing> + '_ {
        lists.into_iter().map(|list| Placing {
            list,
            ..self.clone()
        })
    }

    pub fn shown(&self) -> String {
        let floats = floats_shown(&self.transform, self.offset);
        format!("{}{floats}  {:?}\n", list::shown(&self.list), self.origin)
    }
}

/// A call of any character: of what a label is drawn with, of signed zeros, of points at the point
/// rule's limit or brought back from afar, of any numbers; some lists damaged, some empty.
pub fn any_placing(dice: &mut Dice) -> Placing {
    let mut placing = match dice.below(8) {
        0 => zeros(dice),
        1 => brought_back(dice),
        2 => scattered(dice),
        3 => at_the_limit(dice),
        _ => of_a_label(dice),
    };
    placing.origin = dice.pick(&[Origin::TopLeft, Origin::BottomLeft]);
    match dice.below(16) {
        0 => placing.list.clear(),
        1..=3 => placing.list = damaged(&placing.list, dice),
        4 => spoil_a_float(&mut placing, dice),
        _ => {}
    }
    placing
}

/// A list on the grid of 1/256 and beside it; a few are refused.
pub fn placing_beside_the_grid(_: u64, dice: &mut Dice) -> Placing {
    let mut placing = moved(&beside_the_grid(dice));
    placing.origin = dice.pick(&[Origin::TopLeft, Origin::BottomLeft]);
    match dice.below(64) {
        0 => placing.list = damaged(&placing.list, dice),
        1 => spoil_a_float(&mut placing, dice),
        _ => {}
    }
    placing
}

/// The point of this number.
pub fn placing_of_each_float(number: u64, dice: &mut Dice) -> Placing {
    moved(&each_float(number, dice))
}

fn moved(moved: &Moved) -> Placing {
    placing(&moved.path, moved.transform, moved.offset)
}

fn placing(path: &[Command], transform: Transform, offset: Point) -> Placing {
    Placing {
        list: list::written(path),
        transform,
        offset,
        origin: Origin::TopLeft,
    }
}

fn of_a_label(dice: &mut Dice) -> Placing {
    let path = dice.pick(&Character::ALL).path(8, 8, dice);
    let transform = match dice.below(2) {
        0 => Transform::IDENTITY,
        _ => odd_transform(dice),
    };
    let offset = match dice.below(4) {
        0 => Point::ZERO,
        1 => Point::new(Palette::Label.number(dice), Palette::Label.number(dice)),
        _ => odd_offset(dice),
    };
    placing(&path, transform, offset)
}

/// Points of zeros and small numbers, moved by zeros: −0.0 survives where all that is added is −0.0.
fn zeros(dice: &mut Dice) -> Placing {
    let mut near_zero = |_| dice.pick(&[0.0, -0.0, 0.0, -0.0, 1.0e-45, -1.0e-45, 0.25, -0.25]);
    let parts: [f32; 12] = std::array::from_fn(&mut near_zero);
    let [x, y, offset_x, offset_y]: [f32; 4] = std::array::from_fn(&mut near_zero);
    let transform = Transform::new(1.0, dice.pick(&[0.0, -0.0]), 0.0, 1.0, x, y);
    let point = |n: usize| Point::new(parts[2 * n], parts[2 * n + 1]);
    let path = [
        Command::MoveTo(point(0)),
        Command::LineTo(point(1)),
        Command::QuadTo(point(2), point(3)),
        Command::CurveTo(point(3), point(4), point(5)),
    ];
    let count = 1 + dice.below(4);
    placing(&path[..count], transform, Point::new(offset_x, offset_y))
}

/// Points moved as far away as a float goes, and an offset that brings them back.
fn brought_back(dice: &mut Dice) -> Placing {
    let mut path = dice.pick(&Character::ALL).path(4, 4, dice);
    path.truncate(3);
    let mut far = || {
        dice.pick(&[
            f32::MAX,
            f32::MIN,
            1.0e30,
            -7.0e9,
            16_777_216.0,
            -8_388_609.0,
        ])
    };
    let (x, y) = (far(), far());
    let transform = Transform::new(1.0, 0.0, 0.0, 1.0, x, y);
    placing(&path, transform, Point::new(-x, -y))
}

/// Points of any numbers of one palette, small ones more often.
fn scattered(dice: &mut Dice) -> Placing {
    let palette = match dice.below(2) {
        0 => Palette::draw(dice),
        _ => dice.pick(&[Palette::Plain, Palette::Rounding]),
    };
    let point = |dice: &mut Dice| Point::new(palette.number(dice), palette.number(dice));
    let mut path = vec![Command::MoveTo(point(dice))];
    for _ in 0..dice.below(5) {
        path.push(match dice.below(3) {
            0 => Command::LineTo(point(dice)),
            1 => Command::QuadTo(point(dice), point(dice)),
            _ => Command::CurveTo(point(dice), point(dice), point(dice)),
        });
    }
    placing(&path, odd_transform(dice), odd_offset(dice))
}

/// Points whose sum with the offset stands beside the point rule's limit.
fn at_the_limit(dice: &mut Dice) -> Placing {
    let offset = odd_offset(dice);
    let mut part = |offset: f32| {
        let limit = dice.pick(&[4096.0, 4096.0034, 4096.00390625, 4095.9998]);
        let limit = if dice.one_in(2) { -limit } else { limit };
        dice.pick(&[limit, limit, 0.5]) - offset
    };
    let mut point = || Point::new(part(offset.x), part(offset.y));
    let path = [Command::MoveTo(point()), Command::LineTo(point())];
    placing(&path, Transform::IDENTITY, offset)
}

fn spoil_a_float(placing: &mut Placing, dice: &mut Dice) {
    let number = Palette::Any.number(dice);
    let (t, offset) = (&mut placing.transform, &mut placing.offset);
    match dice.below(5) {
        0 => t.xx = number,
        1 => t.yx = number,
        2 => t.y = number,
        3 => offset.x = number,
        _ => offset.y = number,
    }
}

#[cfg(test)]
mod tests {
    use super::*;
    use crate::driver;
    use crate::shrink::smallest;
    use std::collections::HashMap;

    /// More than half are placed, and 6, 8 to 12 and 18 are all met.
    #[test]
    fn placings_are_of_every_kind() {
        let mut dice = Dice::new(16);
        let mut seen: HashMap<u8, usize> = HashMap::new();
        for _ in 0..8000 {
            let p = any_placing(&mut dice);
            let placed = driver::placement(&p.list, p.transform, p.offset, p.origin);
            let number = placed.map_or_else(|refusal| refusal.number, |_| 0);
            *seen.entry(number).or_default() += 1;
        }
        assert!(seen[&0] > 4000, "{seen:?}");
        for number in [6, 8, 9, 10, 11, 12, 18] {
            assert!(seen[&number] > 20, "{number}: {seen:?}");
        }
    }

    #[test]
    fn shrinking_ends() {
        let mut dice = Dice::new(17);
        for _ in 0..50 {
            let least = smallest(any_placing(&mut dice), Placing::simpler, |_| true);
            assert!(least.list.is_empty() && least.offset == Point::ZERO);
        }
    }

    /// A negative zero is met in answers, and so is a part at the end of the floats.
    #[test]
    fn odd_answers_are_met() {
        let mut dice = Dice::new(18);
        let mut boxes = (0..4000).filter_map(|_| {
            let p = any_placing(&mut dice);
            driver::bounds(&p.list, p.transform).ok()
        });
        let negative_zero = (-0.0f32).to_bits();
        assert!(boxes.any(|b| b.min.x.to_bits() == negative_zero));
        let mut far = 0;
        for _ in 0..4000 {
            let p = brought_back(&mut dice);
            let placed = driver::placement(&p.list, p.transform, p.offset, p.origin);
            far += usize::from(p.transform.x.abs() == f32::MAX && placed.is_ok());
        }
        assert!(far > 20, "{far}");
    }
}
