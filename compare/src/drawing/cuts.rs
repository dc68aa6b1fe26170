//! Calls on tiny labels whose points lie on the grid of 1/256 and beside it, for the number of
//! coordinates that are cut.

use super::{any_step, soil, spoil_floats, Drawing, Way};
use crate::grid::{beside_the_grid, each_float, Moved};
use crate::numbers::Dice;
use crate::oracle::Fill;
use crate::paths::damaged;

/// A label whose rows are all drawn; a few are refused.
pub fn cuts_on_a_label(dice: &mut Dice) -> Drawing {
    let (width, height) = (dice.below(4), dice.pick(&[0, 1, 1, 2, 2, 3, 3, 3]));
    let mut drawing = tiny(&beside_the_grid(dice), width, height);
    drawing.fill = dice.pick(&[Fill::NonZero, Fill::EvenOdd]);
    drawing.up = dice.one_in(2);
    match dice.below(64) {
        0 => drawing.list = damaged(&drawing.list, dice),
        1 => spoil_floats(&mut drawing, dice),
        2 => drawing.words.truncate(height),
        _ => {}
    }
    drawing
}

fn tiny(moved: &Moved, width: usize, height: usize) -> Drawing {
    Drawing {
        transform: moved.transform,
        offset: moved.offset,
        ..Drawing::plain(&moved.path, width, height)
    }
}

pub fn cuts_at_once(_: u64, dice: &mut Dice) -> (Drawing, Way) {
    let mut drawing = cuts_on_a_label(dice);
    soil(&mut drawing, dice);
    (drawing, Way::AtOnce)
}

/// A band of a label which may be higher than its points are, so that a band may see none of them; one
/// in four has no rows.
pub fn cuts_in_a_band(_: u64, dice: &mut Dice) -> (Drawing, Way) {
    let mut drawing = cuts_on_a_label(dice);
    drawing.height += dice.pick(&[1, 1, 4]);
    drawing.first = dice.below(drawing.height);
    drawing.end = match dice.below(4) {
        0 => drawing.first,
        _ => drawing.first + 1 + dice.below(drawing.height - drawing.first),
    };
    drawing.lend(0, drawing.every_place());
    soil(&mut drawing, dice);
    (drawing, Way::AtOnce)
}

pub fn cuts_in_bands(_: u64, dice: &mut Dice) -> (Drawing, Way) {
    let mut drawing = cuts_on_a_label(dice);
    soil(&mut drawing, dice);
    let step = any_step(drawing.height, dice);
    (drawing, Way::InBands(step))
}

/// The point of this number on a label without a pixel.
pub fn cuts_of_each_float(number: u64, dice: &mut Dice) -> (Drawing, Way) {
    (tiny(&each_float(number, dice), 0, 0), Way::AtOnce)
}

#[cfg(test)]
mod tests {
    use super::*;
    use crate::driver;
    use std::collections::HashMap;

    /// What a call is: refused, with no row, with nothing stored, or with something; where coordinates
    /// are cut and where not.
    fn counted(make: fn(u64, &mut Dice) -> (Drawing, Way)) -> HashMap<(&'static str, bool), usize> {
        let mut dice = Dice::new(52);
        let mut seen = HashMap::new();
        for number in 0..8000 {
            let (drawing, way) = make(number, &mut dice);
            let outcome = driver::outcome_in(&drawing, way);
            let what = match outcome.number {
                0 if drawing.rows() == 0 => "no rows",
                0 if outcome.cells == 0 => "nothing",
                0 => "something",
                13 => "no room",
                _ => "refused",
            };
            *seen.entry((what, outcome.cut > 0)).or_default() += 1;
        }
        seen
    }

    #[test]
    fn coordinates_are_cut_whatever_is_drawn() {
        for make in [cuts_at_once, cuts_in_a_band, cuts_in_bands] {
            let seen = counted(make);
            for what in ["no rows", "nothing", "something"] {
                for is_cut in [true, false] {
                    assert!(seen[&(what, is_cut)] > 100, "{seen:?}");
                }
            }
            assert!(seen[&("refused", false)] > 100, "{seen:?}");
        }
        assert!(counted(cuts_in_bands)[&("no room", false)] > 20);
    }

    /// Half of the floats pass, and most of these are cut.
    #[test]
    fn floats_are_judged_without_a_pixel() {
        let seen = counted(cuts_of_each_float);
        assert_eq!(seen.len(), 3, "{seen:?}");
        assert!(seen[&("no rows", true)] > 3000, "{seen:?}");
    }
}
