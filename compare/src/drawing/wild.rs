//! Calls of any kind at all: random bytes, records and sizes, whatever is lent.

use super::{at_a_boundary, at_the_limits, old, ordinary, soil, spoil_floats, Drawing};
use crate::numbers::{Dice, Palette};
use crate::paths::damaged;
use crate::reading::LENGTHS;

/// Of all makes; lists damaged more than once, loans of any length.
pub fn wild(dice: &mut Dice) -> Drawing {
    let mut drawing = match dice.below(8) {
        0 => at_the_limits(dice),
        1..=2 => at_a_boundary(dice),
        _ => ordinary(dice),
    };
    match dice.below(8) {
        0 => drawing.list = random_bytes(dice),
        1 => drawing.list = random_records(dice),
        2..=3 => {
            for _ in 0..=dice.below(3) {
                drawing.list = damaged(&drawing.list, dice);
            }
        }
        _ => {}
    }
    if dice.one_in(8) {
        spoil_floats(&mut drawing, dice);
    }
    if dice.one_in(6) {
        random_sizes(&mut drawing, dice);
    }
    if dice.one_in(4) {
        random_loans(&mut drawing, dice);
    }
    soil(&mut drawing, dice);
    drawing
}

fn random_bytes(dice: &mut Dice) -> Vec<u8> {
    let most = dice.pick(&[4, 16, 64, 400]);
    let length = dice.below(most);
    (0..length).map(|_| dice.roll() as u8).collect()
}

/// Records of any kind with its length, or one time in twenty any length, of any numbers; the first
/// is most often a MoveTo, and behind a Close most often stands what may stand there.
fn random_records(dice: &mut Dice) -> Vec<u8> {
    let palette = Palette::draw(dice);
    let mut bytes = Vec::new();
    let mut kind = 0;
    for _ in 0..1 + dice.below(12) {
        kind = match kind {
            0 if !dice.one_in(8) => 1,
            5 if !dice.one_in(6) => dice.pick(&[1, 5]),
            _ => 1 + dice.below(5),
        };
        let body = LENGTHS[kind - 1] - 2;
        let length = if dice.one_in(20) {
            dice.below(40)
        } else {
            2 + body
        };
        bytes.extend((length as u16).to_le_bytes());
        bytes.extend((kind as u16).to_le_bytes());
        for _ in 0..body / 4 {
            bytes.extend(palette.number(dice).to_le_bytes());
        }
    }
    bytes
}

fn random_sizes(drawing: &mut Drawing, dice: &mut Dice) {
    let mut size = || match dice.below(4) {
        0 => dice.below(4),
        1 => dice.below(100),
        2 => dice.below(3000),
        _ => dice.roll() as usize >> dice.below(64),
    };
    (drawing.width, drawing.height) = (size(), size());
    (drawing.pitch, drawing.first, drawing.end) = (size(), size(), size());
}

fn random_loans(drawing: &mut Drawing, dice: &mut Dice) {
    let most = dice.pick(&[4, 100, 3000]);
    drawing.mask = old::bytes(dice.below(most));
    drawing.words = old::words(dice.below(most));
}

#[cfg(test)]
mod tests {
    use super::*;
    use crate::reading;
    use std::collections::HashMap;

    /// Enough pass to be drawn, and every refusal but 13 is met.
    #[test]
    fn wild_calls_meet_everything() {
        let mut dice = Dice::new(21);
        let mut seen: HashMap<u8, usize> = HashMap::new();
        for _ in 0..8000 {
            let judged = reading::judge(&wild(&mut dice));
            let number = judged.map_or_else(|refusal| refusal.number, |_| 0);
            *seen.entry(number).or_default() += 1;
        }
        assert!(seen[&0] > 1500, "{seen:?}");
        for number in (1..=12).chain([18]) {
            assert!(seen.get(&number) > Some(&10), "{number}: {seen:?}");
        }
    }
}
