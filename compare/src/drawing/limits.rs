//! Calls with sizes at their limits, and with a pool that just holds what is drawn.

use super::{longest, odd_offset, ordinary, soil, spoil_floats, Drawing};
use crate::driver;
use crate::numbers::Dice;
use crate::oracle::{Command, Fill, Point};
use crate::paths::{damaged, full_rows, Character};
use crate::reading::SIDE;

const FAR: usize = usize::MAX;

/// Every size near its limit or beyond it, a mask and a workspace that just fit or lack one entry.
pub fn at_the_limits(dice: &mut Dice) -> Drawing {
    let (width, height) = sides(dice);
    let character = dice.pick(&Character::ALL);
    let path = character.path(width.min(SIDE), height.min(SIDE), dice);
    let mut drawing = Drawing::plain(&path, 0, 0);
    (drawing.width, drawing.height) = (width, height);
    drawing.fill = dice.pick(&[Fill::NonZero, Fill::EvenOdd]);
    drawing.up = dice.one_in(2);
    drawing.pitch = pitch(width, dice);
    (drawing.first, drawing.end) = few_rows(height, dice);
    if dice.one_in(3) {
        drawing.offset = odd_offset(dice);
    }
    match dice.below(16) {
        0 => drawing.list = longest(dice),
        1 => drawing.list = damaged(&drawing.list, dice),
        2 => spoil_floats(&mut drawing, dice),
        _ => {}
    }
    lend_just_enough(&mut drawing, dice);
    soil(&mut drawing, dice);
    drawing
}

/// One side at its limit, seldom both: a whole label of both is large.
fn sides(dice: &mut Dice) -> (usize, usize) {
    let far = dice.pick(&[SIDE - 1, SIDE, SIDE, SIDE, SIDE + 1, FAR]);
    match dice.below(64) {
        0 => (far, dice.pick(&[SIDE, SIDE + 1, FAR])),
        1..=31 => (far, dice.below(6)),
        _ => (dice.below(6), far),
    }
}

fn pitch(width: usize, dice: &mut Dice) -> usize {
    match dice.below(8) {
        0 => width.wrapping_sub(1),
        1..=3 => width,
        4 => width.wrapping_add(1),
        _ => dice.pick(&[65_535, 65_536, 65_536, 65_537, FAR]),
    }
}

/// A band of at most three rows, most often at the label's end.
fn few_rows(height: usize, dice: &mut Dice) -> (usize, usize) {
    let end = match dice.below(8) {
        0 => height.wrapping_add(1),
        1 => dice.below(4),
        2 => height.saturating_sub(1),
        _ => height,
    };
    let first = match dice.below(12) {
        0 => end.wrapping_add(1),
        1 => FAR,
        _ => end.saturating_sub(dice.below(4)),
    };
    (first, end)
}

/// A mask and a workspace with what the sizes need, or an entry less or more.
fn lend_just_enough(drawing: &mut Drawing, dice: &mut Dice) {
    let rows = drawing.end.saturating_sub(drawing.first).min(4);
    let fits = drawing.pitch <= 65_537 && drawing.width <= SIDE + 1;
    let bytes = match rows.checked_sub(1) {
        Some(before_last) if fits => drawing.pitch * before_last + drawing.width,
        _ => 0,
    };
    drawing.mask = super::old::bytes(beside(bytes, dice));
    let full = 4 * (SIDE + 1);
    let places = dice.pick(&[0, 0, 1, 2, full, full]);
    let spare = dice.pick(&[0, 0, 1, 3]);
    drawing.words = super::old::words(beside(rows + 4 * places, dice) + spare);
}

fn beside(length: usize, dice: &mut Dice) -> usize {
    match dice.below(8) {
        0 => length.saturating_sub(1),
        1 => length + 1,
        _ => length,
    }
}

/// A call whose pool holds just what is drawn, one place less or more, or misses it by words.
pub fn with_just_room(dice: &mut Dice) -> Drawing {
    let mut drawing = ordinary(dice);
    lend_just_room(&mut drawing, dice);
    drawing
}

/// Lends a call such a pool.
pub fn lend_just_room(drawing: &mut Drawing, dice: &mut Dice) {
    let words = lend_enough(drawing);
    let short = dice.pick(&[0, 0, 1, 4]).min(words);
    let more = dice.pick(&[0, 0, 3]);
    drawing.words = super::old::words(words - short + more);
    soil(drawing, dice);
}

/// Lends a mask and a pool with room for everything, and tells how many words would just do.
pub fn lend_enough(drawing: &mut Drawing) -> usize {
    drawing.lend(0, drawing.every_place());
    drawing.rows() + 4 * driver::outcome(drawing).cells
}

/// The most places that a pool holds.
const CAP: usize = 16_384;

/// A call with about 16,384 places and a workspace for more.
pub fn at_the_cap(dice: &mut Dice) -> Drawing {
    let mut drawing = tall_bars(2, dice);
    let rows = drawing.rows();
    lend_the_cap(&mut drawing, rows, dice);
    soil(&mut drawing, dice);
    drawing
}

/// A call with about 32,768 places and a step by which a band has about half of them, or less.
pub fn in_bands_at_the_cap(dice: &mut Dice) -> (Drawing, usize) {
    let mut drawing = tall_bars(4, dice);
    let step = dice.pick(&[1024, 2047, 2048, 2048, 2049]);
    lend_the_cap(&mut drawing, step, dice);
    soil(&mut drawing, dice);
    (drawing, step)
}

/// A call of the widest label, every place of its rows stored, and a step with just room for it, or
/// just not: of three rows the largest pool has the places, of four it has not.
pub fn in_bands_of_full_rows(dice: &mut Dice) -> (Drawing, usize) {
    let rows = 1 + dice.below(8);
    let mut drawing = Drawing::plain(&full_rows(SIDE, rows), SIDE, rows);
    let step = dice.pick(&[1, 2, 3, 3, 4]);
    let words = step + 4 * (SIDE + 1) * step;
    drawing.words = super::old::words(words - dice.pick(&[0, 0, 0, 1]));
    soil(&mut drawing, dice);
    (drawing, step)
}

/// Bars as tall as may be, each two places a row, and at times a last MoveTo that takes one place
/// more.
fn tall_bars(count: usize, dice: &mut Dice) -> Drawing {
    let mut path = Vec::new();
    for bar in 0..count {
        let left = 8.0 * bar as f32 + dice.pick(&[0.0, 0.5, 2.25]);
        let lower = if bar == count - 1 {
            dice.pick(&[0, 0, 0, 1])
        } else {
            0
        };
        path.extend(bar_of(left, left + 4.0, (SIDE - lower) as f32));
    }
    let width = 8 * count;
    if dice.one_in(2) {
        let row = dice.below(SIDE) as f32;
        path.push(Command::MoveTo(Point::new((width - 1) as f32, row)));
    }
    let mut drawing = Drawing::plain(&path, width, SIDE);
    if dice.one_in(8) {
        drawing.first = 1;
    }
    drawing
}

/// Words for so many rows and as many places as a pool holds, a word less, or more.
fn lend_the_cap(drawing: &mut Drawing, rows: usize, dice: &mut Dice) {
    let words = rows + 4 * CAP + dice.pick(&[0, 0, 4, 40]);
    drawing.words = super::old::words(words - dice.pick(&[0, 0, 0, 1]));
}

/// A rectangle from row 0 down.
fn bar_of(left: f32, right: f32, bottom: f32) -> [Command; 5] {
    [
        Command::MoveTo(Point::new(left, 0.0)),
        Command::LineTo(Point::new(right, 0.0)),
        Command::LineTo(Point::new(right, bottom)),
        Command::LineTo(Point::new(left, bottom)),
        Command::Close,
    ]
}

#[cfg(test)]
mod tests {
    use super::*;
    use crate::drawing::Way;
    use std::collections::HashMap;

    fn numbers_of(make: fn(&mut Dice) -> Drawing, count: usize) -> HashMap<u8, usize> {
        let mut dice = Dice::new(14);
        let mut seen = HashMap::new();
        for _ in 0..count {
            let outcome = driver::outcome(&make(&mut dice));
            *seen.entry(outcome.number).or_default() += 1;
        }
        seen
    }

    #[test]
    fn limits_bring_every_refusal_of_a_size_about() {
        let seen = numbers_of(at_the_limits, 4000);
        for number in (0..=8).chain([13]) {
            assert!(seen.get(&number) > Some(&10), "{number}: {seen:?}");
        }
    }

    #[test]
    fn room_is_just_enough_or_just_not() {
        for (make, count) in [
            (with_just_room as fn(&mut Dice) -> _, 2000),
            (at_the_cap, 40),
        ] {
            let seen = numbers_of(make, count);
            assert!(seen[&0] > count / 8 && seen[&13] > count / 8, "{seen:?}");
        }
    }

    /// In bands as well, where at once there is never room.
    #[test]
    fn bands_have_just_room_too() {
        let mut dice = Dice::new(24);
        let mut accepted = 0;
        for _ in 0..40 {
            let (drawing, step) = in_bands_at_the_cap(&mut dice);
            assert_eq!(driver::outcome(&drawing).number, 13);
            let in_bands = driver::outcome_in(&drawing, Way::InBands(step));
            accepted += usize::from(in_bands.number == 0);
        }
        assert!((5..35).contains(&accepted), "{accepted}");
    }

    /// The cap is met exactly: 16,384 places are drawn.
    #[test]
    fn the_cap_is_met() {
        let mut dice = Dice::new(15);
        let cells = |dice: &mut Dice| driver::outcome(&at_the_cap(dice)).cells;
        assert!((0..40).any(|_| cells(&mut dice) == 16_384));
    }
}
