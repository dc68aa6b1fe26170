//! One call of a drawing with all that it is lent, and calls drawn from the dice.

mod cuts;
mod filled;
mod limits;
mod no_room;
mod old;
mod shown;
mod simpler;
mod way;
mod wild;

pub use cuts::{cuts_at_once, cuts_in_a_band, cuts_in_bands, cuts_of_each_float, cuts_on_a_label};
pub use filled::{every_order, long_rows_filled, orders_in_all, rows_filled};
pub use limits::{
    at_the_cap, at_the_limits, in_bands_at_the_cap, in_bands_of_full_rows, with_just_room,
};
pub use no_room::{
    every_short_list, no_room_at_once, no_room_for_a_band, no_room_in_bands, short_lists_in_all,
};
pub use old::{soil, soil_words};
pub use shown::{floats_shown, rule_shown};
pub use simpler::simpler_floats;
pub use way::{any_step, shown_in, simpler_in, with_room_for_bands, Way};
pub use wild::wild;

use crate::list;
use crate::numbers::{Dice, Palette};
use crate::oracle::{Command, Fill, Point, Transform};
use crate::paths::{damaged, Character};
use crate::reading::SIDE;

/// All that a drawing is lent and told; the band is [first, end).
#[derive(Clone, Debug)]
pub struct Drawing {
    pub list: Vec<u8>,
    pub transform: Transform,
    pub offset: Point,
    pub fill: Fill,
    pub up: bool,
    pub width: usize,
    pub height: usize,
    pub pitch: usize,
    pub first: usize,
    pub end: usize,
    /// The lent bytes with what they hold before.
    pub mask: Vec<u8>,
    /// The lent words with what they hold before.
    pub words: Vec<u32>,
}

impl Drawing {
    /// The plainest call: the whole label, nonzero, down, no transform, pitch the width, a mask
    /// that just fits and a pool for every place that there is.
    pub fn plain(path: &[Command], width: usize, height: usize) -> Drawing {
        let mut drawing = Drawing {
            list: list::written(path),
            transform: Transform::IDENTITY,
            offset: Point::ZERO,
            fill: Fill::NonZero,
            up: false,
            width,
            height,
            pitch: width,
            first: 0,
            end: height,
            mask: Vec::new(),
            words: Vec::new(),
        };
        drawing.lend(0, drawing.every_place());
        drawing
    }

    pub fn rows(&self) -> usize {
        self.end - self.first
    }

    /// How many places the band has, column -1 included.
    pub fn every_place(&self) -> usize {
        (self.width + 1) * self.rows()
    }

    /// Lends a mask that fits with `spare` bytes behind it, and a pool of `places`; both hold
    /// something, which no answer may show.
    pub fn lend(&mut self, spare: usize, places: usize) {
        let rows = self.rows();
        self.mask = old::bytes(self.bytes_needed() + spare);
        self.words = old::words(rows + 4 * places.min(16_384 + 3));
    }

    /// How many bytes a mask must have: pitch·(rows−1) + width, none for no rows.
    pub fn bytes_needed(&self) -> usize {
        let before_last = self.rows().checked_sub(1);
        before_last.map_or(0, |rows| rows * self.pitch + self.width)
    }

    /// The same call for the band [first, end), lent a mask that fits and a pool for every place.
    pub fn band(&self, first: usize, end: usize) -> Drawing {
        let mut band = self.clone();
        (band.first, band.end) = (first, end);
        band.lend(0, band.every_place());
        band
    }
}

/// A call that is mostly accepted: a path of any character under any rule, way, band and pitch.
pub fn ordinary(dice: &mut Dice) -> Drawing {
    let character = dice.pick(&Character::ALL);
    ordinary_of(character, dice)
}

/// The same with a path of this character.
pub fn ordinary_of(character: Character, dice: &mut Dice) -> Drawing {
    let (width, height) = size(dice);
    let path = character.path(width, height, dice);
    let mut drawing = Drawing::plain(&path, width, height);
    drawing.fill = dice.pick(&[Fill::NonZero, Fill::EvenOdd]);
    drawing.up = dice.one_in(2);
    drawing.pitch = width + dice.pick(&[0, 0, 1, 3, 64]);
    if dice.one_in(2) {
        drawing.transform = odd_transform(dice);
    }
    if dice.one_in(2) {
        drawing.offset = odd_offset(dice);
    }
    if dice.one_in(2) {
        drawing.first = dice.below(height + 1);
        drawing.end = drawing.first + dice.below(height + 1 - drawing.first);
    }
    let places = match dice.below(4) {
        0 => dice.below(8),
        _ => drawing.every_place(),
    };
    let spare = dice.pick(&[0, 0, 1, 7]);
    drawing.lend(spare, places);
    soil(&mut drawing, dice);
    drawing
}

/// A call with one or two of its parts at a boundary of the table of refusals or beyond it.
pub fn at_a_boundary(dice: &mut Dice) -> Drawing {
    let mut drawing = ordinary(dice);
    for _ in 0..1 + dice.below(2) {
        move_to_a_boundary(&mut drawing, dice);
    }
    drawing
}

fn move_to_a_boundary(drawing: &mut Drawing, dice: &mut Dice) {
    const FAR: usize = usize::MAX;
    match dice.below(10) {
        0 => drawing.width = dice.pick(&[0, SIDE - 1, SIDE, SIDE + 1, FAR]),
        1 => drawing.height = dice.pick(&[drawing.end, SIDE, SIDE + 1, FAR]),
        2 => drawing.first = dice.pick(&[drawing.end, drawing.end + 1, FAR]),
        3 => drawing.end = dice.pick(&[drawing.first, drawing.height, drawing.height + 1, FAR]),
        4 => drawing.pitch = near(drawing.width, &[0, 65_536, 65_537, FAR], dice),
        5 => drawing.mask.truncate(drawing.mask.len().saturating_sub(1)),
        6 => {
            let rows = drawing.end.wrapping_sub(drawing.first);
            let count = near(rows, &[0], dice).min(drawing.words.len());
            drawing.words.truncate(count);
        }
        7 => spoil_floats(drawing, dice),
        8 => drawing.list = longest(dice),
        _ => drawing.list = damaged(&drawing.list, dice),
    }
}

/// A number beside this one, or one of the others.
fn near(number: usize, others: &[usize], dice: &mut Dice) -> usize {
    match dice.below(4) {
        0 => number.wrapping_sub(1),
        1 => number,
        2 => number.wrapping_add(1),
        _ => dice.pick(others),
    }
}

/// Makes a transform entry or an offset part any number, NaN and infinite included.
fn spoil_floats(drawing: &mut Drawing, dice: &mut Dice) {
    let number = Palette::Any.number(dice);
    let (t, offset) = (&mut drawing.transform, &mut drawing.offset);
    let parts = [
        &mut t.xx,
        &mut t.xy,
        &mut t.yx,
        &mut t.yy,
        &mut t.x,
        &mut t.y,
        &mut offset.x,
        &mut offset.y,
    ];
    let which = dice.below(parts.len());
    *parts.into_iter().nth(which).expect("one of eight") = number;
}

/// A MoveTo and Closes up to 65,536 bytes, or one record more.
fn longest(dice: &mut Dice) -> Vec<u8> {
    let closes = dice.pick(&[16_381, 16_382]);
    let mut bytes = list::record(&Command::MoveTo(Point::ZERO));
    bytes.extend(list::record(&Command::Close).repeat(closes));
    bytes
}

/// Mostly small labels; now and then one as large as an address, or as long as may be one way, and
/// very seldom both ways.
fn size(dice: &mut Dice) -> (usize, usize) {
    match dice.below(400) {
        0 if dice.one_in(20) => (SIDE, SIDE),
        0 => (400, 120),
        1..=8 => (dice.pick(&[SIDE - 1, SIDE]), dice.below(4)),
        9..=16 => (dice.below(4), dice.pick(&[SIDE - 1, SIDE])),
        17..=90 => (dice.below(64), dice.below(64)),
        _ => (dice.below(9), dice.below(9)),
    }
}

/// Mirrors, quarter turns, shears, scales up and down, entries that kill a coordinate.
pub fn odd_transform(dice: &mut Dice) -> Transform {
    let entries = [0.0, -0.0, 1.0, -1.0, 0.5, 2.0, 0.3, -1.7, 1.0e-3];
    let mut t = Transform::new(
        dice.pick(&entries),
        dice.pick(&entries),
        dice.pick(&entries),
        dice.pick(&entries),
        0.0,
        0.0,
    );
    if dice.one_in(2) {
        (t.xy, t.yx) = (0.0, 0.0);
    }
    if dice.one_in(3) {
        (t.xx, t.yy) = (1.0, 1.0);
    }
    let moved = odd_offset(dice);
    (t.x, t.y) = (moved.x, moved.y);
    t
}

pub fn odd_offset(dice: &mut Dice) -> Point {
    let mut part = || match dice.below(4) {
        0 => dice.pick(&[0.0, -0.0, 1.0e-30]),
        1 => dice.between(-8, 8) as f32,
        2 => dice.between(-2048, 2048) as f32 / 256.0,
        _ => dice.between(-10_000, 10_000) as f32 / 997.0,
    };
    Point::new(part(), part())
}

#[cfg(test)]
mod tests {
    use super::*;
    use crate::driver;
    use std::collections::HashMap;

    fn numbers_of(make: fn(&mut Dice) -> Drawing, count: usize) -> HashMap<u8, usize> {
        let mut dice = Dice::new(6);
        let mut seen = HashMap::new();
        for _ in 0..count {
            let outcome = driver::outcome(&make(&mut dice));
            *seen.entry(outcome.number).or_default() += 1;
        }
        seen
    }

    /// Three in five at least are drawn, and running out of room is among the rest.
    #[test]
    fn ordinary_calls_are_mostly_accepted() {
        let seen = numbers_of(ordinary, 4000);
        assert!(seen[&0] > 2400, "{seen:?}");
        assert!(seen[&13] > 100, "{seen:?}");
    }

    #[test]
    fn boundaries_bring_every_refusal_about() {
        let seen = numbers_of(at_a_boundary, 6000);
        for number in (0..=13).chain([18]) {
            assert!(seen.get(&number) > Some(&10), "{number}: {seen:?}");
        }
    }
}
