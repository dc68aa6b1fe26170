//! Placements of a box. Where a sum of box and offset is no number or 2^23 from zero the port places
//! nothing, which the reading judges; everywhere else it answers as zeno.

use super::{agree, listed, Kind, Verdict};
use crate::face::{self, Placed};
use compare::numbers::{Dice, Palette};
use compare::oracle::{Bounds, Origin, Placement, Point};
use compare::reading::place_is_refused;
use compare::shrink::{simpler_numbers, Candidates};

/// Placements from one origin.
pub struct Placements(pub Origin);

const NAMES: [&str; 6] = ["min.x", "min.y", "max.x", "max.y", "offset.x", "offset.y"];

impl Kind for Placements {
    type Case = Vec<f32>;

    fn name(&self) -> String {
        match self.0 {
            Origin::TopLeft => "placement from the top left".to_string(),
            Origin::BottomLeft => "placement from the bottom left".to_string(),
        }
    }

    /// Boxes and offsets of any numbers, most often of such as are placed; some put in order, some
    /// with sums near 2^23.
    fn draw(&self, _: u64, dice: &mut Dice) -> Vec<f32> {
        let palette = match dice.below(3) {
            0 => Palette::draw(dice),
            _ => dice.pick(&[Palette::Plain, Palette::Label, Palette::Rounding]),
        };
        let mut numbers = palette.numbers(dice, 6);
        if dice.one_in(3) {
            let offsets = Palette::Label.numbers(dice, 2);
            numbers[4..].copy_from_slice(&offsets);
        }
        if dice.one_in(4) {
            near_the_end(&mut numbers, dice);
        }
        if dice.one_in(2) {
            put_in_order(&mut numbers);
        }
        numbers
    }

    fn judge(&self, case: &Vec<f32>) -> Verdict {
        let b = Bounds::new(Point::new(case[0], case[1]), Point::new(case[2], case[3]));
        let offset = Point::new(case[4], case[5]);
        let ours = face::place(b, offset, self.0);
        if place_is_refused(&b, offset) {
            let nothing = (Point::ZERO, Placement::default());
            agree_on("the rule", &ours, false, nothing)?;
            return Ok("not placed".into());
        }
        let zeno = Placement::compute(self.0, offset, &b);
        agree_on("zeno", &ours, true, zeno)?;
        if b.max.x < b.min.x || b.max.y < b.min.y {
            return Ok("placed, the box inverted".into());
        }
        Ok("placed".into())
    }

    fn simpler<'a>(&self, case: &'a Vec<f32>) -> Candidates<'a, Vec<f32>> {
        Box::new(simpler_numbers(case).into_iter())
    }

    fn show(&self, case: &Vec<f32>) -> String {
        listed(NAMES.into_iter(), case)
    }
}

/// Moves one part to where its sum with the offset is 2^23 or a step beside it.
fn near_the_end(numbers: &mut [f32], dice: &mut Dice) {
    let part = dice.below(4);
    let offset = numbers[4 + part % 2];
    let end = dice.pick(&[8_388_608.0, -8_388_608.0]);
    numbers[part] = end - offset + dice.between(-4, 4) as f32 / 2.0;
}

fn put_in_order(numbers: &mut [f32]) {
    for axis in 0..2 {
        if numbers[axis] > numbers[axis + 2] {
            numbers.swap(axis, axis + 2);
        }
    }
}

/// Compares the whole answer; of the offset the bits.
fn agree_on(
    by: &str,
    ours: &Placed,
    placed: bool,
    (offset, place): (Point, Placement),
) -> Result<(), String> {
    if ours.placed != placed {
        return Err(format!("placed: the port {}, {by} {placed}", ours.placed));
    }
    let our_offset = [ours.offset.x, ours.offset.y];
    agree(
        by,
        &["offset x", "offset y"],
        &our_offset,
        &[offset.x, offset.y],
    )?;
    let our_place = whole_numbers(&ours.place);
    for (our, their) in our_place.into_iter().zip(whole_numbers(&place)) {
        if our != their {
            return Err(format!("{}: the port {}, {by} {}", our.0, our.1, their.1));
        }
    }
    Ok(())
}

fn whole_numbers(p: &Placement) -> [(&'static str, i64); 4] {
    [
        ("left", i64::from(p.left)),
        ("top", i64::from(p.top)),
        ("width", i64::from(p.width)),
        ("height", i64::from(p.height)),
    ]
}
