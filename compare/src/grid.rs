//! Paths on the grid of 1/256 and beside it, with a transform and an offset that leave their points
//! where they are, bring them onto the grid or take them off it.

use crate::numbers::{Dice, Palette};
use crate::oracle::{Command, Point, Transform};
use crate::reading::REACH;

/// A path and what moves its points.
#[derive(Clone, Debug)]
pub struct Moved {
    pub path: Vec<Command>,
    pub transform: Transform,
    pub offset: Point,
}

/// A path of up to six records. Where its points are moved to they lie near each other, so that they
/// are quickly drawn: about zero, or where floats are coarse.
pub fn beside_the_grid(dice: &mut Dice) -> Moved {
    let axes = Axes::draw(dice);
    let (ends, controls) = dice.pick(&STRAYS);
    let few = [axes.point(ends, dice), axes.point(controls, dice)];
    let is_of_few = dice.one_in(6);
    let path = path(dice, |is_end, dice| match is_end {
        _ if is_of_few => dice.pick(&few),
        true => axes.point(ends, dice),
        false => axes.point(controls, dice),
    });
    Moved {
        path,
        transform: axes.transform(),
        offset: Point::new(axes.x.offset, axes.y.offset),
    }
}

/// How many of a list's coordinates are put beside the grid.
#[derive(Clone, Copy, PartialEq)]
enum Strays {
    None,
    Some,
    All,
}

/// Of end points and of control points.
const STRAYS: [(Strays, Strays); 6] = [
    (Strays::None, Strays::None),
    (Strays::None, Strays::None),
    (Strays::Some, Strays::Some),
    (Strays::None, Strays::All),
    (Strays::All, Strays::None),
    (Strays::All, Strays::All),
];

/// What the two coordinates of a point go through; turned, each comes from the other axis.
struct Axes {
    x: Axis,
    y: Axis,
    is_turned: bool,
    /// How much of y is added to x.
    slant: f32,
}

impl Axes {
    fn draw(dice: &mut Dice) -> Axes {
        Axes {
            x: Axis::draw(dice),
            y: Axis::draw(dice),
            is_turned: dice.one_in(8),
            slant: if dice.one_in(16) { 0.3 } else { 0.0 },
        }
    }

    fn transform(&self) -> Transform {
        let (x, y) = (&self.x, &self.y);
        match self.is_turned {
            true => Transform::new(0.0, y.scale, x.scale, 0.0, x.moved, y.moved),
            false => Transform::new(x.scale, 0.0, self.slant, y.scale, x.moved, y.moved),
        }
    }

    /// A point before it is moved.
    fn point(&self, strays: Strays, dice: &mut Dice) -> Point {
        let (x, y) = (self.x.before(strays, dice), self.y.before(strays, dice));
        match self.is_turned {
            true => Point::new(y, x),
            false => Point::new(x, y),
        }
    }
}

/// What the coordinates of one axis go through: they are scaled, moved by the transform and then by
/// the offset, and end near a pixel.
struct Axis {
    scale: f32,
    moved: f32,
    offset: f32,
    /// How much of these moves is taken off the coordinates before: all of it, or nothing.
    undone: f32,
    near: i64,
}

/// Onto the grid, off it, and where the floats' rounding decides; 0 kills whatever a coordinate is.
const SCALES: [f32; 16] = [
    1.0,
    1.0,
    1.0,
    1.0,
    1.0,
    1.0,
    -1.0,
    2.0,
    0.5,
    3.0,
    0.1,
    256.0,
    1.0 / 256.0,
    1.0e-30,
    0.0,
    -0.0,
];

/// Zero, and where floats have steps of 1/8192 and of 1/4096.
const NEAR: [i64; 12] = [0, 0, 0, 0, 0, 0, 0, 0, 2046, -2046, LAST, -LAST];
const LAST: i64 = REACH - 2;

impl Axis {
    fn draw(dice: &mut Dice) -> Axis {
        let (moved, offset) = moves(dice);
        Axis {
            scale: dice.pick(&SCALES),
            moved,
            offset,
            undone: dice.pick(&[0.0, moved + offset]),
            near: dice.pick(&NEAR),
        }
    }

    /// A coordinate before it goes through all this; any number where it is killed.
    fn before(&self, strays: Strays, dice: &mut Dice) -> f32 {
        if self.scale == 0.0 {
            return Palette::Finite.number(dice);
        }
        let near = if dice.one_in(1000) { 0 } else { self.near };
        (coordinate(near, strays, dice) - self.undone) / self.scale
    }
}

/// Less than a step of the grid, down to the least there is.
const EXCESSES: [f32; 8] = [
    1.0 / 512.0,
    -1.0 / 512.0,
    255.0 / 65_536.0,
    0.003,
    -1.0e-3,
    1.0 / 768.0,
    1.0e-30,
    1.0e-45,
];

/// So far out that the next float is 1/512, 1/128 and 1/16 away.
const AWAY: [f32; 3] = [16_384.0, -65_536.0, 1.0e6];

/// By how much the transform and the offset move a coordinate: not at all, which −0.0 survives where
/// they are −0.0, along the grid, off it, off it and back, away and back.
fn moves(dice: &mut Dice) -> (f32, f32) {
    let steps = dice.between(-256, 256) as f32 / 256.0;
    let (excess, away) = (dice.pick(&EXCESSES), dice.pick(&AWAY));
    match dice.below(12) {
        0..=4 => (0.0, 0.0),
        5 => (-0.0, -0.0),
        6 => (0.0, steps),
        7 => (0.0, excess),
        8 => (excess, 0.0),
        9 => (steps, excess),
        10 => (excess, -excess),
        _ => (away, -away),
    }
}

/// A number within two pixels of this one, or the point rule's last.
fn coordinate(near: i64, strays: Strays, dice: &mut Dice) -> f32 {
    let on_grid = (256 * near + dice.between(-512, 512)) as f32 / 256.0;
    let is_astray = match strays {
        Strays::None => false,
        Strays::Some => dice.one_in(2),
        Strays::All => true,
    };
    if !is_astray {
        return on_grid;
    }
    match dice.below(6) {
        0 => on_grid.next_up(),
        1 => on_grid.next_down(),
        2 => on_grid + 1.0 / 512.0,
        3 if near == 0 => next_to_nothing(dice),
        3 if near.abs() == LAST => near.signum() as f32 * at_the_end(dice),
        _ => on_grid + dice.between(-999, 999) as f32 / 256_000.0,
    }
}

/// Zeros and the numbers about them.
fn next_to_nothing(dice: &mut Dice) -> f32 {
    let least = f32::from_bits(1);
    dice.pick(&[0.0, -0.0, least, -least, f32::MIN_POSITIVE, -1.0e-39])
}

/// Every eighth of a step of the grid about the last numbers that pass the point rule.
fn at_the_end(dice: &mut Dice) -> f32 {
    (2048 * REACH + dice.between(-8, 8)) as f32 / 2048.0
}

/// A MoveTo and up to three records with points, at times a Close and a MoveTo behind it; now and then
/// nothing. `point` is told whether it makes an end point.
fn path(dice: &mut Dice, mut point: impl FnMut(bool, &mut Dice) -> Point) -> Vec<Command> {
    if dice.one_in(48) {
        return Vec::new();
    }
    let mut path = vec![Command::MoveTo(point(true, dice))];
    for _ in 0..dice.below(4) {
        path.push(match dice.below(5) {
            0 => Command::MoveTo(point(true, dice)),
            1 | 2 => Command::LineTo(point(true, dice)),
            3 => Command::QuadTo(point(false, dice), point(true, dice)),
            _ => Command::CurveTo(point(false, dice), point(false, dice), point(true, dice)),
        });
    }
    if dice.one_in(3) {
        path.push(Command::Close);
        if dice.one_in(2) {
            path.push(Command::MoveTo(point(true, dice)));
        }
    }
    path
}

const EXPONENTS: usize = 256;
const LAST_BITS: usize = 24;

/// Numbers of every exponent, those of no number included, with every last bit of the mantissa, of
/// either sign, on either axis.
pub fn floats_in_all() -> u64 {
    (EXPONENTS * LAST_BITS * 2 * 2) as u64
}

/// A lone point with the number of this number as one part; the bits before its last are any.
pub fn each_float(number: u64, dice: &mut Dice) -> Moved {
    let mut left = number as usize;
    let mut digit = |base: usize| {
        let digit = left % base;
        left /= base;
        digit as u32
    };
    let (exponent, last, sign, is_x) =
        (digit(EXPONENTS), digit(LAST_BITS), digit(2), digit(2) == 1);
    let mantissa = (dice.roll() as u32 | 1) << last & 0x7f_ffff;
    let part = f32::from_bits(sign << 31 | exponent << 23 | mantissa);
    let other = coordinate(0, Strays::Some, dice);
    let point = match is_x {
        true => Point::new(part, other),
        false => Point::new(other, part),
    };
    Moved {
        path: vec![Command::MoveTo(point)],
        transform: Transform::IDENTITY,
        offset: Point::ZERO,
    }
}

#[cfg(test)]
mod tests {
    use super::*;
    use crate::{driver, list, oracle, reading};
    use std::collections::{HashMap, HashSet};

    /// What a list that passes may show.
    fn signs(moved: &Moved) -> [(&'static str, bool); 12] {
        let Moved {
            path,
            transform,
            offset,
        } = moved;
        let (identity, zero) = (Transform::IDENTITY, Point::ZERO);
        let still = driver::cuts(path, identity, zero);
        let transformed = driver::cuts(path, *transform, zero);
        let cut = driver::cuts(path, *transform, *offset);
        let points: Vec<Point> = oracle::points(path, *transform, *offset).collect();
        let some = |is_so: fn(f32) -> bool| points.iter().any(|p| is_so(p.x) || is_so(p.y));
        let ends = path
            .iter()
            .filter_map(|command| list::parts(command).1.pop());
        let of_ends = ends.map(|p| transform.transform_point(p) + *offset);
        let is_killed = transform.xx == 0.0 && transform.yx == 0.0;
        [
            ("none cut", !path.is_empty() && cut == 0),
            ("all cut", !path.is_empty() && cut == 2 * points.len()),
            ("cancelled by the offset", transformed > 0 && cut == 0),
            ("cut by the offset", transformed == 0 && cut > 0),
            ("brought by the transform", still > 0 && transformed == 0),
            ("taken off by the transform", still == 0 && transformed > 0),
            ("killed", is_killed && still > 0 && cut == 0),
            (
                "control points alone",
                cut > 0 && reading::cuts(of_ends) == 0,
            ),
            ("a negative zero", some(|v| v.to_bits() == 1 << 31)),
            ("a subnormal number", some(f32::is_subnormal)),
            ("beyond 4096", some(|v| v.abs() > 4096.0)),
            ("no point", path.is_empty()),
        ]
    }

    /// Nine lists in ten pass, and every sign is met.
    #[test]
    fn lists_show_everything() {
        let mut dice = Dice::new(49);
        let mut met: HashMap<&str, usize> = HashMap::new();
        let mut passed = 0;
        for _ in 0..20_000 {
            let moved = beside_the_grid(&mut dice);
            let bytes = list::written(&moved.path);
            if reading::judge_placement(&bytes, &moved.transform, moved.offset).is_err() {
                continue;
            }
            passed += 1;
            for (sign, is_so) in signs(&moved) {
                *met.entry(sign).or_default() += usize::from(is_so);
            }
        }
        assert!(passed > 18_000, "{passed}");
        assert!(met.values().all(|&times| times > 50), "{met:?}");
    }

    /// A cut point comes again in a list as often as it likes.
    #[test]
    fn points_come_again() {
        let mut dice = Dice::new(50);
        let again = (0..2000).filter(|_| {
            let moved = beside_the_grid(&mut dice);
            let points = moved.path.iter().flat_map(|command| list::parts(command).1);
            let bits: Vec<_> = points.map(|p| (p.x.to_bits(), p.y.to_bits())).collect();
            let distinct: HashSet<_> = bits.iter().collect();
            distinct.len() + 2 < bits.len()
        });
        assert!(again.count() > 100);
    }

    #[test]
    fn every_number_has_its_own_float() {
        let mut dice = Dice::new(51);
        let mut class = |number| {
            let Moved { path, .. } = each_float(number, &mut dice);
            let Command::MoveTo(point) = path[0] else {
                panic!("{path:?}");
            };
            let is_x = number >= floats_in_all() / 2;
            let bits = if is_x { point.x } else { point.y }.to_bits();
            let last = (bits & 0x7f_ffff).trailing_zeros();
            (is_x, bits >> 23, last)
        };
        let classes: HashSet<_> = (0..floats_in_all()).map(&mut class).collect();
        assert_eq!(classes.len() as u64, floats_in_all());
    }
}
