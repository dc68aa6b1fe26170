//! Transforms and points: functions from numbers to numbers, bit for bit as zeno has them, those that
//! combine two transforms through the swap of xy and yx. The identity scaled by finite numbers is
//! zeno's with no swap too.

use super::{agree, listed, Kind, Verdict};
use crate::face;
use compare::combining::{self, entries, transform_of};
use compare::numbers::{Dice, Palette};
use compare::oracle::{Point, Transform};
use compare::shrink::{simpler_numbers, Candidates};

/// One function on both sides. Where it takes six numbers or more, the first six are a transform.
pub struct Map<const N: usize> {
    name: &'static str,
    palettes: &'static [Palette],
    inputs: &'static [&'static str],
    outputs: [&'static str; N],
    ours: fn(&[f32]) -> [f32; N],
    zeno: fn(&[f32]) -> [f32; N],
}

pub const ENTRIES: [&str; 6] = ["xx", "xy", "yx", "yy", "x", "y"];
pub const WITH_PAIR: [&str; 8] = ["t.xx", "t.xy", "t.yx", "t.yy", "t.x", "t.y", "x", "y"];
pub const WITH_TRANSFORM: [&str; 12] = [
    "t.xx", "t.xy", "t.yx", "t.yy", "t.x", "t.y", "u.xx", "u.xy", "u.yx", "u.yy", "u.x", "u.y",
];

pub const IDENTITY: Map<6> = Map {
    name: "identity",
    palettes: &Palette::ALL,
    inputs: &[],
    outputs: ENTRIES,
    ours: |_| entries(face::identity()),
    zeno: |_| entries(Transform::IDENTITY),
};

pub const TRANSFORMS: [Map<6>; 5] = [
    Map {
        name: "translation",
        palettes: &Palette::ALL,
        inputs: &["x", "y"],
        outputs: ENTRIES,
        ours: |n| entries(face::translation(n[0], n[1])),
        zeno: |n| entries(Transform::translation(n[0], n[1])),
    },
    Map {
        name: "scale",
        palettes: &Palette::ALL,
        inputs: &["x", "y"],
        outputs: ENTRIES,
        ours: |n| entries(face::scale(n[0], n[1])),
        zeno: |n| entries(Transform::scale(n[0], n[1])),
    },
    Map {
        name: "then_translate",
        palettes: &Palette::ALL,
        inputs: &WITH_PAIR,
        outputs: ENTRIES,
        ours: |n| entries(face::then_translate(transform_of(n), n[6], n[7])),
        zeno: |n| entries(transform_of(n).then_translate(n[6], n[7])),
    },
    Map {
        name: "then_scale of the identity by finite numbers, with no swap",
        palettes: Palette::FINITE,
        inputs: &["x", "y"],
        outputs: ENTRIES,
        ours: |n| entries(face::then_scale(face::identity(), n[0], n[1])),
        zeno: |n| entries(Transform::IDENTITY.then_scale(n[0], n[1])),
    },
    Map {
        name: "pre_scale of the identity by finite numbers, with no swap",
        palettes: Palette::FINITE,
        inputs: &["x", "y"],
        outputs: ENTRIES,
        ours: |n| entries(face::pre_scale(face::identity(), n[0], n[1])),
        zeno: |n| entries(Transform::IDENTITY.pre_scale(n[0], n[1])),
    },
];

/// Those that combine two transforms.
pub const COMBINING: [Map<6>; 4] = [
    Map {
        name: "then, through the swap",
        palettes: &Palette::ALL,
        inputs: &WITH_TRANSFORM,
        outputs: ENTRIES,
        ours: |n| entries(face::then(transform_of(n), transform_of(&n[6..]))),
        zeno: |n| entries(combining::then(transform_of(n), transform_of(&n[6..]))),
    },
    Map {
        name: "then_scale, through the swap",
        palettes: &Palette::ALL,
        inputs: &WITH_PAIR,
        outputs: ENTRIES,
        ours: |n| entries(face::then_scale(transform_of(n), n[6], n[7])),
        zeno: |n| entries(combining::then_scale(transform_of(n), n[6], n[7])),
    },
    Map {
        name: "pre_scale, through the swap",
        palettes: &Palette::ALL,
        inputs: &WITH_PAIR,
        outputs: ENTRIES,
        ours: |n| entries(face::pre_scale(transform_of(n), n[6], n[7])),
        zeno: |n| entries(combining::pre_scale(transform_of(n), n[6], n[7])),
    },
    Map {
        name: "pre_translate, through the swap",
        palettes: &Palette::ALL,
        inputs: &WITH_PAIR,
        outputs: ENTRIES,
        ours: |n| entries(face::pre_translate(transform_of(n), n[6], n[7])),
        zeno: |n| entries(combining::pre_translate(transform_of(n), n[6], n[7])),
    },
];

pub const POINTS: [Map<2>; 2] = [
    Map {
        name: "transform_point",
        palettes: &Palette::ALL,
        inputs: &WITH_PAIR,
        outputs: ["x", "y"],
        ours: |n| parts(face::transform_point(transform_of(n), point(n))),
        zeno: |n| parts(transform_of(n).transform_point(point(n))),
    },
    Map {
        name: "transform_vector",
        palettes: &Palette::ALL,
        inputs: &WITH_PAIR,
        outputs: ["x", "y"],
        ours: |n| parts(face::transform_vector(transform_of(n), point(n))),
        zeno: |n| parts(transform_of(n).transform_vector(point(n))),
    },
];

/// The pair behind the transform.
fn point(n: &[f32]) -> Point {
    Point::new(n[6], n[7])
}

pub fn parts(p: Point) -> [f32; 2] {
    [p.x, p.y]
}

impl<const N: usize> Kind for Map<N> {
    type Case = Vec<f32>;

    fn name(&self) -> String {
        self.name.to_string()
    }

    /// Numbers of one palette; one time in three a chain's transform, with zeros beside its scale.
    fn draw(&self, _: u64, dice: &mut Dice) -> Vec<f32> {
        let palette = dice.pick(self.palettes);
        let mut numbers = palette.numbers(dice, self.inputs.len());
        if numbers.len() >= 6 && dice.one_in(3) {
            numbers[1..3].fill(0.0);
        }
        numbers
    }

    fn judge(&self, case: &Vec<f32>) -> Verdict {
        let (ours, zeno) = ((self.ours)(case), (self.zeno)(case));
        agree("zeno", &self.outputs, &ours, &zeno)?;
        if zeno.iter().any(|part| part.is_nan()) {
            return Ok("a NaN in the answer".into());
        }
        Ok("numbers in the answer".into())
    }

    fn simpler<'a>(&self, case: &'a Vec<f32>) -> Candidates<'a, Vec<f32>> {
        Box::new(simpler_numbers(case).into_iter())
    }

    fn show(&self, case: &Vec<f32>) -> String {
        listed(self.inputs.iter().copied(), case)
    }
}
