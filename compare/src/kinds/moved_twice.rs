//! The law of combining: a point goes under `then` where it goes by the one transform and from there
//! by the other, over whole numbers and wherever every product and every sum on both ways is exact.

use super::maps::{parts, WITH_TRANSFORM};
use super::{agree_but_for_zeros, listed, Agreed, Kind, Verdict};
use crate::face;
use compare::combining::{whole_numbers, Twice};
use compare::numbers::Dice;
use compare::oracle::Point;
use compare::shrink::{simpler_numbers, Candidates};

/// Two transforms of six numbers, and a point's two.
pub struct MovedTwice;

/// Sizes up to which every step is exact: of xx, xy, yx and yy, and of the other numbers.
const LIMITS: [(f32, f32); 2] = [(128.0, 128.0), (16.0, 4096.0)];

impl Kind for MovedTwice {
    type Case = Vec<f32>;

    const PARTS: &'static [&'static str] = &[
        "cases with all numbers up to 128",
        "cases with xx, xy, yx, yy up to 16 and the rest up to 4096",
    ];

    fn name(&self) -> String {
        "moved twice".to_string()
    }

    fn draw(&self, _: u64, dice: &mut Dice) -> Vec<f32> {
        whole_numbers(dice)
    }

    fn judge(&self, case: &Vec<f32>) -> Verdict {
        let case = Twice::of(case);
        let within = LIMITS.map(|(factor, rest)| case.is_within(factor, rest));
        let at_once = face::transform_point(face::then(case.first, case.second), case.point);
        let once = face::transform_point(case.first, case.point);
        let twice = face::transform_point(case.second, once);
        let heading = match case.exact() {
            Some(exact) => {
                goes_to(exact, ["combined x", "combined y"], at_once)?;
                goes_to(exact, ["moved x", "moved y"], twice)?;
                heading_of(&case, exact)
            }
            None if within.contains(&true) => {
                return Err("a step is not exact within the limits".to_string())
            }
            None if at_once == twice => "not exact, the same",
            None => "not exact, another point",
        };
        Ok(Agreed {
            heading,
            parts: within.map(usize::from).to_vec(),
        })
    }

    fn simpler<'a>(&self, case: &'a Vec<f32>) -> Candidates<'a, Vec<f32>> {
        Box::new(simpler_numbers(case).into_iter())
    }

    fn show(&self, case: &Vec<f32>) -> String {
        listed(WITH_TRANSFORM.into_iter().chain(["x", "y"]), case)
    }
}

fn goes_to(exact: Point, names: [&str; 2], ours: Point) -> Result<(), String> {
    agree_but_for_zeros("exactly", &names, &parts(ours), &parts(exact))
}

/// Whether zeno, which combines with xy and yx exchanged, keeps the law too.
fn heading_of(case: &Twice, exact: Point) -> &'static str {
    let by_zeno = case.first.then(&case.second).transform_point(case.point);
    match by_zeno == exact {
        true => "every product and sum exact",
        false => "every product and sum exact, where zeno's goes elsewhere",
    }
}
