//! `then_scale` of transforms whose xy and yx are zeros, beside zeno's with no swap: equal but for the
//! signs of zeros. All numbers are finite, and products of those with a zero are zeros.

use super::maps::{ENTRIES, WITH_PAIR};
use super::{agree_but_for_zeros, listed, Kind, Verdict};
use crate::face;
use compare::combining::{entries, transform_of};
use compare::numbers::{Dice, Palette};
use compare::shrink::{simpler_numbers, Candidates};

/// A transform's six numbers, and the scale's two.
pub struct Unslanted;

impl Kind for Unslanted {
    type Case = Vec<f32>;

    fn name(&self) -> String {
        "then_scale where xy and yx are zeros, with no swap".to_string()
    }

    fn draw(&self, _: u64, dice: &mut Dice) -> Vec<f32> {
        let palette = dice.pick(Palette::FINITE);
        let mut numbers = palette.numbers(dice, WITH_PAIR.len());
        numbers[1..3].fill_with(|| dice.pick(&[0.0, -0.0]));
        numbers
    }

    fn judge(&self, case: &Vec<f32>) -> Verdict {
        let (t, x, y) = (transform_of(case), case[6], case[7]);
        let ours = entries(face::then_scale(t, x, y));
        let zeno = entries(t.then_scale(x, y));
        agree_but_for_zeros("zeno", &ENTRIES, &ours, &zeno)?;
        if ours.map(f32::to_bits) == zeno.map(f32::to_bits) {
            return Ok("the same bits".into());
        }
        Ok("another zero's sign".into())
    }

    fn simpler<'a>(&self, case: &'a Vec<f32>) -> Candidates<'a, Vec<f32>> {
        let simpler = simpler_numbers(case).into_iter();
        Box::new(simpler.filter(|n| n[1] == 0.0 && n[2] == 0.0))
    }

    fn show(&self, case: &Vec<f32>) -> String {
        listed(WITH_PAIR.into_iter(), case)
    }
}
