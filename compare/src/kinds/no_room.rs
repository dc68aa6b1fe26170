//! Calls that lack room, at once and in bands: which record 13 names, beside all else that a drawing
//! answers and leaves. The record is zeno's twice over: as its whole label is cut into bands, and as
//! it draws each band alone, with its own count of cells.

use super::calls::{agree_on, drawn_in, heading_of};
use super::{Kind, Verdict};
use compare::alone::{self, Full};
use compare::drawing::{rule_shown, shown_in, simpler_in, Drawing, Way};
use compare::driver;
use compare::lent::Around;
use compare::numbers::Dice;
use compare::oracle::Fill;
use compare::shrink::Candidates;

/// Calls made by one function of the case's number and the dice, under one rule.
pub struct NoRoom {
    pub name: &'static str,
    pub fill: Fill,
    pub make: fn(u64, &mut Dice) -> (Drawing, Way),
}

impl Kind for NoRoom {
    type Case = (Drawing, Way);

    fn name(&self) -> String {
        format!("{}, {}", self.name, rule_shown(self.fill))
    }

    fn draw(&self, number: u64, dice: &mut Dice) -> (Drawing, Way) {
        let (mut call, way) = (self.make)(number, dice);
        call.fill = self.fill;
        (call, way)
    }

    fn judge(&self, (call, way): &(Drawing, Way)) -> Verdict {
        let expected = driver::outcome_in(call, *way);
        let called = drawn_in(call, *way, Around::Marks)?;
        agree_on(call, &called, &expected)?;
        if !matches!(expected.number, 0 | 13) {
            return Ok(heading_of(expected.number).into());
        }
        let full = alone::first_full(call, *way);
        let alone = full.map(|full| full.record);
        let cut = (expected.number == 13).then_some(expected.index);
        if alone != cut {
            return Err(format!(
                "the record of 13: {cut:?} by zeno's whole label, {alone:?} by its bands alone"
            ));
        }
        Ok(full.map_or(heading_of(0), Full::told).into())
    }

    fn simpler<'a>(&self, case: &'a (Drawing, Way)) -> Candidates<'a, (Drawing, Way)> {
        simpler_in(case)
    }

    fn show(&self, case: &(Drawing, Way)) -> String {
        shown_in(case)
    }
}
