//! Labels whose rows are filled in one order or another: drawn whole, and their cells before they are
//! swept.

use super::{cells, drawings, Kind, Verdict};
use compare::drawing::Drawing;
use compare::numbers::Dice;
use compare::shrink::Candidates;

/// Calls made by one function of the case's number and the dice.
pub struct Filled {
    pub name: &'static str,
    pub make: fn(u64, &mut Dice) -> Drawing,
}

impl Kind for Filled {
    type Case = Drawing;

    const PARTS: &'static [&'static str] = &["cells compared"];

    fn name(&self) -> String {
        self.name.to_string()
    }

    fn draw(&self, number: u64, dice: &mut Dice) -> Drawing {
        (self.make)(number, dice)
    }

    fn judge(&self, case: &Drawing) -> Verdict {
        drawings::judged(case)?;
        cells::judged(case)
    }

    fn simpler<'a>(&self, case: &'a Drawing) -> Candidates<'a, Drawing> {
        cells::simpler(case)
    }

    fn show(&self, case: &Drawing) -> String {
        case.shown()
    }
}
