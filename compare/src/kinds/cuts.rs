//! How many coordinates are cut, beside all else that a drawing or a placement answers and leaves:
//! lists on the grid of 1/256 and beside it. zeno tells no such number, so it is the reading's, of
//! zeno's points.

use super::calls::{agree_on, drawn_in, heading_of};
use super::lists::judged_placement;
use super::{Agreed, Kind, Verdict};
use compare::drawing::{shown_in, simpler_in, Drawing, Way};
use compare::driver::{self, Outcome};
use compare::lent::Around;
use compare::numbers::Dice;
use compare::placing::Placing;
use compare::reading;
use compare::shrink::Candidates;

const PARTS: &[&str] = &["coordinates", "of them cut"];
const NONE_CUT: &str = "accepted, none cut";
const SOME_CUT: &str = "accepted, some cut";

/// Drawings made by one function of the case's number and the dice.
pub struct Cuts {
    pub name: &'static str,
    pub make: fn(u64, &mut Dice) -> (Drawing, Way),
}

impl Kind for Cuts {
    type Case = (Drawing, Way);

    const PARTS: &'static [&'static str] = PARTS;

    fn name(&self) -> String {
        self.name.to_string()
    }

    fn draw(&self, number: u64, dice: &mut Dice) -> (Drawing, Way) {
        (self.make)(number, dice)
    }

    fn judge(&self, (call, way): &(Drawing, Way)) -> Verdict {
        let expected = driver::outcome_in(call, *way);
        let called = drawn_in(call, *way, Around::Marks)?;
        agree_on(call, &called, &expected)?;
        if expected.number != 0 {
            return Ok(heading_of(expected.number).into());
        }
        let heading = match expected {
            Outcome { cut: 0, .. } => NONE_CUT,
            _ if call.rows() == 0 => "accepted, some cut, no rows",
            Outcome { cells: 0, .. } => "accepted, some cut, nothing stored",
            _ => SOME_CUT,
        };
        Ok(counted(heading, &call.list, expected.cut))
    }

    fn simpler<'a>(&self, case: &'a (Drawing, Way)) -> Candidates<'a, (Drawing, Way)> {
        simpler_in(case)
    }

    fn show(&self, case: &(Drawing, Way)) -> String {
        shown_in(case)
    }
}

/// Placements, likewise.
pub struct PlacedCuts {
    pub name: &'static str,
    pub make: fn(u64, &mut Dice) -> Placing,
}

impl Kind for PlacedCuts {
    type Case = Placing;

    const PARTS: &'static [&'static str] = PARTS;

    fn name(&self) -> String {
        self.name.to_string()
    }

    fn draw(&self, number: u64, dice: &mut Dice) -> Placing {
        (self.make)(number, dice)
    }

    fn judge(&self, case: &Placing) -> Verdict {
        Ok(match judged_placement(case)? {
            (0, 0) => counted(NONE_CUT, &case.list, 0),
            (0, cut) => counted(SOME_CUT, &case.list, cut),
            (number, _) => heading_of(number).into(),
        })
    }

    fn simpler<'a>(&self, case: &'a Placing) -> Candidates<'a, Placing> {
        case.simpler()
    }

    fn show(&self, case: &Placing) -> String {
        case.shown()
    }
}

/// An accepted list with so many coordinates cut.
fn counted(heading: &'static str, list: &[u8], cut: usize) -> Agreed {
    // A record has four bytes besides its coordinates, each of which has four.
    let coordinates = list.len() / 4 - reading::record_starts(list).len();
    Agreed {
        heading,
        parts: vec![coordinates, cut],
    }
}
