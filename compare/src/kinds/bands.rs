//! Bands: a label cut into bands, each drawn alone, gives the whole label's rows, and tells as many
//! records and coordinates cut as the whole; over a partition the cells add up.

use super::calls::{agree_on, agree_on_answers, drawn, heading_of, Called};
use super::{Agreed, Kind, Verdict};
use crate::face::Drawn;
use compare::drawing::{soil, Drawing};
use compare::driver;
use compare::lent::Around;
use compare::numbers::Dice;
use compare::shrink::Candidates;

/// Labels made by one function of the dice; all rows are drawn, whatever band it chose.
pub struct Bands {
    pub name: &'static str,
    pub make: fn(&mut Dice) -> Drawing,
}

/// A whole label and the rows at which it is cut, rising; some are cut twice, so that a band is empty.
#[derive(Clone)]
pub struct Cut {
    label: Drawing,
    cuts: Vec<usize>,
}

impl Kind for Bands {
    type Case = Cut;

    const PARTS: &'static [&'static str] = &["bands compared"];

    fn name(&self) -> String {
        self.name.to_string()
    }

    fn draw(&self, _: u64, dice: &mut Dice) -> Cut {
        let mut label = (self.make)(dice);
        label = label.band(0, label.height);
        soil(&mut label, dice);
        let most = label.height.min(12) + 1;
        let count = match dice.below(8) {
            0 => most,
            _ => dice.below(most.min(4)),
        };
        let mut cuts: Vec<usize> = (0..count).map(|_| dice.below(label.height + 1)).collect();
        cuts.sort_unstable();
        Cut { label, cuts }
    }

    fn judge(&self, case: &Cut) -> Verdict {
        let expected = driver::outcome(&case.label);
        let whole = drawn(&case.label, Around::Marks)?;
        agree_on(&case.label, &whole, &expected)?;
        if whole.answer.number != 0 {
            return Ok(heading_of(expected.number).into());
        }
        let mut cells = 0;
        let mut first = 0;
        for &end in case.cuts.iter().chain([&case.label.height]) {
            cells += judged(&case.label, &whole, first, end)?;
            first = end;
        }
        if cells != whole.answer.cells {
            let whole = whole.answer.cells;
            return Err(format!("{cells} cells in the bands, {whole} in the whole"));
        }
        Ok(Agreed {
            heading: "accepted",
            parts: vec![case.cuts.len() + 1],
        })
    }

    fn simpler<'a>(&self, case: &'a Cut) -> Candidates<'a, Cut> {
        let fewer = (0..case.cuts.len()).map(|at| {
            let mut fewer = case.clone();
            fewer.cuts.remove(at);
            fewer
        });
        let labels = case.label.simpler().filter(is_whole);
        let smaller = labels.map(|label| {
            let mut cuts = case.cuts.clone();
            cuts.retain(|&cut| cut <= label.height);
            Cut { label, cuts }
        });
        Box::new(fewer.chain(smaller))
    }

    fn show(&self, case: &Cut) -> String {
        format!("{}  cut at {:?}\n", case.label.shown(), case.cuts)
    }
}

fn is_whole(label: &Drawing) -> bool {
    label.first == 0 && label.end == label.height
}

/// Draws one band alone and holds its rows to the whole's; answers its cells.
fn judged(label: &Drawing, whole: &Called, first: usize, end: usize) -> Result<u32, String> {
    let band = label.band(first, end);
    let told = |what: String| format!("band [{first}, {end}): {what}");
    let alone = drawn(&band, Around::Marks).map_err(told)?;
    let but_for_cells = Drawn {
        cells: alone.answer.cells,
        ..whole.answer
    };
    agree_on_answers(&alone.answer, &but_for_cells).map_err(told)?;
    for row in 0..end - first {
        let of_whole = row_of(label, whole, first + row);
        if row_of(&band, &alone, row) != of_whole {
            return Err(told(format!("row {} is not the whole's", first + row)));
        }
    }
    Ok(alone.answer.cells)
}

/// The bytes of a row, counted from the call's first.
fn row_of<'a>(call: &Drawing, called: &'a Called, row: usize) -> &'a [u8] {
    let from_top = if call.up { call.rows() - 1 - row } else { row };
    let at = from_top * call.pitch;
    &called.mask.part()[at..at + call.width]
}
