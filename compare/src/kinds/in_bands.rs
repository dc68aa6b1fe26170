//! Labels drawn in bands by one call: number, index, counts, every byte of the mask and every word of
//! the workspace, as the reading and zeno have them for the label and for the places of each band.

use super::calls::{agree_on, drawn_in, heading_of};
use super::{Agreed, Kind, Verdict};
use compare::drawing::{any_step, at_a_boundary, Drawing, Way};
use compare::driver::{self, Outcome};
use compare::lent::Around;
use compare::numbers::Dice;
use compare::reading;
use compare::shrink::Candidates;

/// Calls with a step, made by one function of the dice.
pub struct InBands {
    pub name: &'static str,
    pub make: fn(&mut Dice) -> (Drawing, usize),
}

/// A call beside a boundary of the refusals, in bands.
pub fn beside_a_boundary(dice: &mut Dice) -> (Drawing, usize) {
    let drawing = at_a_boundary(dice);
    let step = any_step(drawing.height, dice);
    (drawing, step)
}

impl Kind for InBands {
    type Case = (Drawing, usize);

    const PARTS: &'static [&'static str] = &["pixels compared"];

    fn name(&self) -> String {
        self.name.to_string()
    }

    fn draw(&self, _: u64, dice: &mut Dice) -> (Drawing, usize) {
        (self.make)(dice)
    }

    fn judge(&self, (label, step): &(Drawing, usize)) -> Verdict {
        let way = Way::InBands(*step);
        let expected = driver::outcome_in(label, way);
        let called = drawn_in(label, way, Around::Marks)?;
        agree_on(label, &called, &expected)?;
        let pixels = match expected.number {
            0 => label.width * label.rows(),
            _ => 0,
        };
        Ok(Agreed {
            heading: heading(label, *step, &expected),
            parts: vec![pixels],
        })
    }

    fn simpler<'a>(&self, (label, step): &'a (Drawing, usize)) -> Candidates<'a, (Drawing, usize)> {
        let steps = [step / 2, step.saturating_sub(1)].into_iter();
        let steps = steps.filter(move |less| less < step);
        let with_less = steps.map(move |less| (label.clone(), less));
        Box::new(with_less.chain(label.simpler().map(move |label| (label, *step))))
    }

    fn show(&self, (label, step): &(Drawing, usize)) -> String {
        format!("{}  in bands of {step}\n", label.shown())
    }
}

/// The number; where a band's room decides, what the whole would be, and which band has none.
fn heading(label: &Drawing, step: usize, expected: &Outcome) -> &'static str {
    let room = || reading::pool(label.words.len(), label.rows());
    match expected.number {
        0 if expected.cells > room() => "accepted, though 13 at once",
        13 if first_band_has_room(label, step) => "refused 13 for a later band",
        number => heading_of(number),
    }
}

fn first_band_has_room(label: &Drawing, step: usize) -> bool {
    let end = label.first.saturating_add(step.max(1)).min(label.end);
    let first_band = Drawing {
        end,
        ..label.clone()
    };
    driver::outcome(&first_band).number == 0
}
