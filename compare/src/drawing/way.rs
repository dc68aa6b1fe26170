//! How a call draws its rows, at once or in bands, and calls that have room for their bands.

use std::ops::Range;

use super::{old, ordinary, soil, Drawing};
use crate::driver;
use crate::numbers::Dice;
use crate::shrink::{shorter_lengths, Candidates};

/// All rows at once, or so many at a time; none counts as one.
#[derive(Clone, Copy, Debug, PartialEq)]
pub enum Way {
    AtOnce,
    InBands(usize),
}

impl Way {
    /// The bands of so many rows, counted from the first; the last has what is left. At once it is
    /// one band, and none where there are no rows: nothing is stored there.
    pub fn bands(self, rows: usize) -> impl Iterator<Item = Range<usize>> {
        let step = match self {
            Way::AtOnce => rows.max(1),
            Way::InBands(step) => step.max(1),
        };
        let starts = (0..rows).step_by(step);
        starts.map(move |first| first..first.saturating_add(step).min(rows))
    }
}

/// Simpler calls, first those of narrower bands.
pub fn simpler_in((call, way): &(Drawing, Way)) -> Candidates<'_, (Drawing, Way)> {
    let steps = match *way {
        Way::AtOnce => Vec::new(),
        Way::InBands(step) => shorter_lengths(step),
    };
    let narrower = steps.into_iter().map(Way::InBands);
    let narrower = narrower.map(|way| (call.clone(), way));
    Box::new(narrower.chain(call.simpler().map(|call| (call, *way))))
}

/// A call and its way in words.
pub fn shown_in((call, way): &(Drawing, Way)) -> String {
    match way {
        Way::AtOnce => format!("{}  at once\n", call.shown()),
        Way::InBands(step) => format!("{}  in bands of {step}\n", call.shown()),
    }
}

/// Labels of more rows are seldom cut finely: the port reads the list anew for each band.
const HIGH: usize = 256;

/// Few rows at a time, all of them, or more than there are.
pub fn any_step(rows: usize, dice: &mut Dice) -> usize {
    let beyond = rows.saturating_add(1);
    let step = match dice.below(10) {
        0 => 0,
        1..=3 => 1,
        4 => 2,
        5 => 3,
        6 => 7,
        7 => rows,
        8 => dice.pick(&[beyond, usize::MAX]),
        _ => dice.below(beyond.min(64)),
    };
    if rows > HIGH && !dice.one_in(16) {
        return step.max(rows / 16);
    }
    step
}

/// A call and a step: the workspace has what the bands need, or words less or more. At once there is
/// mostly too little room.
pub fn with_room_for_bands(dice: &mut Dice) -> (Drawing, usize) {
    let mut drawing = ordinary(dice);
    drawing.lend(0, drawing.every_place());
    let step = any_step(drawing.rows(), dice);
    if let Ok(drawn) = driver::drawn(&drawing) {
        let bands = Way::InBands(step).bands(drawing.rows());
        let needs = bands.map(|band| band.len() + 4 * driver::places_in(&drawn.cells, band).len());
        let most = needs.max().unwrap_or(0);
        let short = dice.pick(&[0, 0, 0, 1, 4]).min(most);
        let words = most - short + dice.pick(&[0, 0, 3]);
        drawing.words = old::words(words.max(drawing.rows()));
    }
    soil(&mut drawing, dice);
    (drawing, step)
}

#[cfg(test)]
mod tests {
    use super::*;
    use crate::shrink::smallest;

    #[test]
    fn bands_are_the_rows_cut() {
        let bands = |way: Way, rows| way.bands(rows).collect::<Vec<_>>();
        assert_eq!(bands(Way::InBands(2), 5), [0..2, 2..4, 4..5]);
        assert_eq!(bands(Way::InBands(0), 2), [0..1, 1..2]);
        for way in [Way::AtOnce, Way::InBands(3), Way::InBands(usize::MAX)] {
            assert_eq!(bands(way, 3).len(), 1);
            assert_eq!(bands(way, 0), []);
        }
    }

    /// A case made small keeps its way, in the narrowest bands.
    #[test]
    fn shrinking_ends() {
        let mut dice = Dice::new(53);
        for (way, least) in [
            (Way::AtOnce, Way::AtOnce),
            (Way::InBands(usize::MAX), Way::InBands(0)),
        ] {
            let call = smallest((ordinary(&mut dice), way), simpler_in, |_| true);
            assert!(call.0.list.is_empty() && call.1 == least);
        }
    }

    /// Some have room both ways, some in bands alone, some for their first bands only.
    #[test]
    fn room_for_bands_is_not_room_at_once() {
        let mut dice = Dice::new(23);
        let (mut both, mut bands_only, mut neither) = (0, 0, 0);
        for _ in 0..2000 {
            let (drawing, step) = with_room_for_bands(&mut dice);
            let number = |way| driver::outcome_in(&drawing, way).number;
            match (number(Way::AtOnce), number(Way::InBands(step))) {
                (0, 0) => both += 1,
                (13, 0) => bands_only += 1,
                (13, 13) => neither += 1,
                (at_once, in_bands) => assert_eq!(at_once, in_bands),
            }
        }
        assert!(
            both > 200 && bands_only > 200 && neither > 100,
            "{both} {bands_only} {neither}"
        );
    }
}
