//! Whole drawings: number, index, counts, every byte of the mask and every word of the workspace, as
//! the reading and zeno have them.

use super::calls::{agree_on, drawn, heading_of};
use super::{Agreed, Kind, Verdict};
use crate::face::Drawn;
use compare::boundaries::Boundary;
use compare::drawing::{soil, Drawing};
use compare::driver;
use compare::lent::Around;
use compare::numbers::Dice;
use compare::oracle::Fill;
use compare::paths::{address, ADDRESS, SMALL};
use compare::shrink::Candidates;

/// Drawings made by one function of the dice.
pub struct Drawings {
    pub name: &'static str,
    pub make: fn(&mut Dice) -> Drawing,
}

impl Kind for Drawings {
    type Case = Drawing;

    const PARTS: &'static [&'static str] = &["pixels compared"];

    fn name(&self) -> String {
        self.name.to_string()
    }

    fn draw(&self, _: u64, dice: &mut Dice) -> Drawing {
        (self.make)(dice)
    }

    fn judge(&self, case: &Drawing) -> Verdict {
        judged(case)
    }

    fn simpler<'a>(&self, case: &'a Drawing) -> Candidates<'a, Drawing> {
        case.simpler()
    }

    fn show(&self, case: &Drawing) -> String {
        case.shown()
    }
}

/// Draws a call on both sides.
pub fn judged(case: &Drawing) -> Verdict {
    let expected = driver::outcome(case);
    let called = drawn(case, Around::Marks)?;
    agree_on(case, &called, &expected)?;
    let pixels = match expected.number {
        0 => case.width * case.rows(),
        _ => 0,
    };
    Ok(Agreed {
        heading: heading_of(expected.number),
        parts: vec![pixels],
    })
}

/// An address with its letters, under any rule, way and band.
pub fn of_an_address(dice: &mut Dice) -> Drawing {
    let (width, height) = ADDRESS;
    let mut drawing = Drawing::plain(&address(dice), width, height);
    drawing.fill = dice.pick(&[Fill::NonZero, Fill::EvenOdd]);
    drawing.up = dice.one_in(2);
    drawing.pitch = width + dice.pick(&[0, 0, 1, 24]);
    drawing.transform.xx = dice.pick(&[1.0, 0.97, 0.5]);
    drawing.transform.yx = dice.pick(&[0.0, 0.0, -0.2]);
    if dice.one_in(2) {
        drawing.first = dice.below(height);
        drawing.end = drawing.first + dice.below(height + 1 - drawing.first);
    }
    drawing.lend(3, drawing.every_place());
    soil(&mut drawing, dice);
    drawing
}

/// Every path of a few points over a small set of coordinates, each once.
pub struct SmallDrawings;

impl SmallDrawings {
    pub fn count() -> u64 {
        SMALL.iter().map(|small| small.count() as u64).sum()
    }

    /// The path of this number, on a label of this size.
    pub fn plain(number: u64, width: usize, height: usize) -> Drawing {
        let mut index = number as usize;
        let mut sets = SMALL.iter();
        loop {
            let small = sets.next().expect("a number below the count");
            if index < small.count() {
                return Drawing::plain(&small.path(index), width, height);
            }
            index -= small.count();
        }
    }
}

impl Kind for SmallDrawings {
    type Case = Drawing;

    const PARTS: &'static [&'static str] = &["pixels compared"];

    fn name(&self) -> String {
        "drawings of all small paths".to_string()
    }

    fn draw(&self, number: u64, dice: &mut Dice) -> Drawing {
        let mut drawing = SmallDrawings::plain(number, 2, 2);
        drawing.fill = dice.pick(&[Fill::NonZero, Fill::EvenOdd]);
        drawing.up = dice.one_in(2);
        drawing.pitch = dice.pick(&[2, 3]);
        drawing.lend(0, drawing.every_place());
        soil(&mut drawing, dice);
        drawing
    }

    fn judge(&self, case: &Drawing) -> Verdict {
        judged(case)
    }

    fn simpler<'a>(&self, case: &'a Drawing) -> Candidates<'a, Drawing> {
        case.simpler()
    }

    fn show(&self, case: &Drawing) -> String {
        case.shown()
    }
}

/// The table of boundaries, each row once.
pub struct Boundaries(pub Vec<Boundary>);

impl Kind for Boundaries {
    type Case = Boundary;

    fn name(&self) -> String {
        "every boundary and refusal, by hand".to_string()
    }

    fn draw(&self, number: u64, _: &mut Dice) -> Boundary {
        self.0[number as usize].clone()
    }

    /// By what is written down for it, then whole.
    fn judge(&self, case: &Boundary) -> Verdict {
        let Drawn {
            number, index, cut, ..
        } = drawn(&case.drawing, Around::Marks)?.answer;
        let ours = (number, index as usize, cut as usize);
        let cut = case.cut.unwrap_or(ours.2);
        let told = (u32::from(case.number), case.index, cut);
        if ours != told {
            return Err(format!(
                "number, index, cut: the port {ours:?}, the rule {told:?}"
            ));
        }
        Ok(Agreed {
            parts: Vec::new(),
            ..judged(&case.drawing)?
        })
    }

    /// None: each is written down as small as it is.
    fn simpler<'a>(&self, _: &'a Boundary) -> Candidates<'a, Boundary> {
        Box::new(std::iter::empty())
    }

    fn show(&self, case: &Boundary) -> String {
        format!("  {}\n{}", case.what, case.drawing.shown())
    }
}
