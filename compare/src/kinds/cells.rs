//! The cells of a drawing as the port stores them, before they are swept: every row, column, cover and
//! area in order, as `HeapStorage` holds them.

use super::calls::{accepted, agree_on_answers, agree_on_words, heading_of, keeps, refused};
use super::drawings::SmallDrawings;
use super::{Agreed, Kind, Verdict};
use crate::face;
use compare::drawing::{ordinary_of, soil, Drawing};
use compare::driver;
use compare::lent::{Around, Lent, BYTE_MARK, WORD_MARK};
use compare::numbers::Dice;
use compare::oracle::CellAt;
use compare::paths::Character;
use compare::pool;
use compare::shrink::Candidates;

/// Cells of paths of one character on labels of every size.
pub struct Cells(pub Character);

impl Kind for Cells {
    type Case = Drawing;

    const PARTS: &'static [&'static str] = &["cells compared"];

    fn name(&self) -> String {
        format!("cells: {}", self.0.name())
    }

    /// Two in three as they come, the others on a plain label, where every path is accepted.
    fn draw(&self, _: u64, dice: &mut Dice) -> Drawing {
        let mut drawing = ordinary_of(self.0, dice);
        if dice.one_in(3) {
            let path = self.0.path(drawing.width, drawing.height, dice);
            drawing = Drawing::plain(&path, drawing.width, drawing.height);
        }
        drawing.pitch = drawing.width;
        if !dice.one_in(16) {
            drawing.lend(0, drawing.every_place());
            soil(&mut drawing, dice);
        }
        drawing
    }

    fn judge(&self, case: &Drawing) -> Verdict {
        judged(case)
    }

    fn simpler<'a>(&self, case: &'a Drawing) -> Candidates<'a, Drawing> {
        simpler(case)
    }

    fn show(&self, case: &Drawing) -> String {
        case.shown()
    }
}

/// Cells of every small path on a label of one size.
pub struct SmallCells(pub usize, pub usize);

impl Kind for SmallCells {
    type Case = Drawing;

    const PARTS: &'static [&'static str] = &["cells compared"];

    fn name(&self) -> String {
        format!("cells: all small paths on {} by {}", self.0, self.1)
    }

    fn draw(&self, number: u64, dice: &mut Dice) -> Drawing {
        let mut drawing = SmallDrawings::plain(number, self.0, self.1);
        soil(&mut drawing, dice);
        drawing
    }

    fn judge(&self, case: &Drawing) -> Verdict {
        judged(case)
    }

    fn simpler<'a>(&self, case: &'a Drawing) -> Candidates<'a, Drawing> {
        simpler(case)
    }

    fn show(&self, case: &Drawing) -> String {
        case.shown()
    }
}

/// Simpler calls; cells have no mask, and the pitch is the width.
pub fn simpler(case: &Drawing) -> Candidates<'_, Drawing> {
    let candidates = case.simpler();
    let same = |d: &Drawing| d.mask == case.mask && d.pitch == case.pitch;
    Box::new(candidates.filter(same).map(|mut candidate| {
        candidate.pitch = candidate.width;
        candidate
    }))
}

pub fn judged(case: &Drawing) -> Verdict {
    let list = Lent::new(&case.list, BYTE_MARK, Around::Marks);
    let mut words = Lent::new(&case.words, WORD_MARK, Around::Marks);
    let answer = face::cells(case, list.part(), words.part_mut());
    keeps(&list, "the list")?;
    keeps(&words, "the workspace")?;
    match driver::drawn(case) {
        Err(refusal) => {
            agree_on_answers(&answer, &refused(refusal))?;
            let left = match refusal.number {
                NO_ROOM => vec![0; case.words.len()],
                _ => case.words.clone(),
            };
            agree_on_words(words.part(), &left)?;
            Ok(heading_of(refusal.number).into())
        }
        Ok(drawn) => {
            let theirs = accepted(drawn.records, drawn.cells.len(), drawn.cut);
            agree_on_answers(&answer, &theirs)?;
            let cells = pool::walked(words.part(), case.rows(), drawn.cells.len())?;
            agree_on_cells(&cells, &drawn.cells)?;
            Ok(Agreed {
                heading: heading_of(0),
                parts: vec![cells.len()],
            })
        }
    }
}

/// After this refusal the words are all zero, as those of a drawing are.
const NO_ROOM: u8 = 13;

pub fn agree_on_cells(ours: &[CellAt], theirs: &[CellAt]) -> Result<(), String> {
    let differ = ours.iter().zip(theirs).position(|(a, b)| a != b);
    match differ {
        None => Ok(()),
        Some(at) => Err(format!(
            "cell {at}: the port {:?}\n         zeno {:?}",
            ours[at], theirs[at]
        )),
    }
}
