//! Pairs given to the port's pool and to zeno's storage: the answer, every cell, the cell that each row
//! was stored into last, and the words where no cells are left.

use super::calls::{agree_on_words, keeps};
use super::cells::agree_on_cells;
use super::{Agreed, Kind, Verdict};
use crate::face;
use compare::lent::{Around, Lent, WORD_MARK};
use compare::numbers::Dice;
use compare::pool;
use compare::shrink::Candidates;
use compare::stores::{self, Stored, NO_CELLS};

/// Calls made by one function of the case's number and the dice.
pub struct Stores {
    pub name: &'static str,
    pub make: fn(u64, &mut Dice) -> stores::Stores,
}

impl Kind for Stores {
    type Case = stores::Stores;

    const PARTS: &'static [&'static str] = &["cells compared"];

    fn name(&self) -> String {
        self.name.to_string()
    }

    fn draw(&self, number: u64, dice: &mut Dice) -> stores::Stores {
        (self.make)(number, dice)
    }

    fn judge(&self, case: &stores::Stores) -> Verdict {
        let pairs = Lent::new(&case.pairs, WORD_MARK, Around::Marks);
        let mut words = Lent::new(&case.words, WORD_MARK, Around::Marks);
        let answer = face::stores(pairs.part(), case.rows, words.part_mut());
        keeps(&pairs, "the pairs")?;
        keeps(&words, "the workspace")?;
        if pairs.part() != case.pairs {
            return Err("the port wrote into the pairs".to_string());
        }
        match case.stored() {
            Stored::NoPool => {
                agree_on_counts(answer, NO_CELLS)?;
                agree_on_words(words.part(), &case.words)?;
                Ok("no pool".into())
            }
            Stored::NoRoom => {
                agree_on_counts(answer, NO_CELLS)?;
                agree_on_words(words.part(), &vec![0; case.words.len()])?;
                Ok("without room".into())
            }
            Stored::Cells(theirs) => {
                agree_on_counts(answer, theirs.len() as u64)?;
                let cells = pool::walked(words.part(), case.rows, theirs.len())?;
                agree_on_cells(&cells, &theirs)?;
                agree_on_last(case, words.part())?;
                let is_full = case.places() == Some(cells.len());
                Ok(Agreed {
                    heading: if is_full { "just full" } else { "room left" },
                    parts: vec![cells.len()],
                })
            }
        }
    }

    fn simpler<'a>(&self, case: &'a stores::Stores) -> Candidates<'a, stores::Stores> {
        case.simpler()
    }

    fn show(&self, case: &stores::Stores) -> String {
        case.shown()
    }
}

/// Each row leads back to the cell that was stored into last.
fn agree_on_last(case: &stores::Stores, words: &[u32]) -> Result<(), String> {
    let mut last = vec![None; case.rows];
    for pair in case.given() {
        last[pair.row as usize] = Some(pair.column);
    }
    for (row, &theirs) in last.iter().enumerate() {
        let ours = pool::stored_last(words, case.rows, row);
        if ours != theirs {
            return Err(format!(
                "row {row}: it leads back to column {ours:?}, stored into last was {theirs:?}"
            ));
        }
    }
    Ok(())
}

fn agree_on_counts(ours: u64, theirs: u64) -> Result<(), String> {
    if ours == theirs {
        return Ok(());
    }
    Err(format!("the port answers {ours}, it must be {theirs}"))
}
