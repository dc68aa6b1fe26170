//! One call of the pool, store by store, and such calls.

mod makers;
mod simpler;

pub use makers::{
    every_sequence, long_rows_stored, of_a_drawing, rows_stored, sequences_in_all,
    stored_at_the_cap, wild_stores,
};

use std::collections::HashSet;

use crate::oracle::{self, CellAt};
use crate::pool::PER_ROW;

/// Pairs for a pool of so many rows, and what it is lent.
#[derive(Clone, Debug)]
pub struct Stores {
    /// Four numbers a pair: row, column counted from 0 for column -1, cover, area. Up to three
    /// numbers may stand behind.
    pub pairs: Vec<u32>,
    pub rows: usize,
    /// The lent words with what they hold before.
    pub words: Vec<u32>,
}

/// What is left when the pairs have been stored.
#[derive(Debug, PartialEq)]
pub enum Stored {
    /// The sizes are no pool's: the words are as they were.
    NoPool,
    /// A pair did not fit: the words are zero.
    NoRoom,
    /// Rows rising, columns rising in a row.
    Cells(Vec<CellAt>),
}

/// What is answered where no cells are left.
pub const NO_CELLS: u64 = 65_535;

/// The most rows and the most places that a pool has.
const MOST_ROWS: usize = 4096;
const MOST_PLACES: usize = 16_384;

impl Stores {
    /// What zeno's storage holds, and whether a pool of this size can.
    pub fn stored(&self) -> Stored {
        let Some(places) = self.places() else {
            return Stored::NoPool;
        };
        let cells = oracle::stored(self.rows, &self.given());
        if cells.len() > places {
            return Stored::NoRoom;
        }
        Stored::Cells(cells)
    }

    /// How many places the pool has: four words each behind one for each row.
    pub fn places(&self) -> Option<usize> {
        let behind = self.words.len().checked_sub(self.rows)?;
        (self.rows <= MOST_ROWS).then_some(MOST_PLACES.min(behind / 4))
    }

    /// The pairs that lie in the pool's rows and columns.
    pub fn given(&self) -> Vec<CellAt> {
        let whole = self.pairs.chunks_exact(4);
        let inside =
            whole.filter(|pair| (pair[0] as usize) < self.rows && (pair[1] as usize) < PER_ROW);
        let pair_of = |pair: &[u32]| CellAt {
            row: pair[0] as i32,
            column: pair[1] as i32 - 1,
            cover: pair[2] as i32,
            area: pair[3] as i32,
        };
        inside.map(pair_of).collect()
    }

    pub fn shown(&self) -> String {
        let mut text = format!(
            "  {} numbers for {} rows and {} words, before: {:?}\n",
            self.pairs.len(),
            self.rows,
            self.words.len(),
            &self.words[..self.words.len().min(8)],
        );
        for pair in self.pairs.chunks(4).take(MOST_SHOWN) {
            text += &format!("    {pair:?}\n");
        }
        if self.pairs.len() > 4 * MOST_SHOWN {
            text += "    ..\n";
        }
        text
    }
}

/// More pairs are not shown: a case that is told has been made small before.
const MOST_SHOWN: usize = 80;

/// How many places these pairs have.
fn places_of(pairs: &[CellAt]) -> usize {
    let places = pairs.iter().map(|pair| (pair.row, pair.column));
    places.collect::<HashSet<_>>().len()
}

/// A pair as it is given to the port.
pub fn numbers_of(pair: &CellAt) -> [u32; 4] {
    let CellAt {
        row,
        column,
        cover,
        area,
    } = *pair;
    [row, column + 1, cover, area].map(|number| number as u32)
}

#[cfg(test)]
mod tests {
    use super::*;

    const PAIRS: [u32; 18] = [
        1,
        5,
        7,
        8,
        0,
        8191,
        1,
        2,
        1,
        5,
        u32::MAX,
        3,
        1,
        0,
        9,
        9,
        0,
        0,
    ];

    fn stored(rows: usize, words: usize) -> Stored {
        let stores = Stores {
            pairs: PAIRS.to_vec(),
            rows,
            words: vec![0; words],
        };
        stores.stored()
    }

    fn cell(row: i32, column: i32, cover: i32, area: i32) -> CellAt {
        CellAt {
            row,
            column,
            cover,
            area,
        }
    }

    /// Three places, the first of row 1 given twice; two numbers too many behind.
    #[test]
    fn pairs_are_summed_in_their_places() {
        let cells = [cell(0, 8190, 1, 2), cell(1, -1, 9, 9), cell(1, 4, 6, 11)];
        assert_eq!(stored(2, 2 + 12), Stored::Cells(cells.to_vec()));
        assert_eq!(stored(2, 2 + 11), Stored::NoRoom);
    }

    #[test]
    fn what_is_outside_is_left_out() {
        assert_eq!(stored(1, 5), Stored::Cells(vec![cell(0, 8190, 1, 2)]));
        assert_eq!(stored(0, 0), Stored::Cells(Vec::new()));
    }

    #[test]
    fn sizes_that_are_no_pools_are_told() {
        assert_eq!(stored(2, 1), Stored::NoPool);
        assert_eq!(stored(4097, 9000), Stored::NoPool);
        assert_eq!(stored(usize::MAX, 9000), Stored::NoPool);
        assert!(matches!(stored(4096, 9000), Stored::Cells(_)));
    }

    #[test]
    fn numbers_are_read_as_they_are_written() {
        let pairs: Vec<u32> = [cell(0, -1, -3, 4), cell(0, 8190, i32::MIN, -1)]
            .iter()
            .flat_map(numbers_of)
            .collect();
        assert_eq!(pairs[..4], [0, 0, -3i32 as u32, 4]);
        let stores = Stores {
            pairs,
            rows: 1,
            words: Vec::new(),
        };
        assert_eq!(
            stores.given(),
            [cell(0, -1, -3, 4), cell(0, 8190, i32::MIN, -1)]
        );
    }
}
