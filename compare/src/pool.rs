//! The cells of a drawing as they stand in the words of a workspace: a head for each row, then four
//! words a cell: its place, cover, area and links. A link is 0 or one more than a cell's index.

use crate::oracle::CellAt;

/// A place is so many times the row, counted from the band's first, plus the column, counted from -1.
pub const PER_ROW: usize = 8192;

/// Words of a cell.
const CELL: usize = 4;

/// A head, or a cell's word of links, holds two: one on in its low half, one back in its high half.
const HALF: u32 = 65536;

fn next_in(word: u32) -> usize {
    (word % HALF) as usize
}

fn back_in(word: u32) -> usize {
    (word / HALF) as usize
}

/// Every cell, row by row along the links on. Says what is wrong where the words are not the lists of
/// `count` cells, and where a link back is not what makes storing quick; no answer turns on those.
pub fn walked(words: &[u32], rows: usize, count: usize) -> Result<Vec<CellAt>, String> {
    if words.len() < rows + CELL * count {
        return Err(format!("{count} cells in {} words", words.len()));
    }
    let (heads, pool) = words.split_at(rows);
    let mut cells = Vec::with_capacity(count);
    for (row, &head) in heads.iter().enumerate() {
        let told = |what: String| format!("row {row}: {what}");
        row_walked(head, row, &pool[..CELL * count], &mut cells).map_err(told)?;
    }
    if cells.len() < count {
        return Err(format!("{} of {count} cells on the links", cells.len()));
    }
    Ok(cells)
}

/// The cells of the row with this head. A cell's link back must be to the one before it, the head's
/// to one of the row's cells.
fn row_walked(head: u32, row: usize, pool: &[u32], cells: &mut Vec<CellAt>) -> Result<(), String> {
    let count = pool.len() / CELL;
    let (mut link, mut before) = (next_in(head), 0);
    let mut is_back_met = back_in(head) == link;
    while link != 0 {
        if link > count {
            return Err(format!("a link {link}, of {count} cells"));
        }
        if cells.len() == count {
            return Err(format!("more than {count} cells on the links"));
        }
        let cell = &pool[CELL * (link - 1)..CELL * link];
        cells.push(cell_at(cell, row)?);
        let back = back_in(cell[3]);
        if back != before {
            return Err(format!("cell {link} leads back to {back}, not to {before}"));
        }
        is_back_met |= back_in(head) == link;
        (link, before) = (next_in(cell[3]), link);
    }
    match is_back_met {
        true => Ok(()),
        false => Err(format!("leads back to {}, no cell of it", back_in(head))),
    }
}

/// The column of the cell that a row's head leads back to, in words that `walked` has found right.
pub fn stored_last(words: &[u32], rows: usize, row: usize) -> Option<i32> {
    let link = back_in(words[row]).checked_sub(1)?;
    let place = words[rows + CELL * link] as usize;
    Some((place % PER_ROW) as i32 - 1)
}

fn cell_at(cell: &[u32], row: usize) -> Result<CellAt, String> {
    let place = cell[0] as usize;
    if place / PER_ROW != row {
        return Err(format!("a cell of place {place}"));
    }
    Ok(CellAt {
        row: row as i32,
        column: (place % PER_ROW) as i32 - 1,
        cover: cell[1] as i32,
        area: cell[2] as i32,
    })
}

#[cfg(test)]
mod tests {
    use super::*;

    const CELLS: [CellAt; 3] = [cell(0, -1, 256, 0), cell(0, 5, -256, 7), cell(2, 0, 1, -9)];

    const fn cell(row: i32, column: i32, cover: i32, area: i32) -> CellAt {
        CellAt {
            row,
            column,
            cover,
            area,
        }
    }

    /// Lays cells out as `walked` reads them, in this order; they must be in row order. The row's link
    /// back is to its last cell.
    fn laid_out(cells: &[CellAt], rows: usize, words: &mut [u32]) {
        words.fill(0);
        let mut before = 0;
        for (index, cell) in cells.iter().enumerate() {
            let (row, link) = (cell.row as usize, index as u32 + 1);
            let goes_on = index > 0 && cells[index - 1].row == cell.row;
            before = if goes_on { before } else { 0 };
            let links_at = if goes_on {
                rows + CELL * index - 1
            } else {
                row
            };
            words[links_at] += link;
            words[row] = words[row] % HALF + HALF * link;
            let at = rows + CELL * index;
            words[at] = (PER_ROW * row) as u32 + (cell.column + 1) as u32;
            words[at + 1] = cell.cover as u32;
            words[at + 2] = cell.area as u32;
            words[at + 3] = HALF * before;
            before = link;
        }
    }

    fn words() -> Vec<u32> {
        let mut words = vec![9; 3 + 4 * 3];
        laid_out(&CELLS, 3, &mut words);
        words
    }

    #[test]
    fn cells_are_walked_as_they_were_laid_out() {
        assert_eq!(walked(&words(), 3, 3).unwrap(), CELLS);
        assert_eq!(words()[..4], [1 + 65536 * 2, 0, 3 + 65536 * 3, 0]);
        assert_eq!(words()[6], 2, "the first cell leads to the second");
        assert_eq!(words()[10], 65536, "the second leads back");
        assert_eq!(words()[11..14], [2 * 8192 + 1, 1, -9i32 as u32]);
    }

    #[test]
    fn a_head_leads_back_to_a_column() {
        let last = |row| stored_last(&words(), 3, row);
        assert_eq!([last(0), last(1), last(2)], [Some(5), None, Some(0)]);
    }

    #[test]
    fn words_that_are_no_lists_are_told() {
        let spoilt = |at: usize, word: u32| {
            let mut words = words();
            words[at] = word;
            walked(&words, 3, 3).is_err()
        };
        assert!(spoilt(0, 4 + 65536), "a link past the cells");
        assert!(spoilt(2, 0), "a cell on no link");
        assert!(spoilt(10, 65536 + 1), "a ring");
        assert!(spoilt(3, 8192), "a cell of another row");
        assert!(spoilt(10, 0), "a link back to nowhere");
        assert!(spoilt(6, 65536 * 2 + 2), "a link back of a first cell");
        assert!(spoilt(0, 1), "a row with cells and no link back");
        assert!(spoilt(0, 1 + 65536 * 3), "a link back to another row");
        assert!(spoilt(1, 65536), "an empty row with a link back");
        assert!(!spoilt(0, 1 + 65536), "back to any cell of the row");
        assert!(walked(&words(), 3, 4).is_err(), "too few words");
    }
}
