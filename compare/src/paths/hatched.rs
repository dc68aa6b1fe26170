//! A barcode above a hatching: hundreds of parallel edges in a row.

use super::bars::bar;
use crate::drawing::Drawing;
use crate::driver;
use crate::numbers::Dice;
use crate::oracle::Command;

/// Width and height of the label: that of an address. The pool holds a little more than half of its
/// rows; the others stay white.
pub const HATCHED: (usize, usize) = super::ADDRESS;

/// How many bars a barcode has, and how many lines a hatching: twice as many edges are in each row.
const BARS: usize = 110;

/// What stays free on every side, and between the two, in pixels.
const MARGIN: usize = 4;

/// The most places of a pool.
const PLACES: usize = 16_384;

/// Bars side by side, in all their rows.
struct Striped {
    /// Where each starts in the first row, and how thick it is.
    bars: Vec<(f32, f32)>,
    lean: f32,
    top: usize,
}

impl Striped {
    fn path(&self, bottom: usize) -> Vec<Command> {
        let rows = (self.top as f32, bottom as f32);
        let drawn = |&(left, thick): &(f32, f32)| bar(left, thick, rows, self.lean);
        self.bars.iter().flat_map(drawn).collect()
    }
}

/// A barcode, and below it a hatching over as many rows as the pool holds.
pub fn hatchings(dice: &mut Dice) -> Vec<Command> {
    let (width, height) = HATCHED;
    let code_ends = MARGIN + dice.between(28, 44) as usize;
    let mut path = barcode(width, dice).path(code_ends);
    let hatching = hatching(width, code_ends + MARGIN, height - MARGIN, dice);
    let tallest = [path.clone(), hatching.path(height - MARGIN)].concat();
    path.extend(hatching.path(height_held(&tallest).min(height - MARGIN)));
    path
}

/// Upright bars and gaps of one to four modules each.
fn barcode(width: usize, dice: &mut Dice) -> Striped {
    let modules: Vec<usize> = (0..2 * BARS).map(|_| 1 + dice.below(4)).collect();
    let module = (width - 2 * MARGIN) as f32 / modules.iter().sum::<usize>() as f32;
    let mut left = MARGIN as f32;
    let bar_and_gap = |pair: &[usize]| {
        let (start, thick) = (left, module * pair[0] as f32);
        left += module * (pair[0] + pair[1]) as f32;
        (start, thick)
    };
    Striped {
        bars: modules.chunks_exact(2).map(bar_and_gap).collect(),
        lean: 0.0,
        top: MARGIN,
    }
}

/// Slanted lines, all as thick and as far apart, which reach down to `bottom` at most without leaving
/// the label.
fn hatching(width: usize, top: usize, bottom: usize, dice: &mut Dice) -> Striped {
    let lean = dice.between(16, 48) as f32 / 64.0 * dice.pick(&[-1.0, 1.0]);
    let leaning = lean * (bottom - top) as f32;
    let apart = ((width - 2 * MARGIN) as f32 - leaning.abs()) / BARS as f32;
    let thick = apart * dice.between(16, 40) as f32 / 64.0;
    let first = MARGIN as f32 - leaning.min(0.0);
    let line = |number: usize| (first + apart * number as f32, thick);
    Striped {
        bars: (0..BARS).map(line).collect(),
        lean,
        top,
    }
}

/// How many rows of a label a pool holds, from the top.
fn height_held(path: &[Command]) -> usize {
    let (width, height) = HATCHED;
    let whole = driver::whole(&Drawing::plain(path, width, height));
    let cells = whole.expect("only room may be lacking").cells;
    cells.get(PLACES).map_or(height, |cell| cell.row as usize)
}

#[cfg(test)]
mod tests {
    use super::*;
    use crate::list;
    use crate::oracle::Point;

    /// How many edges cross the middle of a row. A bar is a MoveTo, three LineTos and a Close.
    fn edges_in(path: &[Command], row: usize) -> usize {
        let is_above = |point: &Point| point.y < row as f32 + 0.5;
        let edges_of = |bar: &[Command]| {
            let corners: Vec<Point> = bar.iter().flat_map(|c| list::parts(c).1).collect();
            let next = corners.iter().cycle().skip(1);
            let both = corners.iter().zip(next);
            both.filter(|(a, b)| is_above(a) != is_above(b)).count()
        };
        path.chunks_exact(5).map(edges_of).sum()
    }

    /// Labels are accepted with the pool nearly full, and each row that has a cell has 200 edges or
    /// more. A row has from half as many cells as columns to one in each, so the pool holds 41 rows
    /// or more, and 82 or fewer.
    #[test]
    fn rows_have_hundreds_of_edges() {
        let (width, height) = HATCHED;
        let mut dice = Dice::new(50);
        for _ in 0..30 {
            let path = hatchings(&mut dice);
            let call = Drawing::plain(&path, width, height);
            let outcome = driver::outcome(&call);
            assert_eq!(outcome.number, 0);
            assert!(outcome.cells > 15_900, "{}", outcome.cells);
            let cells = driver::whole(&call).unwrap().cells;
            let rows = cells.chunk_by(|a, b| a.row == b.row);
            let rows: Vec<usize> = rows.map(|row| row[0].row as usize).collect();
            assert!((41..=82).contains(&rows.len()), "{}", rows.len());
            for row in rows {
                let edges = edges_in(&path, row);
                assert!((200..300).contains(&edges), "{row}: {edges}");
            }
        }
    }

    /// Bars of both parts have grey edges: off the pixels' grid.
    #[test]
    fn edges_are_grey() {
        let (width, height) = HATCHED;
        let mut dice = Dice::new(51);
        let path = hatchings(&mut dice);
        let mask = driver::outcome(&Drawing::plain(&path, width, height)).mask;
        let grey = |row: &[u8]| row.iter().filter(|&&b| b > 0 && b < 255).count();
        for row in [10, 60] {
            let grey = grey(&mask[row * width..(row + 1) * width]);
            assert!(grey > 100, "{row}: {grey}");
        }
    }
}
