//! Paths that fill rows column by column, in the order of their visits: every visit meets the same
//! places of its column in every row.

use crate::numbers::Dice;
use crate::oracle::{Command, Point};

/// What is drawn at each visit.
#[derive(Clone, Copy, Debug, PartialEq)]
pub enum Figure {
    /// A triangle within the column, upright on one side and as high as the rows.
    Triangles,
    /// A line down or up through all the rows, and level on to the next.
    Strokes,
}

impl Figure {
    pub const ALL: [Figure; 2] = [Figure::Triangles, Figure::Strokes];

    /// How many visits a list of 65,536 bytes has room for; a record of one point takes 12.
    pub fn most_visits(self) -> usize {
        match self {
            Figure::Triangles => 65_536 / 36,
            Figure::Strokes => 65_536 / 24 - 1,
        }
    }

    /// A path that visits columns, counted from 0 for column -1, in the first so many rows.
    pub fn path(self, visits: &[usize], rows: usize, dice: &mut Dice) -> Vec<Command> {
        let reach = Reach::new(rows, dice);
        match self {
            Figure::Triangles => triangles(visits, &reach, dice),
            Figure::Strokes => strokes(visits, &reach, dice),
        }
    }
}

/// From where in the first row to where in the last one, in 256ths: never the same height.
struct Reach {
    top: usize,
    bottom: usize,
}

impl Reach {
    fn new(rows: usize, dice: &mut Dice) -> Reach {
        Reach {
            top: dice.below(128),
            bottom: 256 * rows - 1 - dice.below(128),
        }
    }
}

fn at(column: usize, across: usize, y: usize) -> Point {
    let x = column as f32 - 1.0 + across as f32 / 256.0;
    Point::new(x, y as f32 / 256.0)
}

/// Open: the next MoveTo closes a triangle. Its third corner stands in the last row: further up the
/// sides could come so close there that their sums cancel, and no place would be stored.
fn triangles(visits: &[usize], reach: &Reach, dice: &mut Dice) -> Vec<Command> {
    let last_row = (reach.bottom & !255).max(reach.top);
    let mut path = Vec::new();
    for &column in visits {
        let upright = dice.below(256);
        let across = other_than(upright, dice);
        let y = last_row + dice.below(reach.bottom + 1 - last_row);
        path.extend([
            Command::MoveTo(at(column, upright, reach.top)),
            Command::LineTo(at(column, upright, reach.bottom)),
            Command::LineTo(at(column, across, y)),
        ]);
    }
    path
}

/// One line. Where the strokes are odd in number the first column is visited once more, so that the
/// line ends level with its start and closes without another place.
fn strokes(visits: &[usize], reach: &Reach, dice: &mut Dice) -> Vec<Command> {
    let once_more = &visits[..visits.len() % 2];
    let mut path = Vec::new();
    let mut across = 0;
    for (number, &column) in visits.iter().chain(once_more).enumerate() {
        across = other_than(across, dice);
        let (from, to) = match number % 2 {
            0 => (reach.top, reach.bottom),
            _ => (reach.bottom, reach.top),
        };
        let start = at(column, across, from);
        path.push(match number {
            0 => Command::MoveTo(start),
            _ => Command::LineTo(start),
        });
        path.push(Command::LineTo(at(column, across, to)));
    }
    path
}

/// Another way across a column, in 256ths: a line back where the last one came would undo it.
fn other_than(across: usize, dice: &mut Dice) -> usize {
    (across + 1 + dice.below(255)) % 256
}

/// How many columns a line of `full_rows` crosses, so few that it gives something to each.
const STEEP: usize = 64;

/// Rows in which every place of a label so wide is stored, that of column -1 too: in each a zigzag
/// across all columns.
pub fn full_rows(width: usize, rows: usize) -> Vec<Command> {
    let mut path = Vec::new();
    for row in 0..rows {
        let turns = (0..=width).step_by(STEEP).chain([width + 1]);
        for (number, column) in turns.enumerate() {
            let point = at(column, 0, 256 * row + [32, 224][number % 2]);
            path.push(match number {
                0 => Command::MoveTo(point),
                _ => Command::LineTo(point),
            });
        }
    }
    path
}

#[cfg(test)]
mod tests {
    use super::*;
    use crate::drawing::Drawing;
    use crate::driver;
    use crate::list;
    use crate::oracle::CellAt;
    use crate::order::Order;
    use std::collections::HashSet;
    use std::hash::Hash;

    /// A figure, visits and rows, and the pairs that zeno stores for them.
    fn tried(dice: &mut Dice) -> (Figure, Vec<usize>, usize, Vec<CellAt>) {
        let (columns, rows) = (2 + dice.below(40), 1 + dice.below(4));
        let (figure, order) = (dice.pick(&Figure::ALL), dice.pick(&Order::ALL));
        let visits = order.visits(columns, 1 + dice.below(9), dice);
        let path = figure.path(&visits, rows, dice);
        let drawing = Drawing::plain(&path, columns - 1, rows);
        (figure, visits, rows, driver::pairs(&drawing).unwrap())
    }

    /// Each number where it comes first.
    fn firsts<T: Copy + Eq + Hash>(numbers: impl Iterator<Item = T>) -> Vec<T> {
        let mut known = HashSet::new();
        numbers.filter(|&number| known.insert(number)).collect()
    }

    /// In every row zeno stores columns first in the order of their first visits.
    #[test]
    fn rows_are_filled_in_the_order_of_the_visits() {
        let mut dice = Dice::new(28);
        for _ in 0..600 {
            let (figure, visits, rows, pairs) = tried(&mut dice);
            let visited = firsts(visits.iter().copied());
            for row in 0..rows as i32 {
                let in_row = pairs.iter().filter(|pair| pair.row == row);
                let columns = firsts(in_row.map(|pair| (pair.column + 1) as usize));
                assert_eq!(columns, visited, "{figure:?} row {row}");
            }
        }
    }

    /// When every place has been stored, and a pool with just room is full, known ones come.
    #[test]
    fn known_places_come_last() {
        let mut dice = Dice::new(41);
        for _ in 0..600 {
            let (figure, visits, _, pairs) = tried(&mut dice);
            let places: Vec<_> = pairs.iter().map(|pair| (pair.row, pair.column)).collect();
            let (last, before) = places.split_last().expect("a store at least");
            assert!(before.contains(last), "{figure:?} {visits:?}");
        }
    }

    #[test]
    fn full_rows_store_every_place() {
        for (width, rows) in [(0, 1), (5, 3), (63, 2), (64, 2), (4096, 3)] {
            let drawing = Drawing::plain(&full_rows(width, rows), width, rows);
            let outcome = driver::outcome(&drawing);
            assert_eq!((outcome.number, outcome.cells), (0, drawing.every_place()));
        }
    }

    /// As many visits as a list has room for make a list that is no longer than it may be.
    #[test]
    fn the_longest_lists_have_room() {
        let mut dice = Dice::new(29);
        for figure in Figure::ALL {
            let mut visits = Order::Random.visits(figure.most_visits() - 4, 4, &mut dice);
            visits.resize(figure.most_visits(), 0);
            let bytes = list::written(&figure.path(&visits, 1, &mut dice));
            assert!((65_000..=65_536).contains(&bytes.len()), "{}", bytes.len());
        }
    }
}
