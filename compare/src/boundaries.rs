//! Every boundary and every refusal of the rules (docs/RULES.md) as a call, with the number and the
//! index that they give, and coordinates that are cut or just not, written down by hand. The tests hold
//! the reading to this table, the program the port.

mod cuts;
mod lists;
mod orders;
mod rooms;
mod sizes;

use crate::drawing::Drawing;
use crate::oracle::{Command, Point};

/// A call, what it stands for, and the number and index that it must be answered with.
#[derive(Clone)]
pub struct Boundary {
    pub what: String,
    pub number: u8,
    pub index: usize,
    /// How many coordinates are cut, where that is written down; none of a refused call.
    pub cut: Option<usize>,
    pub drawing: Drawing,
}

/// The whole table.
pub fn table() -> Vec<Boundary> {
    let mut table = sizes::table();
    table.extend(lists::table());
    table.extend(orders::table());
    table.extend(rooms::table());
    table.extend(cuts::table());
    table
}

/// Rows of the table as they are gathered.
#[derive(Default)]
struct Rows(Vec<Boundary>);

impl Rows {
    fn add(&mut self, what: impl Into<String>, (number, index): (u8, usize), drawing: Drawing) {
        self.0.push(Boundary {
            what: what.into(),
            number,
            index,
            cut: (number != 0).then_some(0),
            drawing,
        });
    }

    /// No refusal, and so many coordinates cut.
    fn cut(&mut self, what: impl Into<String>, cut: usize, drawing: Drawing) {
        self.0.push(Boundary {
            what: what.into(),
            number: 0,
            index: 0,
            cut: Some(cut),
            drawing,
        });
    }

    /// A refusal in which no record is at fault, or no refusal.
    fn plain(&mut self, what: impl Into<String>, number: u8, drawing: Drawing) {
        self.add(what, (number, 0), drawing);
    }
}

/// K1's label: a rectangle on 4 by 3.
pub fn k1() -> Drawing {
    Drawing::plain(&rectangle(1.0, 1.0, 3.0, 2.0), 4, 3)
}

/// K1 with one thing changed.
fn k1_but(change: impl FnOnce(&mut Drawing)) -> Drawing {
    let mut drawing = k1();
    change(&mut drawing);
    drawing
}

/// A rectangle in the order of K1: right along the top first.
pub fn rectangle(left: f32, top: f32, right: f32, bottom: f32) -> Vec<Command> {
    closed(&[(left, top), (right, top), (right, bottom), (left, bottom)])
}

/// Lines through these points, closed.
pub fn closed(points: &[(f32, f32)]) -> Vec<Command> {
    let at = |&(x, y): &(f32, f32)| Point::new(x, y);
    let mut path = vec![Command::MoveTo(at(&points[0]))];
    path.extend(points[1..].iter().map(|p| Command::LineTo(at(p))));
    path.push(Command::Close);
    path
}

#[cfg(test)]
mod tests {
    use super::*;
    use crate::drawing::Way;
    use crate::driver;
    use crate::oracle::Origin;
    use std::collections::HashSet;

    #[test]
    fn the_reading_answers_as_the_table() {
        for row in table() {
            let outcome = driver::outcome(&row.drawing);
            let answer = (outcome.number, outcome.index, outcome.cut);
            let cut = row.cut.unwrap_or(outcome.cut);
            assert_eq!(answer, (row.number, row.index, cut), "{}", row.what);
        }
    }

    /// Each band alone, all in bands and a placement tell as many as the table has for the label.
    #[test]
    fn as_many_are_cut_in_every_band_and_placed() {
        for row in cuts::table().iter().filter(|row| row.number == 0) {
            let call = &row.drawing;
            let mut told = HashSet::new();
            for end in 0..=call.height {
                let bands = (0..=end).map(|first| call.band(first, end));
                told.extend(bands.map(|band| driver::outcome(&band).cut));
            }
            told.insert(driver::outcome_in(call, Way::InBands(1)).cut);
            let (transform, offset) = (call.transform, call.offset);
            let placed = driver::placement(&call.list, transform, offset, Origin::TopLeft);
            told.insert(placed.expect("an accepted list").cut);
            assert_eq!(told, HashSet::from([row.cut.unwrap()]), "{}", row.what);
        }
    }

    #[test]
    fn every_number_is_in_the_table() {
        let table = table();
        for number in (0..=13).chain([18]) {
            let rows = table.iter().filter(|row| row.number == number).count();
            assert!(rows >= 3, "{number}: {rows}");
        }
    }
}
