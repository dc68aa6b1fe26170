//! Calls whose rows are filled column by column in one order, with a pool that holds just what is
//! drawn, or not.

use super::limits::{lend_enough, lend_just_room};
use super::{soil, Drawing};
use crate::numbers::Dice;
use crate::oracle::Fill;
use crate::order::{numbers_in_order, orders_of, Order};
use crate::paths::Figure;
use crate::reading::SIDE;

/// Rows of few columns, any figure and order.
pub fn rows_filled(_: u64, dice: &mut Dice) -> Drawing {
    let columns = match dice.below(8) {
        0 => 1 + dice.below(200),
        1 | 2 => 1 + dice.below(40),
        _ => 1 + dice.below(9),
    };
    let again = dice.pick(&[1, 2, 4, columns]);
    let visits = dice.pick(&Order::ALL).visits(columns, again, dice);
    let (figure, rows) = (dice.pick(&Figure::ALL), 1 + dice.below(4));
    with_just_room(filled(figure, &visits, rows, dice), dice)
}

/// As many columns as a list has room for, up to the widest label's, and as many visits again as
/// may be; figure and order by the case's number, mostly one row.
pub fn long_rows_filled(number: u64, dice: &mut Dice) -> Drawing {
    let figure = Figure::ALL[number as usize % 2];
    let order = Order::ALL[number as usize / 2 % Order::ALL.len()];
    let widest = (SIDE + 1).min(figure.most_visits() - 4);
    let columns = widest - dice.pick(&[0, 0, 1, 49]);
    let visits = order.visits(columns, figure.most_visits() - columns, dice);
    let rows = dice.pick(&[1, 1, 1, 2]);
    with_just_room(filled(figure, &visits, rows, dice), dice)
}

fn with_just_room(mut drawing: Drawing, dice: &mut Dice) -> Drawing {
    lend_just_room(&mut drawing, dice);
    drawing
}

/// A label as wide as its visits need, of which column -1 is the first.
fn filled(figure: Figure, visits: &[usize], rows: usize, dice: &mut Dice) -> Drawing {
    let width = visits.iter().copied().max().unwrap_or(0);
    let mut drawing = Drawing::plain(&figure.path(visits, rows, dice), width, rows);
    drawing.fill = dice.pick(&[Fill::NonZero, Fill::EvenOdd]);
    drawing.up = dice.one_in(2);
    drawing
}

/// Columns of which every order is drawn.
const FEW: usize = 6;

/// Both figures, one row and two, every order of the columns and each of them again, a pool that
/// holds just what is drawn and one that lacks a place.
pub fn orders_in_all() -> u64 {
    (2 * 2 * 2 * FEW * orders_of(FEW)) as u64
}

/// The call of this number.
pub fn every_order(number: u64, dice: &mut Dice) -> Drawing {
    let mut left = number as usize;
    let mut digit = |base: usize| {
        let digit = left % base;
        left /= base;
        digit
    };
    let (lacking, figure, rows) = (digit(2), Figure::ALL[digit(2)], 1 + digit(2));
    let again = digit(FEW);
    let mut visits = numbers_in_order(FEW, digit(orders_of(FEW)));
    visits.push(again);
    let mut drawing = filled(figure, &visits, rows, dice);
    let words = lend_enough(&mut drawing);
    drawing.words.truncate(words - 4 * lacking);
    soil(&mut drawing, dice);
    drawing
}

#[cfg(test)]
mod tests {
    use super::*;
    use crate::driver;
    use std::collections::HashMap;

    fn words_to_spare(drawing: &Drawing) -> usize {
        let needed = lend_enough(&mut drawing.clone());
        drawing.words.len() - needed
    }

    /// Pools are exactly full, lack a place, or have some words to spare.
    #[test]
    fn pools_are_full_or_lack_a_place() {
        let mut dice = Dice::new(30);
        let (mut full, mut refused) = (0, 0);
        for _ in 0..1000 {
            let drawing = rows_filled(0, &mut dice);
            match driver::outcome(&drawing).number {
                0 => full += usize::from(words_to_spare(&drawing) == 0),
                number => {
                    assert_eq!(number, 13);
                    refused += 1;
                }
            }
        }
        assert!(full > 250 && refused > 250, "{full} {refused}");
    }

    /// The longest row that a list has visits for has a place in every column, column -1 included.
    #[test]
    fn long_rows_are_full() {
        let mut dice = Dice::new(31);
        let mut most = 0;
        for number in 0..10 {
            let mut drawing = long_rows_filled(number, &mut dice);
            drawing.lend(0, drawing.every_place());
            let outcome = driver::outcome(&drawing);
            assert_eq!((outcome.number, outcome.cells), (0, drawing.every_place()));
            most = most.max(drawing.width + 1);
        }
        assert_eq!(most, 2725);
    }

    /// Half of them are accepted with not a word to spare, the others lack a place.
    #[test]
    fn every_order_is_drawn_with_a_full_pool() {
        let mut dice = Dice::new(32);
        let mut seen: HashMap<u8, u64> = HashMap::new();
        let (step, count) = (7, orders_in_all().div_ceil(7));
        for number in (0..orders_in_all()).step_by(step) {
            let drawing = every_order(number, &mut dice);
            let outcome = driver::outcome(&drawing);
            if outcome.number == 0 {
                assert_eq!(outcome.cells, drawing.every_place());
                assert_eq!(words_to_spare(&drawing), 0);
            }
            *seen.entry(outcome.number).or_default() += 1;
        }
        assert_eq!(seen[&0] + seen[&13], count);
        assert!(seen[&0].abs_diff(seen[&13]) <= 1, "{seen:?}");
    }
}
