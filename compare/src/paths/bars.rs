//! Bars: upright, leaning, level, steep; one, or many side by side.

use super::text::hair;
use crate::boundaries::{closed, rectangle};
use crate::numbers::Dice;
use crate::oracle::Command;
use crate::order::Order;

/// A bar from one height to a lower one, which leans to the right by so much a row.
pub(super) fn bar(left: f32, thick: f32, (top, bottom): (f32, f32), lean: f32) -> Vec<Command> {
    let foot = left + lean * (bottom - top);
    closed(&[
        (left, top),
        (left + thick, top),
        (foot + thick, bottom),
        (foot, bottom),
    ])
}

/// So many upright bars side by side over a whole label, as wide as the gaps between them and a
/// little off the pixels' grid, drawn in this order.
pub fn even_bars(
    bars: usize,
    (width, height): (usize, usize),
    order: Order,
    dice: &mut Dice,
) -> Vec<Command> {
    let apart = width as f32 / bars as f32;
    let first = hair(dice);
    let rows = (0.0, height as f32);
    let upright = |number: usize| bar(first + apart * number as f32, apart / 2.0, rows, 0.0);
    let numbers = order.numbers(bars, dice).into_iter();
    numbers.flat_map(upright).collect()
}

/// One bar over so many rows, which leans by a pixel in 16 of them.
pub fn leaning_bar(rows: usize, dice: &mut Dice) -> Vec<Command> {
    bar(4.0 + hair(dice), 3.0, (0.0, rows as f32), 1.0 / 16.0)
}

/// Level bars over the whole width of a square label, from its top to its bottom, all as thick and
/// as far apart.
pub fn rulings(side: usize, dice: &mut Dice) -> Vec<Command> {
    let apart = dice.between(8, 24) as f32 + hair(dice);
    let thick = dice.between(32, 192) as f32 / 64.0;
    let side = side as f32;
    let mut path = Vec::new();
    let mut y = apart / 2.0;
    while y + thick <= side {
        path.extend(rectangle(0.0, y, side, y + thick));
        y += apart;
    }
    path
}

/// By how many pixels a steep bar leans at most, over its whole length.
const MOST_LEANING: i64 = 16;

/// A bar from the top of a square label to its bottom, thinner than a pixel and nearly upright.
pub fn steep_bar(side: usize, dice: &mut Dice) -> Vec<Command> {
    let leaning = dice.between(-64 * MOST_LEANING, 64 * MOST_LEANING) as f32 / 64.0;
    let left = dice.between(MOST_LEANING, side as i64 - MOST_LEANING - 2) as f32 + hair(dice);
    let thick = dice.between(8, 48) as f32 / 64.0;
    bar(left, thick, (0.0, side as f32), leaning / side as f32)
}

#[cfg(test)]
mod tests {
    use super::*;
    use crate::drawing::Drawing;
    use crate::driver::{self, Outcome};
    use crate::oracle::{self, Transform};

    fn drawn(path: &[Command], (width, height): (usize, usize)) -> Outcome {
        let outcome = driver::outcome(&Drawing::plain(path, width, height));
        assert_eq!(outcome.number, 0);
        outcome
    }

    /// Two cells for each bar in each row, and the same ink however many the bars are.
    #[test]
    fn even_bars_have_two_cells_in_each_row() {
        let mut dice = Dice::new(46);
        for bars in [32, 64, 128, 256, 512] {
            for order in [Order::Rising, Order::Random] {
                let path = even_bars(bars, (2048, 16), order, &mut dice);
                let outcome = drawn(&path, (2048, 16));
                assert_eq!(outcome.cells, 2 * bars * 16);
                let ink: usize = outcome.mask.iter().map(|&byte| usize::from(byte)).sum();
                let half = 16 * 1024 * 255;
                assert!(ink.abs_diff(half) < half / 100, "{bars} {ink}");
            }
        }
    }

    /// A leaning bar keeps to its cells a row, however long it is, and to a label 320 wide.
    #[test]
    fn leaning_bars_grow_with_the_rows() {
        let mut dice = Dice::new(47);
        for rows in [128, 256, 512, 1024, 2048, 4096] {
            let path = leaning_bar(rows, &mut dice);
            let cells = drawn(&path, (320, rows)).cells;
            assert!((2 * rows..3 * rows).contains(&cells), "{rows} {cells}");
            assert!(oracle::bounds(&path, Transform::IDENTITY).max.x < 320.0);
        }
    }

    /// Every row of ink is of one value from side to side, and so is every other.
    #[test]
    fn rulings_are_level() {
        let mut dice = Dice::new(48);
        for _ in 0..3 {
            let mask = drawn(&rulings(2048, &mut dice), (2048, 2048)).mask;
            let rows: Vec<&[u8]> = mask.chunks(2048).collect();
            assert!(rows.iter().all(|row| row.iter().all(|&b| b == row[0])));
            let inked = rows.iter().filter(|row| row[0] > 0).count();
            assert!((80..1200).contains(&inked), "{inked}");
        }
    }

    /// A steep bar is in every row, has few cells in it, and stays on the label.
    #[test]
    fn steep_bars_are_nearly_upright() {
        let mut dice = Dice::new(49);
        for _ in 0..20 {
            let path = steep_bar(2048, &mut dice);
            let cells = drawn(&path, (2048, 2048)).cells;
            assert!((2048..2 * 2048 + 64).contains(&cells), "{cells}");
            let bounds = oracle::bounds(&path, Transform::IDENTITY);
            assert!(bounds.min.x >= 0.0 && bounds.max.x <= 2048.0);
            assert!(bounds.width() < 18.0);
        }
    }
}
