//! Calls that fill rows in every order, every short sequence of stores, the stores of drawings, calls
//! about the cap, and wild ones.

use super::{numbers_of, places_of, Stores, MOST_PLACES, MOST_ROWS};
use crate::drawing::{ordinary, soil_words};
use crate::driver;
use crate::numbers::Dice;
use crate::oracle::CellAt;
use crate::order::Order;
use crate::pool::PER_ROW;

/// A few rows of few places, one behind the other, by turns or mixed.
pub fn rows_stored(_: u64, dice: &mut Dice) -> Stores {
    let rows = 1 + dice.below(4);
    let mut lists: Vec<Vec<CellAt>> = Vec::new();
    for row in 0..rows {
        let places = match dice.below(6) {
            0 => dice.below(100),
            _ => dice.below(12),
        };
        let again = dice.pick(&[1, 2, places + 1]);
        lists.push(row_of(row, places, again, dice));
    }
    with_just_room(rows, &joined(lists, dice), dice)
}

/// A row of thousands of places, one in eight as long as may be, the order by the case's number; the
/// second row is a short one.
pub fn long_rows_stored(number: u64, dice: &mut Dice) -> Stores {
    let places = match number % 8 {
        7 => PER_ROW,
        _ => 1000 * (1 + dice.below(4)),
    };
    let order = Order::ALL[number as usize % Order::ALL.len()];
    let long = row_in(order, 0, places, places / 2, dice);
    let short = row_of(1, dice.below(12), 3, dice);
    with_just_room(2, &joined(vec![long, short], dice), dice)
}

/// A row of so many places in any order, with up to `again` visits to known ones.
fn row_of(row: usize, places: usize, again: usize, dice: &mut Dice) -> Vec<CellAt> {
    let order = dice.pick(&Order::ALL);
    row_in(order, row, places, again, dice)
}

/// The same in this order.
fn row_in(order: Order, row: usize, places: usize, again: usize, dice: &mut Dice) -> Vec<CellAt> {
    let step = dice.pick(&[1, 1, 2, 9]).min(PER_ROW / places.max(1));
    let first = dice.below(PER_ROW + 1 - step * places);
    let visits = order.visits(places, again, dice);
    let small = dice.one_in(2);
    let pair = |number: usize| CellAt {
        row: row as i32,
        column: (first + step * number) as i32 - 1,
        cover: sum(small, dice),
        area: sum(small, dice),
    };
    visits.into_iter().map(pair).collect()
}

/// As a drawing has them, where zeros are among them, or any 32 bits, whose sums go round.
fn sum(small: bool, dice: &mut Dice) -> i32 {
    match small {
        true => dice.between(-512, 512) as i32,
        false => dice.roll() as i32,
    }
}

/// The pairs of several rows as one list: row by row, by turns, or mixed.
fn joined(lists: Vec<Vec<CellAt>>, dice: &mut Dice) -> Vec<CellAt> {
    let way = dice.below(3);
    let mut left: Vec<_> = lists.into_iter().map(Vec::into_iter).collect();
    let mut pairs = Vec::new();
    let mut turn = 0;
    while !left.is_empty() {
        let which = match way {
            0 => 0,
            1 => turn % left.len(),
            _ => dice.below(left.len()),
        };
        match left[which].next() {
            Some(pair) => pairs.push(pair),
            None => drop(left.remove(which)),
        }
        turn += 1;
    }
    pairs
}

/// These pairs with a pool that is exactly full in the end, lacks a place, or has some to spare.
fn with_just_room(rows: usize, pairs: &[CellAt], dice: &mut Dice) -> Stores {
    let needed = places_of(pairs);
    let places = match dice.below(4) {
        0 => needed.saturating_sub(1),
        1 => needed + 1 + dice.below(40),
        _ => needed,
    };
    let spare = dice.pick(&[0, 0, 1, 3]);
    lent(rows, pairs, places, spare, dice)
}

/// A call of these pairs with a pool of so many places, and words that are no place's behind it.
fn lent(rows: usize, pairs: &[CellAt], places: usize, spare: usize, dice: &mut Dice) -> Stores {
    let mut words = vec![0; rows + 4 * places + spare];
    soil_words(&mut words, dice);
    Stores {
        pairs: pairs.iter().flat_map(numbers_of).collect(),
        rows,
        words,
    }
}

/// Stores of a sequence, and the columns that they choose from.
const STORES: usize = 7;
const COLUMNS: usize = 6;

/// Every sequence of so many stores in one row, with a pool that holds just their places and with
/// one that lacks a place. All orders of the columns are among them, each with every column again
/// at every time.
pub fn sequences_in_all() -> u64 {
    2 * COLUMNS.pow(STORES as u32) as u64
}

/// The call of this number.
pub fn every_sequence(number: u64, dice: &mut Dice) -> Stores {
    let mut left = number as usize / 2;
    let pair = |_| {
        let column = left % COLUMNS;
        left /= COLUMNS;
        CellAt {
            row: 0,
            column: column as i32 - 1,
            cover: sum(true, dice),
            area: sum(true, dice),
        }
    };
    let pairs: Vec<CellAt> = (0..STORES).map(pair).collect();
    let needed = places_of(&pairs);
    lent(1, &pairs, needed - number as usize % 2, 0, dice)
}

/// The pairs that zeno stores for a label of any character, as it stores them.
pub fn of_a_drawing(_: u64, dice: &mut Dice) -> Stores {
    loop {
        let drawing = ordinary(dice);
        match driver::pairs(&drawing) {
            Ok(pairs) if !pairs.is_empty() => {
                return with_just_room(drawing.height, &pairs, dice);
            }
            _ => {}
        }
    }
}

/// Rows of 256 places up to the most that a pool holds, or one more, and words for more still.
pub fn stored_at_the_cap(_: u64, dice: &mut Dice) -> Stores {
    const EACH: usize = 256;
    let rows = MOST_PLACES / EACH;
    let one_more = dice.below(2);
    let mut lists: Vec<Vec<CellAt>> = (0..rows).map(|row| row_of(row, EACH, 3, dice)).collect();
    lists.push(row_of(rows, one_more, 3, dice));
    let places = MOST_PLACES + dice.pick(&[0, 1, 40]);
    let pairs = joined(lists, dice);
    lent(rows + 1, &pairs, places, dice.below(4), dice)
}

/// Pairs inside and outside the pool, numbers too many, sizes that are no pool's.
pub fn wild_stores(_: u64, dice: &mut Dice) -> Stores {
    let rows = match dice.below(8) {
        0 => dice.pick(&[0, MOST_ROWS - 1, MOST_ROWS, MOST_ROWS + 1, usize::MAX]),
        _ => dice.below(6),
    };
    let count = 4 * dice.below(24) + dice.below(4);
    let pairs: Vec<u32> = (0..count)
        .map(|at| wild_number(at % 4, rows, dice))
        .collect();
    let lent = match dice.below(4) {
        0 => rows.min(MOST_ROWS + 1) + dice.below(100),
        1 => dice.below(100),
        _ => rows.min(MOST_ROWS + 1) + 4 * dice.below(8),
    };
    let mut words = vec![0; lent.saturating_sub(usize::from(dice.one_in(8)))];
    soil_words(&mut words, dice);
    Stores { pairs, rows, words }
}

/// A row, a column, or a sum; rows and columns mostly inside.
fn wild_number(part: usize, rows: usize, dice: &mut Dice) -> u32 {
    let last = PER_ROW as u32 - 1;
    let any = dice.roll() as u32;
    match part {
        0 | 1 if dice.one_in(12) => dice.pick(&[u32::MAX, 1 << 31, 1 << 16, last + 1, 4096]),
        0 => dice.below(rows.min(MOST_ROWS) + 1) as u32,
        1 => dice.pick(&[0, 1, 2, 3, 5, 8, last - 1, last, last, last + 1]),
        _ => dice.pick(&[0, 1, u32::MAX, 1 << 31, (1 << 31) - 1, any]),
    }
}

#[cfg(test)]
mod tests {
    use super::*;
    use crate::stores::Stored;
    use std::collections::{HashMap, HashSet};

    type Make = fn(u64, &mut Dice) -> Stores;

    /// How many fill their pool exactly, leave room, find none, have no pool.
    fn seen_of(make: Make, count: u64) -> [usize; 4] {
        let mut dice = Dice::new(35);
        let mut seen = [0; 4];
        for number in 0..count {
            let stores = make(number, &mut dice);
            let heading = match stores.stored() {
                Stored::Cells(cells) if stores.places() == Some(cells.len()) => 0,
                Stored::Cells(_) => 1,
                Stored::NoRoom => 2,
                Stored::NoPool => 3,
            };
            seen[heading] += 1;
        }
        seen
    }

    #[test]
    fn pools_are_full_lack_a_place_or_have_room() {
        let makers: [(Make, u64); 4] = [
            (rows_stored, 2000),
            (of_a_drawing, 400),
            (long_rows_stored, 16),
            (every_sequence, 2000),
        ];
        for (make, count) in makers {
            let [full, room, none, no_pool] = seen_of(make, count);
            let some = count as usize / 8;
            assert!(full > some && none > some, "{full} {room} {none}");
            assert_eq!(no_pool, 0);
        }
    }

    #[test]
    fn wild_stores_are_of_every_kind() {
        let seen = seen_of(wild_stores, 4000);
        assert!(seen.iter().all(|&count| count > 100), "{seen:?}");
    }

    #[test]
    fn the_cap_is_met_and_passed() {
        let [full, room, none, _] = seen_of(stored_at_the_cap, 20);
        assert!(full > 4 && room == 0 && none > 4, "{full} {room} {none}");
    }

    /// Whatever rows are joined, the last pair goes to a known place: when the pool is full.
    #[test]
    fn the_last_place_is_known() {
        let mut dice = Dice::new(40);
        for number in 0..500 {
            let stores = rows_stored(number, &mut dice);
            let places: Vec<&[u32]> = stores.pairs.chunks(4).map(|pair| &pair[..2]).collect();
            let last = places.split_last();
            assert!(last.is_none_or(|(last, before)| before.contains(last)));
        }
    }

    /// Each row has its places, inside the pool, and ends at a known one.
    #[test]
    fn rows_end_at_known_places() {
        let mut dice = Dice::new(36);
        for _ in 0..500 {
            let places = 1 + dice.below(50);
            let pairs = row_of(0, places, 1 + dice.below(60), &mut dice);
            let columns: Vec<i32> = pairs.iter().map(|pair| pair.column).collect();
            let (last, before) = columns.split_last().expect("a row with places");
            assert!(before.contains(last));
            let distinct: HashSet<&i32> = columns.iter().collect();
            assert_eq!(distinct.len(), places);
            assert!(columns.iter().all(|column| (-1..8191).contains(column)));
        }
    }

    /// Joined in any way, each row keeps its pairs in their order.
    #[test]
    fn rows_keep_their_order_when_joined() {
        let mut dice = Dice::new(37);
        for _ in 0..200 {
            let lists: Vec<Vec<CellAt>> = (0..4)
                .map(|row| row_of(row, dice.below(9), 3, &mut dice))
                .collect();
            let mut rows: HashMap<i32, Vec<CellAt>> = HashMap::new();
            for pair in joined(lists.clone(), &mut dice) {
                rows.entry(pair.row).or_default().push(pair);
            }
            for list in lists.into_iter().filter(|list| !list.is_empty()) {
                assert_eq!(rows[&list[0].row], list);
            }
        }
    }

    #[test]
    fn every_number_has_its_own_sequence() {
        let mut dice = Dice::new(38);
        let mut columns_of = |number: u64| -> Vec<u32> {
            let pairs = every_sequence(number, &mut dice).pairs;
            pairs.chunks(4).map(|pair| pair[1]).collect()
        };
        let all: HashSet<Vec<u32>> = (0..sequences_in_all())
            .step_by(2)
            .map(&mut columns_of)
            .collect();
        assert_eq!(all.len() as u64, sequences_in_all() / 2);
    }
}
