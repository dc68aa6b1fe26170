//! Long rows filled store by store: the port's pool beside zeno's `HeapStorage`, the same pairs.

use std::hint::black_box;
use std::time::{Duration, Instant};

use super::timed::{each, Rounds};
use crate::face;
use compare::numbers::Dice;
use compare::oracle::{self, CellAt, HeapStorage};
use compare::order::Order;
use compare::pool;
use compare::stores::numbers_of;

/// Places of a row.
const PLACES: usize = 4000;

/// A row in one order, every place once and then again in the same order, as either side takes it.
struct Row {
    pairs: Vec<CellAt>,
    numbers: Vec<u32>,
}

impl Row {
    fn new(order: Order) -> Row {
        let columns = order.numbers(PLACES, &mut Dice::named(1, order.name()));
        let pair = |&column: &usize| CellAt {
            row: 0,
            column: column as i32,
            cover: 1,
            area: 256,
        };
        let pairs: Vec<CellAt> = columns.iter().chain(&columns).map(pair).collect();
        let numbers = pairs.iter().flat_map(numbers_of).collect();
        Row { pairs, numbers }
    }

    /// Both sides hold the same cells in the end.
    fn both_agree(&self, words: &mut [u32]) -> Result<(), String> {
        let answer = face::stores(&self.numbers, 1, words);
        let cells = pool::walked(words, 1, PLACES)?;
        if answer == PLACES as u64 && cells == oracle::stored(1, &self.pairs) {
            return Ok(());
        }
        Err(format!("rows: the sides differ: {answer}"))
    }

    /// Nanoseconds of one store, where `fill` stores the row once.
    fn timed(&self, rows: usize, mut fill: impl FnMut()) -> f64 {
        let mut time = Duration::ZERO;
        for _ in 0..rows {
            let start = Instant::now();
            fill();
            time += start.elapsed();
        }
        1.0e6 * each(time, rows * self.pairs.len())
    }
}

/// What was timed of a row: zeno, its storage kept from row to row, and the port.
struct Timed {
    zeno: Rounds,
    port: Rounds,
}

/// One side behind the other in each round. The port has just as many places as there are.
fn timed(order: Order, rows: usize, rounds: u64) -> Result<Timed, String> {
    let row = Row::new(order);
    let mut storage = HeapStorage::default();
    let mut words = vec![0; 1 + 4 * PLACES];
    row.both_agree(&mut words)?;
    let mut timed = Timed {
        zeno: Rounds(Vec::new()),
        port: Rounds(Vec::new()),
    };
    for _ in 0..rounds {
        let zeno = || oracle::store(1, black_box(&row.pairs), &mut storage);
        timed.zeno.0.push(row.timed(rows, zeno));
        let port = || {
            black_box(face::stores(&row.numbers, 1, black_box(&mut words)));
        };
        timed.port.0.push(row.timed(rows, port));
    }
    Ok(timed)
}

/// For so many labels one row is timed: zeno walks a long row from its start for every store.
const LABELS_A_ROW: u64 = 1000;

/// Times rows in every order.
pub fn in_every_order(labels: u64, rounds: u64) -> Result<(), String> {
    let rows = labels.div_ceil(LABELS_A_ROW) as usize;
    println!("Rows of {PLACES} places, each given twice in the same order, nanoseconds a store,");
    println!("{rows} rows a round, the best of {rounds} rounds, and by how many hundredths the");
    println!("slowest round is above it.\n");
    println!("| order | zeno | spread | port | spread | ratio |");
    println!("|---|---|---|---|---|---|");
    for order in Order::ALL {
        let Timed { zeno, port } = timed(order, rows, rounds)?;
        println!(
            "| {} | {:.1} | {:.0} % | {:.1} | {:.0} % | {:.3} |",
            order.name(),
            zeno.best(),
            zeno.spread(),
            port.best(),
            port.spread(),
            port.best() / zeno.best(),
        );
    }
    Ok(())
}
