//! Judging alone: long lists whose last record is of no kind. Every record before it is judged, and
//! nothing is drawn.

use std::hint::black_box;
use std::time::{Duration, Instant};

use super::timed::{each, Rounds};
use crate::face;
use compare::drawing::Drawing;
use compare::list;
use compare::numbers::Dice;
use compare::oracle::{Command, Point};
use compare::paths::address;

/// The most bytes that a list has, and how many lists of a sort there are.
const BYTES: usize = 65_536;
const LISTS: usize = 20;

/// A record of no kind, which is refused with this number.
const FAULT: [u8; 4] = [2, 0, 6, 0];
const NUMBER: u32 = 9;

/// A sort's name, how a piece of a list is made, and by how much the offset moves all points.
type Recipe = (&'static str, fn(&mut Dice) -> Vec<Command>, f32);

/// Half of a 256th.
const HALF: f32 = 1.0 / 512.0;

const RECIPES: [Recipe; 8] = [
    ("text on the grid of 1/256", address, 0.0),
    ("text off it", address, HALF),
    ("curves on it", |dice| curve(256, dice), 0.0),
    ("curves off it", |dice| curve(256, dice), HALF),
    ("curves half off it", |dice| curve(512, dice), 0.0),
    ("lines on it", |dice| line(256, dice), 0.0),
    ("lines off it", |dice| line(256, dice), HALF),
    ("lines half off it", |dice| line(512, dice), 0.0),
];

fn curve(fineness: i64, dice: &mut Dice) -> Vec<Command> {
    let mut point = || point(fineness, dice);
    vec![Command::CurveTo(point(), point(), point())]
}

fn line(fineness: i64, dice: &mut Dice) -> Vec<Command> {
    vec![Command::LineTo(point(fineness, dice))]
}

fn point(fineness: i64, dice: &mut Dice) -> Point {
    let mut part = || dice.between(-fineness * 2000, fineness * 2000) as f32 / fineness as f32;
    Point::new(part(), part())
}

/// Lists of one sort, as a call takes them, and what was timed of them.
struct Sort {
    name: &'static str,
    call: Drawing,
    lists: Vec<Vec<u8>>,
    port: Rounds,
}

impl Sort {
    fn new(&(name, make, offset): &Recipe) -> Sort {
        let mut dice = Dice::named(1, "judging");
        let mut call = Drawing::plain(&[], 0, 0);
        call.offset = Point::new(offset, offset);
        Sort {
            name,
            call,
            lists: (0..LISTS).map(|_| longest(make, &mut dice)).collect(),
            port: Rounds(Vec::new()),
        }
    }

    /// The last record is refused, and none before it.
    fn is_judged(&self) -> Result<(), String> {
        for list in &self.lists {
            let answer = face::draw(&self.call, list, &mut [], &mut []);
            if (answer.number, answer.index as usize) != (NUMBER, records(list)) {
                return Err(format!("{}: the port {answer:?}", self.name));
            }
        }
        Ok(())
    }

    /// Microseconds of one list of so many.
    fn timed(&self, lists: usize) -> f64 {
        let mut time = Duration::ZERO;
        for list in self.lists.iter().cycle().take(lists) {
            let start = Instant::now();
            black_box(face::draw(&self.call, black_box(list), &mut [], &mut []));
            time += start.elapsed();
        }
        1000.0 * each(time, lists)
    }
}

/// A MoveTo, as many pieces as there is room for, and the fault.
fn longest(make: fn(&mut Dice) -> Vec<Command>, dice: &mut Dice) -> Vec<u8> {
    let mut bytes = list::record(&Command::MoveTo(Point::ZERO));
    let room = BYTES - FAULT.len();
    loop {
        for command in make(dice) {
            let record = list::record(&command);
            if bytes.len() + record.len() > room {
                bytes.extend(FAULT);
                return bytes;
            }
            bytes.extend(record);
        }
    }
}

/// How many records stand before the fault.
fn records(list: &[u8]) -> usize {
    compare::reading::record_starts(list).len()
}

/// Times so many lists a round of every sort. The sorts of a round stand beside each other.
pub fn of_long_lists(lists: u64, rounds: u64) -> Result<(), String> {
    let mut sorts: Vec<Sort> = RECIPES.iter().map(Sort::new).collect();
    for sort in &sorts {
        sort.is_judged()?;
    }
    for _ in 0..rounds {
        for sort in &mut sorts {
            let time = sort.timed(lists as usize);
            sort.port.0.push(time);
        }
    }
    println!(
        "Judging alone: lists of up to 65,536 bytes, refused at their last record, microseconds"
    );
    println!(
        "a list, {lists} lists a round, the best of {rounds} rounds, and by how many hundredths"
    );
    println!("the slowest round is above it.\n");
    println!("| lists | records | port | spread |");
    println!("|---|---|---|---|");
    for sort in &sorts {
        let (best, spread) = (sort.port.best(), sort.port.spread());
        let records = records(&sort.lists[0]);
        println!("| {} | {records} | {best:.2} | {spread:.0} % |", sort.name);
    }
    Ok(())
}
