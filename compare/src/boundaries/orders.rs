//! The order of the refusals: two faults in one call, of which the table's order chooses.

use super::{k1, Boundary, Rows};
use crate::drawing::Drawing;
use crate::list::{record, written};
use crate::oracle::{Command, Point};
use crate::reading::SIDE;

pub fn table() -> Vec<Boundary> {
    let mut rows = Rows::default();
    pairs(&mut rows);
    within_a_record(&mut rows);
    within_a_record_behind_a_close(&mut rows);
    front_to_back(&mut rows);
    rows.0
}

/// All refusals in the order in which they are judged.
const ORDER: [u8; 14] = [1, 2, 3, 4, 5, 6, 7, 8, 9, 10, 11, 18, 12, 13];

/// Every pair of refusals, the earlier one deciding; of a record's a list can show one at a time.
fn pairs(rows: &mut Rows) {
    let is_a_records = |number: u8| matches!(number, 8..=12 | 18);
    for (at, &first) in ORDER.iter().enumerate() {
        for &second in &ORDER[at + 1..] {
            if is_a_records(first) && is_a_records(second) {
                continue;
            }
            let mut drawing = k1();
            // The later fault first: a list that is too long keeps what else is wrong with it.
            spoil(&mut drawing, second);
            spoil(&mut drawing, first);
            let index = if first == 18 { 2 } else { 0 };
            rows.add(format!("{first} and {second}"), (first, index), drawing);
        }
    }
}

/// Gives K1 the fault of this number, 18 in its third record, another in its first where it is a
/// record's.
fn spoil(drawing: &mut Drawing, number: u8) {
    match number {
        1 => drawing.height = SIDE + 1,
        2 => drawing.first = drawing.end + 1,
        3 => drawing.pitch = 3,
        4 => drawing.mask.truncate(11),
        5 => drawing.words.truncate(2),
        6 => drawing.offset.x = f32::NAN,
        7 => drawing.list.resize(65_537, 0),
        8 => drawing.list.truncate(11),
        9 => drawing.list[2] = 6,
        10 => drawing.list[0] = 11,
        11 => drawing.list[2] = 2,
        12 => drawing.list[4..8].copy_from_slice(&f32::NAN.to_le_bytes()),
        18 => {
            drawing.list.splice(12..12, record(&Command::Close));
        }
        _ => drawing.words.truncate(3),
    }
}

/// The order in a first record: a cut header, 9, 10, a cut body, 11, 12.
fn within_a_record(rows: &mut Rows) {
    let mut first = |what: &str, number: u8, list: &[u8]| {
        let mut drawing = k1();
        drawing.list = list.to_vec();
        rows.plain(what, number, drawing);
    };
    first("a cut header before 9", 8, &[2, 0, 9]);
    first("9 before 10", 9, &[11, 0, 6, 0, 0, 0]);
    first("9 before a cut body", 9, &[10, 0, 6, 0]);
    first("9 before 11", 9, &[2, 0, 0, 0]);
    first("10 before a cut body", 10, &[12, 0, 1, 0]);
    first("10 before 11", 10, &[3, 0, 5, 0, 0]);
    first("a cut body before 11", 8, &[10, 0, 2, 0]);
    let nan = Point::new(f32::NAN, 0.0);
    let line = record(&Command::LineTo(nan));
    first("a cut body before 12", 8, &line[..11]);
    first("11 before 12", 11, &line);
    let late = [&line[..], &[0, 0, 9, 0]].concat();
    first("11 before a later 9", 11, &late);
    let behind = [&record(&Command::Close), &line[..]].concat();
    first("11 before a later 18", 11, &behind);
}

/// The order in a later record: a cut header, 9, 10, a cut body, 18, 12. Each record here draws behind
/// a Close, and one of its points is NaN.
fn within_a_record_behind_a_close(rows: &mut Rows) {
    let mut third = |what: &str, number: u8, bytes: &[u8]| {
        let closed = written(&[Command::MoveTo(Point::ZERO), Command::Close]);
        let mut drawing = k1();
        drawing.list = [&closed, bytes].concat();
        rows.add(what, (number, 2), drawing);
    };
    let (zero, nan) = (Point::ZERO, Point::new(0.0, f32::NAN));
    for command in [
        Command::LineTo(nan),
        Command::QuadTo(nan, zero),
        Command::QuadTo(zero, nan),
        Command::CurveTo(nan, zero, zero),
        Command::CurveTo(zero, zero, nan),
    ] {
        let whole = record(&command);
        for length in 1..whole.len() {
            third("a cut record before 18", 8, &whole[..length]);
        }
        let with = |at: usize, byte: u8| [&whole[..at], &[byte], &whole[at + 1..]].concat();
        third("9 before 18", 9, &with(2, 6));
        third("9 for the kind's second byte before 18", 9, &with(3, 1));
        third("10 before 18", 10, &with(0, whole[0] + 1));
        third("10 for the length's second byte before 18", 10, &with(1, 1));
        third("18 before 12", 18, &whole);
        let late = [&whole[..], &[0, 0, 9, 0]].concat();
        third("18 before a later 9", 18, &late);
    }
}

/// Of two faulty records the first is told, whichever numbers they have.
fn front_to_back(rows: &mut Rows) {
    let (origin, far) = (Point::ZERO, Point::new(5000.0, 0.0));
    let start = record(&Command::MoveTo(origin));
    let curve = Command::CurveTo(origin, origin, origin);
    // Each with the sound records that it begins with.
    let faults: [(u8, usize, Vec<u8>); 6] = [
        (9, 0, vec![2, 0, 6, 0]),
        (10, 0, vec![4, 0, 5, 0, 0, 0]),
        (12, 0, record(&Command::LineTo(far))),
        (12, 0, record(&Command::CurveTo(origin, far, origin))),
        (18, 1, written(&[Command::Close, Command::LineTo(origin)])),
        (18, 2, written(&[Command::Close, Command::Close, curve])),
    ];
    for (number, own, fault) in &faults {
        for (_, _, later) in &faults {
            for before in [0, 1, 7] {
                let sound = written(&vec![Command::LineTo(origin); before]);
                let mut drawing = k1();
                drawing.list = [&start[..], &sound, fault, later].concat();
                let index = 1 + before + own;
                let what = format!("{number} at record {index}");
                rows.add(what, (*number, index), drawing);
            }
        }
    }
}
