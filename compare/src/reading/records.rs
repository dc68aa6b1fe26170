//! Records: two bytes of length, in which these two are not counted, two bytes of kind, and the
//! coordinates; the lowest byte comes first.

use crate::oracle::{Command, Point};

/// What stands at the front of the rest of a list.
#[derive(Clone, Copy, Debug, PartialEq)]
pub enum Record {
    End,
    /// A command and how many bytes its record takes.
    Command(Command, usize),
    /// One of 8, 9 and 10.
    Faulty(u8),
}

/// The length that each kind must have, kinds 1 to 5.
pub const LENGTHS: [usize; 5] = [10, 10, 18, 26, 2];

/// Reads one record. The order: a cut header, 9, 10, a cut body.
pub fn record_at(rest: &[u8]) -> Record {
    if rest.is_empty() {
        return Record::End;
    }
    if rest.len() < 4 {
        return Record::Faulty(8);
    }
    let length = usize::from(rest[0]) + 256 * usize::from(rest[1]);
    let kind = usize::from(rest[2]) + 256 * usize::from(rest[3]);
    if kind == 0 || kind > 5 {
        return Record::Faulty(9);
    }
    if length != LENGTHS[kind - 1] {
        return Record::Faulty(10);
    }
    if rest.len() < 2 + length {
        return Record::Faulty(8);
    }
    let point = |n: usize| point_at(&rest[4 + 8 * n..]);
    let command = match kind {
        1 => Command::MoveTo(point(0)),
        2 => Command::LineTo(point(0)),
        3 => Command::QuadTo(point(0), point(1)),
        4 => Command::CurveTo(point(0), point(1), point(2)),
        _ => Command::Close,
    };
    Record::Command(command, 2 + length)
}

/// A point from eight bytes, x from the first four and y from the others, as IEEE 754 binary32.
fn point_at(body: &[u8]) -> Point {
    let part = |at: usize| f32::from_le_bytes([body[at], body[at + 1], body[at + 2], body[at + 3]]);
    Point::new(part(0), part(4))
}

/// Where the records of a list start, up to a faulty one.
pub fn record_starts(list: &[u8]) -> Vec<usize> {
    let mut starts = Vec::new();
    let mut at = 0;
    while let Record::Command(_, taken) = record_at(&list[at..]) {
        starts.push(at);
        at += taken;
    }
    starts
}
