//! The commands of a path, and a list read as commands.

use std::iter::FusedIterator;

use crate::refusal::At;
use crate::{Point, Refusal};

/// One command of a path: a record of its list.
#[derive(Clone, Copy, Debug, PartialEq)]
pub enum Command {
    /// Begins a subpath at a point.
    MoveTo(Point),
    /// A line to a point.
    LineTo(Point),
    /// A quadratic curve: its control point, and the point that it goes to.
    QuadTo(Point, Point),
    /// A cubic curve: its two control points, and the point that it goes to.
    CurveTo(Point, Point, Point),
    /// Closes the subpath.
    Close,
}

impl Command {
    pub(crate) fn kind(self) -> Kind {
        match self {
            Command::MoveTo(_) => Kind::MoveTo,
            Command::LineTo(_) => Kind::LineTo,
            Command::QuadTo(..) => Kind::QuadTo,
            Command::CurveTo(..) => Kind::CurveTo,
            Command::Close => Kind::Close,
        }
    }
}

/// The kinds of record.
#[derive(Clone, Copy, Debug, PartialEq)]
pub(crate) enum Kind {
    MoveTo = 1,
    LineTo = 2,
    QuadTo = 3,
    CurveTo = 4,
    Close = 5,
}

/// Two bytes of length and two of kind.
const HEADER: usize = 4;
/// How much shorter than the record its length is: by its own two bytes.
const UNCOUNTED: usize = 2;
/// Two floats of four bytes.
const POINT: usize = 8;

impl Kind {
    fn of(number: u16) -> Option<Kind> {
        Some(match number {
            1 => Kind::MoveTo,
            2 => Kind::LineTo,
            3 => Kind::QuadTo,
            4 => Kind::CurveTo,
            5 => Kind::Close,
            _ => return None,
        })
    }

    /// How many points a record of this kind has.
    pub(crate) fn points(self) -> usize {
        match self {
            Kind::MoveTo | Kind::LineTo => 1,
            Kind::QuadTo => 2,
            Kind::CurveTo => 3,
            Kind::Close => 0,
        }
    }

    /// How many bytes it has.
    fn bytes(self) -> usize {
        HEADER + POINT * self.points()
    }

    /// The number in a record's first two bytes.
    pub(crate) fn length(self) -> u16 {
        (self.bytes() - UNCOUNTED) as u16
    }
}

/// The commands of a list, read one by one: see [`commands`].
#[derive(Clone, Debug)]
#[must_use = "nothing is read before it is asked for"]
pub struct Commands<'a> {
    rest: &'a [u8],
    at: At,
    /// The kind of the record directly before.
    before: Option<Kind>,
}

/// Reads a list, any bytes, as commands.
///
/// Each record is its command, or the refusal with which the library turns it away: 8 to 11 and 18,
/// with the same record. Behind a refusal there is nothing more. That the list is too long (7) and
/// the point rule (12), which takes a transform and an offset to judge, are left to the drawing.
///
/// ```
/// use mosszephyr::{commands, Command, Point, Refusal};
///
/// let mut read = commands(&[2, 0, 5, 0]);
/// assert!(matches!(read.next(), Some(Err(Refusal::Start(_)))));
/// assert_eq!(read.next(), None);
///
/// let list = [0x0A, 0, 1, 0, 0, 0, 0x80, 0x3F, 0, 0, 0, 0xBF, 2, 0, 5, 0];
/// let read: Vec<Command> = commands(&list).collect::<Result<_, _>>()?;
/// assert_eq!(read, [Command::MoveTo(Point::new(1.0, -0.5)), Command::Close]);
/// # Ok::<(), Refusal>(())
/// ```
pub fn commands(list: &(impl AsRef<[u8]> + ?Sized)) -> Commands<'_> {
    Commands {
        rest: list.as_ref(),
        at: At { record: 0, byte: 0 },
        before: None,
    }
}

impl Iterator for Commands<'_> {
    type Item = Result<Command, Refusal>;

    fn next(&mut self) -> Option<Self::Item> {
        if self.rest.is_empty() {
            return None;
        }
        let judged = first_kind(self.rest, self.at, self.before);
        let bytes = judged.map_or(self.rest.len(), Kind::bytes);
        let (record, rest) = self.rest.split_at(bytes);
        self.rest = rest;
        self.at.record += 1;
        self.at.byte += bytes;
        self.before = judged.ok();
        Some(judged.map(|kind| command_in(kind, record)))
    }
}

impl FusedIterator for Commands<'_> {}

/// The kind of the record that these bytes begin with, if it is whole and may stand behind the one
/// before. The tests stand in the library's order.
fn first_kind(rest: &[u8], at: At, before: Option<Kind>) -> Result<Kind, Refusal> {
    let &[l0, l1, k0, k1, ..] = rest else {
        return Err(Refusal::Cut(at));
    };
    let kind = Kind::of(u16::from_le_bytes([k0, k1])).ok_or(Refusal::Kind(at))?;
    if u16::from_le_bytes([l0, l1]) != kind.length() {
        return Err(Refusal::Length(at));
    }
    if rest.len() < kind.bytes() {
        return Err(Refusal::Cut(at));
    }
    match (before, kind) {
        (_, Kind::MoveTo) => Ok(kind),
        (None, _) => Err(Refusal::Start(at)),
        (Some(Kind::Close), Kind::LineTo | Kind::QuadTo | Kind::CurveTo) => {
            Err(Refusal::AfterClose(at))
        }
        _ => Ok(kind),
    }
}

/// The command of a whole record.
fn command_in(kind: Kind, record: &[u8]) -> Command {
    let float = |at: usize| {
        f32::from_le_bytes([record[at], record[at + 1], record[at + 2], record[at + 3]])
    };
    let point = |index: usize| {
        let at = HEADER + POINT * index;
        Point::new(float(at), float(at + POINT / 2))
    };
    match kind {
        Kind::MoveTo => Command::MoveTo(point(0)),
        Kind::LineTo => Command::LineTo(point(0)),
        Kind::QuadTo => Command::QuadTo(point(0), point(1)),
        Kind::CurveTo => Command::CurveTo(point(0), point(1), point(2)),
        Kind::Close => Command::Close,
    }
}
