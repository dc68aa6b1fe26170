//! The path list: records behind each other, written as bytes.

use std::fmt;

use crate::command::Kind;
use crate::{commands, Command, Commands, Point};

/// A path as the bytes of its list.
///
/// A record has two bytes of length, in which these two are not counted, two bytes of kind and the
/// coordinates, x before y, four bytes each: IEEE 754 binary32. The lowest byte comes first.
///
/// | kind | command | length |
/// |---|---|---|
/// | 1 | MoveTo p | 10 |
/// | 2 | LineTo p | 10 |
/// | 3 | QuadTo c, p | 18 |
/// | 4 | CurveTo c1, c2, p | 26 |
/// | 5 | Close | 2 |
///
/// A path may hold any bytes; they are judged when it is drawn, bounded or placed. The first record
/// must be a MoveTo, and the list may have 65,536 bytes. An empty path is valid. A subpath that is
/// still open is closed by the next MoveTo, or by the end.
///
/// What is drawn must begin with a MoveTo, also after a Close: directly after that stands a MoveTo,
/// another Close, or nothing. A `Path` does not look back at what it holds, so its methods write a
/// line or a curve there too, and the drawing refuses it with 18:
///
/// ```
/// use mosszephyr::{draw, Label, Path};
///
/// let mut path = Path::new();
/// path.move_to((1.0, 1.0)).line_to((3.0, 1.0)).close().line_to((3.0, 3.0));
/// let refusal = draw(&path, &Label::new(4, 4)).unwrap_err();
/// assert_eq!((refusal.number(), refusal.record()), (18, Some(3)));
/// ```
///
/// The bytes of a list:
///
/// ```
/// use mosszephyr::Path;
///
/// let mut path = Path::new();
/// path.move_to((1.0, 1.0)).close();
/// let bytes = [0x0A, 0, 1, 0, 0, 0, 0x80, 0x3F, 0, 0, 0x80, 0x3F, 2, 0, 5, 0];
/// assert_eq!(path.as_bytes(), bytes);
/// assert_eq!(path, Path::from_bytes(bytes));
/// ```
///
/// It is written from [`Command`]s too, and read back as such:
///
/// ```
/// use mosszephyr::{Command, Path, Point};
///
/// let square = [
///     Command::MoveTo(Point::new(1.0, 1.0)),
///     Command::LineTo(Point::new(3.0, 1.0)),
///     Command::LineTo(Point::new(3.0, 3.0)),
///     Command::LineTo(Point::new(1.0, 3.0)),
///     Command::Close,
/// ];
/// let path: Path = square.into_iter().collect();
/// let read: Vec<Command> = path.commands().collect::<Result<_, _>>()?;
/// assert_eq!(read, square);
/// # Ok::<(), mosszephyr::Refusal>(())
/// ```
///
/// `{:?}` shows the commands and, where the bytes are no list, the refusal behind them.
#[derive(Clone, Default, PartialEq, Eq, Hash)]
pub struct Path {
    bytes: Vec<u8>,
}

impl Path {
    /// An empty path.
    #[must_use]
    pub const fn new() -> Path {
        Path { bytes: Vec::new() }
    }

    /// A path of these bytes, whatever they are. A `Vec<u8>` is taken over uncopied.
    #[must_use]
    pub fn from_bytes(bytes: impl Into<Vec<u8>>) -> Path {
        Path {
            bytes: bytes.into(),
        }
    }

    /// The list's bytes.
    #[must_use]
    pub fn as_bytes(&self) -> &[u8] {
        &self.bytes
    }

    /// The list's bytes, handed over uncopied.
    #[must_use]
    pub fn into_bytes(self) -> Vec<u8> {
        self.bytes
    }

    /// How many bytes the list has; more than [`MOST_LIST`](crate::MOST_LIST) are refused with 7.
    #[must_use]
    pub fn len(&self) -> usize {
        self.bytes.len()
    }

    /// Whether there is no command.
    #[must_use]
    pub fn is_empty(&self) -> bool {
        self.bytes.is_empty()
    }

    /// The path's commands, each as the library would read it: see [`commands`](crate::commands).
    pub fn commands(&self) -> Commands<'_> {
        commands(self)
    }

    /// How many coordinates the path has: two for each point, control points included. Of bytes that
    /// are no list, those before the record at fault. How many of them lie off the grid, a drawing
    /// tells: see [`Drawn`](crate::Drawn).
    ///
    /// ```
    /// use mosszephyr::Path;
    ///
    /// let mut path = Path::new();
    /// path.move_to((1.0, 1.0)).quad_to((3.0, 1.0), (3.0, 3.0)).close();
    /// assert_eq!(path.coordinates(), 6);
    /// ```
    #[must_use]
    pub fn coordinates(&self) -> usize {
        let read = self.commands().map_while(Result::ok);
        read.map(|command| 2 * command.kind().points()).sum()
    }

    /// Adds a command, whatever stands before it: see [`Path`] for what is refused after a close.
    pub fn push(&mut self, command: Command) -> &mut Path {
        let kind = command.kind();
        match command {
            Command::MoveTo(p) | Command::LineTo(p) => self.record(kind, &[p]),
            Command::QuadTo(c, p) => self.record(kind, &[c, p]),
            Command::CurveTo(c1, c2, p) => self.record(kind, &[c1, c2, p]),
            Command::Close => self.record(kind, &[]),
        }
    }

    /// Begins a subpath at a point.
    pub fn move_to(&mut self, p: impl Into<Point>) -> &mut Path {
        self.push(Command::MoveTo(p.into()))
    }

    /// A line to a point; refused with 18 directly after a close.
    pub fn line_to(&mut self, p: impl Into<Point>) -> &mut Path {
        self.push(Command::LineTo(p.into()))
    }

    /// A quadratic curve with a control point to a point; refused with 18 directly after a close.
    pub fn quad_to(&mut self, control: impl Into<Point>, p: impl Into<Point>) -> &mut Path {
        self.push(Command::QuadTo(control.into(), p.into()))
    }

    /// A cubic curve with two control points to a point; refused with 18 directly after a close.
    pub fn curve_to(
        &mut self,
        control1: impl Into<Point>,
        control2: impl Into<Point>,
        p: impl Into<Point>,
    ) -> &mut Path {
        self.push(Command::CurveTo(control1.into(), control2.into(), p.into()))
    }

    /// Closes the subpath. What is drawn after it begins with [`move_to`](Path::move_to).
    pub fn close(&mut self) -> &mut Path {
        self.push(Command::Close)
    }

    fn record(&mut self, kind: Kind, points: &[Point]) -> &mut Path {
        self.bytes.extend(kind.length().to_le_bytes());
        self.bytes.extend((kind as u16).to_le_bytes());
        for point in points {
            self.bytes.extend(point.x.to_le_bytes());
            self.bytes.extend(point.y.to_le_bytes());
        }
        self
    }
}

/// The commands stand behind those that are there, as they are: where the path ends with a close and
/// they begin with a line or a curve, the list is refused with 18.
impl Extend<Command> for Path {
    fn extend<I: IntoIterator<Item = Command>>(&mut self, commands: I) {
        for command in commands {
            self.push(command);
        }
    }
}

/// As for commands by value.
impl<'a> Extend<&'a Command> for Path {
    fn extend<I: IntoIterator<Item = &'a Command>>(&mut self, commands: I) {
        self.extend(commands.into_iter().copied());
    }
}

impl FromIterator<Command> for Path {
    fn from_iter<I: IntoIterator<Item = Command>>(commands: I) -> Path {
        let mut path = Path::new();
        path.extend(commands);
        path
    }
}

impl<'a> FromIterator<&'a Command> for Path {
    fn from_iter<I: IntoIterator<Item = &'a Command>>(commands: I) -> Path {
        commands.into_iter().copied().collect()
    }
}

impl fmt::Debug for Path {
    fn fmt(&self, f: &mut fmt::Formatter<'_>) -> fmt::Result {
        let mut shown = f.debug_list();
        for read in self.commands() {
            match read {
                Ok(command) => shown.entry(&command),
                Err(refusal) => shown.entry(&refusal),
            };
        }
        shown.finish()
    }
}

impl From<Vec<u8>> for Path {
    fn from(bytes: Vec<u8>) -> Path {
        Path { bytes }
    }
}

impl AsRef<[u8]> for Path {
    fn as_ref(&self) -> &[u8] {
        self.as_bytes()
    }
}

#[cfg(test)]
mod tests {
    use super::*;

    /// Each command's length and kind, from the table.
    #[test]
    fn headers_are_the_tables() {
        let p = Point::new(1.0, 2.0);
        let mut path = Path::new();
        path.move_to(p)
            .line_to(p)
            .quad_to(p, p)
            .curve_to(p, p, p)
            .close();
        let mut rest = path.as_bytes();
        for (kind, length) in [(1, 10), (2, 10), (3, 18), (4, 26), (5, 2)] {
            assert_eq!(rest[..4], [length, 0, kind, 0]);
            rest = &rest[2 + usize::from(length)..];
        }
        assert!(rest.is_empty());
    }

    /// Up to a record that cannot be read, or may not stand there.
    #[test]
    fn coordinates_are_counted_record_by_record() {
        let p = Point::ZERO;
        let mut path = Path::new();
        assert_eq!(path.coordinates(), 0);
        assert_eq!(path.move_to(p).coordinates(), 2);
        assert_eq!(path.line_to(p).coordinates(), 4);
        assert_eq!(path.quad_to(p, p).coordinates(), 8);
        assert_eq!(path.curve_to(p, p, p).coordinates(), 14);
        assert_eq!(path.close().coordinates(), 14);
        let cut = Path::from_bytes(&path.as_bytes()[..71]);
        assert_eq!(cut.coordinates(), 8);
        assert_eq!(path.line_to(p).coordinates(), 14);
        assert_eq!(path.move_to(p).coordinates(), 14);
    }

    #[test]
    fn points_stand_in_order_bit_for_bit() {
        let parts = [0.5, -0.0, 1e-45, f32::MAX, f32::NEG_INFINITY, -3.25];
        let [a, b, c, d, e, f] = parts;
        let mut path = Path::new();
        path.curve_to((a, b), [c, d], Point::new(e, f));
        let expected: Vec<u8> = parts.iter().flat_map(|part| part.to_le_bytes()).collect();
        assert_eq!(path.as_bytes()[4..], expected);
    }

    #[test]
    fn bytes_come_back_as_they_went_in() {
        let bytes: Vec<u8> = (0..=255).collect();
        assert_eq!(Path::from_bytes(bytes.clone()).into_bytes(), bytes);
        let path = Path::from(bytes.clone());
        assert_eq!((path.len(), path.is_empty()), (256, false));
        assert_eq!(path.into_bytes(), bytes);
        assert!(Path::from_bytes([]).as_bytes().is_empty());
        assert!(Path::new().is_empty());
    }
}
