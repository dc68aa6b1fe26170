//! Path lists as docs/RULES.md has them: records of two bytes of length, in which these two are not
//! counted, two bytes of kind and the coordinates, each with its lowest byte first.

mod shown;
mod simpler;

pub use shown::shown;
pub use simpler::{plainer, shorter};

use crate::oracle::{Command, Point};

/// A path as the bytes of its list.
pub fn written(path: &[Command]) -> Vec<u8> {
    path.iter().flat_map(record).collect()
}

/// One command as a record.
pub fn record(command: &Command) -> Vec<u8> {
    let (kind, points) = parts(command);
    let length = 2 + 8 * points.len() as u16;
    let mut bytes = Vec::with_capacity(2 + usize::from(length));
    bytes.extend(length.to_le_bytes());
    bytes.extend(u16::to_le_bytes(kind));
    for point in points {
        bytes.extend(point.x.to_le_bytes());
        bytes.extend(point.y.to_le_bytes());
    }
    bytes
}

/// A command's kind and its points in the record's order, the end point last.
pub fn parts(command: &Command) -> (u16, Vec<Point>) {
    match *command {
        Command::MoveTo(p) => (1, vec![p]),
        Command::LineTo(p) => (2, vec![p]),
        Command::QuadTo(c, p) => (3, vec![c, p]),
        Command::CurveTo(c1, c2, p) => (4, vec![c1, c2, p]),
        Command::Close => (5, vec![]),
    }
}

#[cfg(test)]
mod tests {
    use super::*;

    /// The two records that docs/RULES.md spells out.
    #[test]
    fn records_are_the_bytes_of_the_rules() {
        let move_to = [0x0A, 0, 1, 0, 0, 0, 0x80, 0x3F, 0, 0, 0x80, 0x3F];
        assert_eq!(record(&Command::MoveTo(Point::new(1.0, 1.0))), move_to);
        assert_eq!(record(&Command::Close), [2, 0, 5, 0]);
    }

    #[test]
    fn lengths_are_the_tables() {
        let p = Point::new(0.0, 0.0);
        let lengths = [
            (Command::MoveTo(p), 10),
            (Command::LineTo(p), 10),
            (Command::QuadTo(p, p), 18),
            (Command::CurveTo(p, p, p), 26),
            (Command::Close, 2),
        ];
        for (command, length) in lengths {
            let bytes = record(&command);
            assert_eq!((bytes[0], bytes.len()), (length, 2 + usize::from(length)));
        }
    }
}
