//! A list in words: its bytes in hexadecimal, then its commands.

use crate::list::parts;
use crate::numbers;
use crate::oracle::Command;
use crate::reading::{record_at, Record};

/// More than these are not shown: a case that is told has been made small before.
const MOST_BYTES: usize = 1000;
const MOST_RECORDS: usize = 80;

/// The bytes on one line, then a line for each record up to a faulty one or the end.
pub fn shown(bytes: &[u8]) -> String {
    let hex: String = bytes.iter().take(MOST_BYTES).map(hex_of).collect();
    let more = if bytes.len() > MOST_BYTES { ".." } else { "" };
    let mut text = format!("  list of {} bytes: {hex}{more}\n", bytes.len());
    let mut at = 0;
    for index in 0..MOST_RECORDS {
        match record_at(&bytes[at..]) {
            Record::End => return text,
            Record::Faulty(number) => return text + &format!("    {index}: faulty, {number}\n"),
            Record::Command(command, taken) => {
                text += &format!("    {index}: {}\n", in_words(&command));
                at += taken;
            }
        }
    }
    text + "    ..\n"
}

fn hex_of(byte: &u8) -> String {
    format!("{byte:02x}")
}

/// A command with its coordinates and their bits.
fn in_words(command: &Command) -> String {
    let name = match command {
        Command::MoveTo(_) => "MoveTo",
        Command::LineTo(_) => "LineTo",
        Command::QuadTo(..) => "QuadTo",
        Command::CurveTo(..) => "CurveTo",
        Command::Close => "Close",
    };
    let (_, points) = parts(command);
    points.iter().fold(name.to_string(), |text, p| {
        let (x, y) = (numbers::shown(p.x), numbers::shown(p.y));
        format!("{text} {x} {y}")
    })
}

#[cfg(test)]
mod tests {
    use super::*;
    use crate::list::written;
    use crate::oracle::Point;

    #[test]
    fn records_are_told_up_to_a_fault() {
        let mut bytes = written(&[Command::MoveTo(Point::new(1.0, -0.0)), Command::Close]);
        bytes.push(7);
        let expected = "  list of 17 bytes: 0a0001000000803f000000800200050007\n    \
                        0: MoveTo 1.0 (3f800000) -0.0 (80000000)\n    \
                        1: Close\n    \
                        2: faulty, 8\n";
        assert_eq!(shown(&bytes), expected);
    }
}
