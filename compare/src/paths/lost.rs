//! Paths that have lost a MoveTo behind a Close.

use crate::oracle::Command;

/// The path without each MoveTo that stands between a Close and a command that draws, if it goes to
/// where the closed subpath started. zeno draws the same without it.
pub fn without_moves_to_the_start(path: &[Command]) -> Vec<Command> {
    let mut lost = Vec::new();
    let mut start = None;
    for (at, command) in path.iter().enumerate() {
        let behind_close = at > 0 && path[at - 1] == Command::Close;
        let is_needless = behind_close && start == Some(command) && draws(path.get(at + 1));
        if matches!(command, Command::MoveTo(_)) {
            start = Some(command);
        }
        if !is_needless {
            lost.push(*command);
        }
    }
    lost
}

fn draws(command: Option<&Command>) -> bool {
    command.is_some_and(|c| !matches!(c, Command::MoveTo(_) | Command::Close))
}

#[cfg(test)]
mod tests {
    use super::*;
    use crate::oracle::Point;
    use Command::{Close, LineTo, MoveTo};

    #[test]
    fn only_what_zeno_does_not_need_is_lost() {
        let (a, b) = (Point::new(1.0, 2.0), Point::new(3.0, 4.0));
        let there = [MoveTo(a), LineTo(b), Close];
        let lost = |behind: &[Command]| {
            let path = [&there[..], behind].concat();
            path.len() - without_moves_to_the_start(&path).len()
        };
        assert_eq!(lost(&[MoveTo(a), LineTo(b)]), 1);
        assert_eq!(lost(&[Close, MoveTo(a), LineTo(b), Close]), 1);
        let twice = [MoveTo(a), LineTo(b), Close, MoveTo(a), LineTo(a)];
        assert_eq!(lost(&twice), 2);
        // To another point, with nothing drawn behind it, behind no Close.
        assert_eq!(lost(&[MoveTo(b), LineTo(a)]), 0);
        assert_eq!(lost(&[MoveTo(a)]), 0);
        assert_eq!(lost(&[MoveTo(a), Close]), 0);
        assert_eq!(lost(&[MoveTo(a), MoveTo(a), LineTo(b)]), 0);
    }
}
