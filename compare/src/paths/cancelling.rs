//! Figures drawn twice so that the second takes back what the first gave: places are stored whose
//! cover and area sum to zero, and rows whose covers do.

use super::{open_figure, text, Character, Field};
use crate::list;
use crate::numbers::Dice;
use crate::oracle::{Command, Point, Transform};
use crate::reading::{passes_point_rule, REACH};

/// A figure and its double, and at times a MoveTo behind them, so that the last cell lies elsewhere.
pub fn cancelling(field: &Field, dice: &mut Dice) -> Vec<Command> {
    let mut path = match dice.below(4) {
        0 => closed_figure(field, dice),
        1 => text::glyph(field.height.clamp(1, REACH) as f32, dice),
        _ => rectangle(field, dice),
    };
    let figures = figures_of(&path);
    let shift = shift(dice);
    let back = !dice.one_in(3);
    for figure in figures {
        let double = if back { backwards(&figure) } else { figure };
        path.extend(shifted(&double, shift));
    }
    if dice.one_in(2) {
        path.push(Command::MoveTo(field.point(Character::Anything, dice)));
    }
    path
}

fn closed_figure(field: &Field, dice: &mut Dice) -> Vec<Command> {
    let mut figure = open_figure(1, dice, |dice| field.point(Character::Anything, dice));
    figure.push(Command::Close);
    figure
}

/// On the sides of pixels or beside them.
fn rectangle(field: &Field, dice: &mut Dice) -> Vec<Command> {
    let character = dice.pick(&[Character::Corners, Character::Edges, Character::Anything]);
    let (a, b) = (field.point(character, dice), field.point(character, dice));
    vec![
        Command::MoveTo(a),
        Command::LineTo(Point::new(b.x, a.y)),
        Command::LineTo(b),
        Command::LineTo(Point::new(a.x, b.y)),
        Command::Close,
    ]
}

/// A path cut before each MoveTo.
fn figures_of(path: &[Command]) -> Vec<Vec<Command>> {
    let mut figures: Vec<Vec<Command>> = Vec::new();
    for &command in path {
        match (command, figures.last_mut()) {
            (Command::MoveTo(_), _) | (_, None) => figures.push(vec![command]),
            (_, Some(figure)) => figure.push(command),
        }
    }
    figures
}

/// A figure drawn from its end to its start, and closed.
fn backwards(figure: &[Command]) -> Vec<Command> {
    let parts: Vec<Vec<Point>> = figure.iter().map(|c| list::parts(c).1).collect();
    let mut points = parts.concat().into_iter().rev();
    let mut next = || points.next().expect("as many points as the figure has");
    let mut path = vec![Command::MoveTo(next())];
    for part in parts[1..].iter().rev() {
        path.extend(match part.len() {
            0 => None,
            1 => Some(Command::LineTo(next())),
            2 => Some(Command::QuadTo(next(), next())),
            _ => Some(Command::CurveTo(next(), next(), next())),
        });
    }
    path.push(Command::Close);
    path
}

/// None as often as not; whole pixels along one side, or any part of a pixel.
fn shift(dice: &mut Dice) -> Point {
    let whole = dice.between(-3, 3) as f32;
    match dice.below(8) {
        0 => Point::new(whole, 0.0),
        1 => Point::new(0.0, whole),
        2 => Point::new(dice.pick(&[0.5, -0.25]), 0.0),
        3 => {
            let mut part = || dice.between(-512, 512) as f32 / 256.0;
            Point::new(part(), part())
        }
        _ => Point::ZERO,
    }
}

/// A figure moved, unless a point of it would then fail the point rule.
fn shifted(figure: &[Command], by: Point) -> Vec<Command> {
    let moved: Vec<Command> = figure
        .iter()
        .map(|c| c.transform(&Transform::translation(by.x, by.y)))
        .collect();
    let mut points = moved.iter().flat_map(|c| list::parts(c).1);
    if points.all(passes_point_rule) {
        return moved;
    }
    figure.to_vec()
}

#[cfg(test)]
mod tests {
    use super::*;
    use crate::oracle::{painted_cells, CellAt, Fill, Label};

    fn drawn(path: &[Command], fill: Fill) -> (Vec<u8>, Vec<CellAt>) {
        let label = Label {
            path,
            transform: Transform::IDENTITY,
            offset: Point::ZERO,
            fill,
            up: false,
            width: 8,
            height: 8,
            pitch: 8,
        };
        painted_cells(&label).expect("within reach")
    }

    fn is_zero(cell: &CellAt) -> bool {
        (cell.cover, cell.area) == (0, 0)
    }

    /// Backwards twice is the figure again, its curves too.
    #[test]
    fn backwards_turns_a_figure_round() {
        let at = Point::new;
        let figure = [
            Command::MoveTo(at(1.0, 1.0)),
            Command::LineTo(at(2.0, 1.0)),
            Command::QuadTo(at(3.0, 2.0), at(4.0, 4.0)),
            Command::CurveTo(at(5.0, 5.0), at(6.0, 5.0), at(7.0, 7.0)),
            Command::Close,
        ];
        let back = backwards(&figure);
        assert_eq!(back[0], Command::MoveTo(at(7.0, 7.0)));
        assert_eq!(back[3], Command::LineTo(at(1.0, 1.0)));
        assert_eq!(backwards(&back), figure);
    }

    /// Among the paths are those whose every stored place sums to zero, those with such places
    /// beside others, and those that paint nothing by the even-odd rule alone.
    #[test]
    fn figures_cancel() {
        let mut dice = Dice::new(22);
        let (mut whole, mut some, mut doubled) = (0, 0, 0);
        for _ in 0..2000 {
            let path = Character::Cancelling.path(8, 8, &mut dice);
            let (mask, cells) = drawn(&path, Fill::EvenOdd);
            let zeros = cells.iter().filter(|cell| is_zero(cell)).count();
            let blank = mask.iter().all(|&byte| byte == 0);
            whole += usize::from(zeros > 1 && zeros == cells.len());
            some += usize::from(zeros > 0 && zeros < cells.len());
            let inked = drawn(&path, Fill::NonZero).0.contains(&255);
            doubled += usize::from(blank && inked);
        }
        assert!(
            whole > 400 && some > 200 && doubled > 40,
            "{whole} {some} {doubled}"
        );
    }
}
