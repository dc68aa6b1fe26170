//! Paths of every character: small ones exhaustively, others drawn from the dice around a label of a
//! given size, text, bars, rows filled in a given order, and lists damaged in one place.

mod bars;
mod cancelling;
mod damaged;
mod filled;
mod hatched;
mod large;
mod lost;
mod outlines;
mod small;
mod text;

pub use bars::{even_bars, leaning_bar, rulings, steep_bar};
pub use damaged::damaged;
pub use filled::{full_rows, Figure};
pub use hatched::{hatchings, HATCHED};
pub use large::{large_curves, thin_bar};
pub use lost::without_moves_to_the_start;
pub use outlines::{letters_within, outlines};
pub use small::{Shape, Small, SMALL};
pub use text::{address, glyph, ADDRESS};

use crate::numbers::Dice;
use crate::oracle::{Command, Point};
use crate::reading::REACH;

/// What a path is made to try.
#[derive(Clone, Copy, Debug, PartialEq)]
pub enum Character {
    /// Points on the label's sides and a hair beside them.
    Edges,
    /// Points on the corners of pixels.
    Corners,
    /// Lines of slope one, two and a half, through corners and beside them.
    Diagonals,
    /// Points as far out as the point rule lets them be.
    Limits,
    /// Every point left of the label, or all but one; the same on the other sides.
    Left,
    Right,
    Above,
    Below,
    /// Curves whose points fall together or lie in one line.
    DegenerateCurves,
    /// Curves over the whole range of the point rule.
    HugeCurves,
    /// What may stand behind a Close: another Close, a MoveTo, the end.
    BehindClose,
    /// Several subpaths, open, closed and of one point.
    Subpaths,
    /// Figures drawn there and back, or twice, so that sums cancel.
    Cancelling,
    /// Any commands on a grid of any fineness.
    Anything,
}

impl Character {
    pub const ALL: [Character; 14] = [
        Character::Edges,
        Character::Corners,
        Character::Diagonals,
        Character::Limits,
        Character::Left,
        Character::Right,
        Character::Above,
        Character::Below,
        Character::DegenerateCurves,
        Character::HugeCurves,
        Character::BehindClose,
        Character::Subpaths,
        Character::Cancelling,
        Character::Anything,
    ];

    pub fn name(self) -> &'static str {
        match self {
            Character::Edges => "edges",
            Character::Corners => "corners",
            Character::Diagonals => "diagonals",
            Character::Limits => "limits",
            Character::Left => "left of the label",
            Character::Right => "right of the label",
            Character::Above => "above the label",
            Character::Below => "below the label",
            Character::DegenerateCurves => "degenerate curves",
            Character::HugeCurves => "huge curves",
            Character::BehindClose => "what may follow a Close",
            Character::Subpaths => "subpaths",
            Character::Cancelling => "figures that cancel",
            Character::Anything => "anything",
        }
    }

    /// A path that starts with a MoveTo and draws nothing directly behind a Close, for a label of
    /// this size. Every point passes the point rule where no transform and no offset move it.
    pub fn path(self, width: usize, height: usize, dice: &mut Dice) -> Vec<Command> {
        let field = Field {
            width: width as i64,
            height: height as i64,
            fineness: dice.pick(&[1, 2, 4, 16, 256, 1000, 4096]),
        };
        match self {
            Character::Diagonals => diagonals(&field, dice),
            Character::DegenerateCurves => degenerate(&field, dice),
            Character::BehindClose => behind_close(&field, dice),
            Character::Subpaths => subpaths(&field, dice),
            Character::Cancelling => cancelling::cancelling(&field, dice),
            _ => {
                let curves = if self == Character::HugeCurves { 3 } else { 1 };
                let mut path = open_figure(curves, dice, |dice| field.point(self, dice));
                if dice.one_in(2) {
                    path.push(Command::Close);
                }
                path
            }
        }
    }
}

/// The label that points are drawn around, and into how many parts a pixel's side is cut.
struct Field {
    width: i64,
    height: i64,
    fineness: i64,
}

/// Steps beside an edge: none, less than a fixed number holds, one fixed step, half a pixel.
const HAIRS: [f32; 7] = [
    0.0,
    0.0,
    1.0 / 256.0,
    -1.0 / 256.0,
    1.0 / 512.0,
    -1.0 / 512.0,
    0.5,
];

/// The largest number that passes the point rule, and others near it.
const LIMITS: [f32; 5] = [4096.0, 4096.0034, 4095.9961, 4095.0, 2048.0];

impl Field {
    fn point(&self, character: Character, dice: &mut Dice) -> Point {
        let inside = Point::new(self.near(self.width, dice), self.near(self.height, dice));
        match character {
            Character::Edges => Point::new(edge(self.width, dice), edge(self.height, dice)),
            Character::Corners => {
                let mut whole = |side: i64| dice.between(-2, (side + 2).min(REACH)) as f32;
                Point::new(whole(self.width), whole(self.height))
            }
            Character::Limits => limit(inside, dice),
            Character::HugeCurves => Point::new(huge(dice), huge(dice)),
            _ if dice.one_in(12) => inside,
            Character::Left => Point::new(-self.beyond(dice), inside.y),
            Character::Right => Point::new(self.width as f32 + self.beyond(dice), inside.y),
            Character::Above => Point::new(inside.x, -self.beyond(dice)),
            Character::Below => Point::new(inside.x, self.height as f32 + self.beyond(dice)),
            _ => inside,
        }
    }

    /// A coordinate on the grid, inside a side of the label or a little outside it.
    fn near(&self, side: i64, dice: &mut Dice) -> f32 {
        let margin = 1 + side / 4;
        let low = (-margin).max(-REACH) * self.fineness;
        let high = (side + margin).min(REACH) * self.fineness;
        dice.between(low, high) as f32 / self.fineness as f32
    }

    /// How far outside a side; never so far that the point rule refuses it.
    fn beyond(&self, dice: &mut Dice) -> f32 {
        let most = REACH - self.width.max(self.height).min(REACH);
        let steps = dice.between(0, 40.min(most) * self.fineness);
        steps as f32 / self.fineness as f32
    }
}

fn edge(side: i64, dice: &mut Dice) -> f32 {
    let whole = dice.pick(&[-1, 0, 0, 1, side - 1, side, side, side + 1]);
    whole.clamp(1 - REACH, REACH - 1) as f32 + dice.pick(&HAIRS)
}

/// One part or both as far out as may be.
fn limit(inside: Point, dice: &mut Dice) -> Point {
    let far = dice.pick(&LIMITS);
    let mut part = |inside: f32| match dice.below(3) {
        0 => inside,
        1 => far,
        _ => -far,
    };
    Point::new(part(inside.x), part(inside.y))
}

fn huge(dice: &mut Dice) -> f32 {
    match dice.below(4) {
        0 => dice.pick(&[4096.0, -4096.0, 4095.9961, -4095.9961]),
        1 => dice.between(-REACH, REACH) as f32,
        _ => dice.between(-256 * REACH, 256 * REACH) as f32 / 256.0,
    }
}

/// A MoveTo and one to seven commands that draw; of six, `curves` are quads and as many cubics,
/// or fewer.
fn open_figure(
    curves: usize,
    dice: &mut Dice,
    mut point: impl FnMut(&mut Dice) -> Point,
) -> Vec<Command> {
    let mut path = vec![Command::MoveTo(point(dice))];
    for _ in 0..=dice.below(7) {
        let way = dice.below(6);
        path.push(if way < curves {
            Command::QuadTo(point(dice), point(dice))
        } else if way < 2 * curves {
            Command::CurveTo(point(dice), point(dice), point(dice))
        } else {
            Command::LineTo(point(dice))
        });
    }
    path
}

fn diagonals(field: &Field, dice: &mut Dice) -> Vec<Command> {
    let mut at = field.point(Character::Anything, dice);
    let mut path = vec![Command::MoveTo(at)];
    for _ in 0..=dice.below(6) {
        let long = field.width.max(field.height).clamp(1, 1000) * field.fineness;
        let step = dice.between(-long, long) as f32 / field.fineness as f32;
        let (across, along) = dice.pick(&[
            (1.0, 1.0),
            (1.0, -1.0),
            (0.5, 1.0),
            (1.0, -0.5),
            (1.0, 0.0),
            (0.0, 1.0),
        ]);
        let kept = |v: f32| v.clamp(-REACH as f32, REACH as f32);
        at = Point::new(kept(at.x + step * across), kept(at.y + step * along));
        path.push(Command::LineTo(at));
    }
    path
}

/// Curves over one to three points: cusps, loops that close at once, lines, single points.
fn degenerate(field: &Field, dice: &mut Dice) -> Vec<Command> {
    let character = dice.pick(&[Character::Anything, Character::Corners, Character::Limits]);
    let mut few: Vec<Point> = (0..=dice.below(3))
        .map(|_| field.point(character, dice))
        .collect();
    if dice.one_in(2) {
        let (a, b) = (few[0], few[few.len() - 1]);
        few.push(Point::new((a.x + b.x) / 2.0, (a.y + b.y) / 2.0));
    }
    open_figure(3, dice, |dice| dice.pick(&few))
}

/// Several figures one behind the other.
fn subpaths(field: &Field, dice: &mut Dice) -> Vec<Command> {
    let mut path = Vec::new();
    for _ in 0..2 + dice.below(4) {
        path.extend(figure_or_point(field, dice));
        path.extend(vec![Command::Close; dice.pick(&[0, 1, 1, 2])]);
    }
    path
}

/// Several figures, most of them closed, some again and again. Half of them start where the one
/// before started, which is where its Close left the pen.
fn behind_close(field: &Field, dice: &mut Dice) -> Vec<Command> {
    let mut path = Vec::new();
    let mut start = Command::MoveTo(field.point(Character::Anything, dice));
    for _ in 0..2 + dice.below(4) {
        let mut figure = figure_or_point(field, dice);
        if dice.one_in(2) {
            figure[0] = start;
        }
        start = figure[0];
        path.extend(figure);
        path.extend(vec![Command::Close; dice.pick(&[0, 1, 1, 2, 3])]);
    }
    path
}

/// A figure, or once in six times its MoveTo alone.
fn figure_or_point(field: &Field, dice: &mut Dice) -> Vec<Command> {
    let mut figure = open_figure(1, dice, |dice| field.point(Character::Anything, dice));
    if dice.one_in(6) {
        figure.truncate(1);
    }
    figure
}

#[cfg(test)]
mod tests {
    use super::*;
    use crate::list;
    use crate::oracle::Transform;
    use crate::reading;
    use std::collections::HashSet;

    const SIZES: [(usize, usize); 7] = [
        (0, 0),
        (1, 1),
        (4, 3),
        (17, 1),
        (1, 64),
        (4096, 4),
        (3, 4096),
    ];

    /// Every path of every character is a list that the rules accept, and reading it gives it back.
    #[test]
    fn paths_are_accepted_lists() {
        let mut dice = Dice::new(3);
        for character in Character::ALL {
            for round in 0..3000 {
                let (width, height) = SIZES[round % SIZES.len()];
                let path = character.path(width, height, &mut dice);
                let bytes = list::written(&path);
                let read = reading::judge_bounds(&bytes, &Transform::IDENTITY);
                assert_eq!(read.as_ref(), Ok(&path), "{character:?}");
            }
        }
    }

    /// Each character shows what it is there for.
    #[test]
    fn characters_are_what_they_say() {
        let mut dice = Dice::new(4);
        let mut some = |character: Character, shows: &dyn Fn(&[Command]) -> bool| {
            let mut paths = (0..500).map(|_| character.path(8, 8, &mut dice));
            assert!(paths.any(|path| shows(&path)), "{character:?}");
        };
        let points = |path: &[Command]| -> Vec<Point> {
            path.iter().flat_map(|c| list::parts(c).1).collect()
        };
        some(Character::Left, &|p| points(p).iter().all(|p| p.x < 0.0));
        some(Character::Right, &|p| points(p).iter().all(|p| p.x >= 8.0));
        some(Character::Above, &|p| points(p).iter().all(|p| p.y < 0.0));
        some(Character::Below, &|p| points(p).iter().all(|p| p.y >= 8.0));
        some(Character::Limits, &|p| {
            points(p).iter().any(|p| p.x > REACH as f32)
        });
        some(Character::Corners, &|p| {
            points(p).iter().all(|p| p.x.fract() == 0.0)
        });
        some(Character::HugeCurves, &|p| {
            p.iter().any(|c| matches!(c, Command::CurveTo(..)))
        });
        some(Character::DegenerateCurves, &|p| {
            p.iter()
                .any(|c| matches!(c, Command::CurveTo(a, b, c) if a == b && b == c))
        });
        some(Character::Subpaths, &|p| {
            p.windows(2)
                .any(|two| matches!(two, [Command::MoveTo(_), Command::MoveTo(_)]))
        });
    }

    /// Behind a Close stand a second and a third, MoveTos to the closed subpath's start and
    /// elsewhere, each with everything that may follow it, and the end.
    #[test]
    fn all_that_may_stands_behind_a_close() {
        let mut dice = Dice::new(42);
        let mut moves = HashSet::new();
        let mut lasts = HashSet::new();
        for _ in 0..2000 {
            let path = Character::BehindClose.path(8, 8, &mut dice);
            let kinds: Vec<u16> = path.iter().map(|c| list::parts(c).0).collect();
            let mut start = path[0];
            for at in (1..path.len()).filter(|&at| kinds[at] == 1) {
                if kinds[at - 1] == 5 {
                    moves.insert((path[at] == start, kinds.get(at + 1).copied()));
                }
                start = path[at];
            }
            lasts.extend(kinds.windows(3).last().map(<[u16]>::to_vec));
        }
        for behind in [None, Some(1), Some(2), Some(3), Some(4), Some(5)] {
            for to_start in [false, true] {
                assert!(moves.contains(&(to_start, behind)), "{to_start} {behind:?}");
            }
        }
        assert!(lasts.contains(&vec![5, 5, 5]));
    }
}
