//! Paths over a large square label.

use crate::numbers::Dice;
use crate::oracle::{Command, Point};

/// A figure of quads and cubics with a hole of the same make, its radius between these two.
pub fn large_curves(side: usize, radii: (i64, i64), dice: &mut Dice) -> Vec<Command> {
    let radius = dice.between(radii.0, radii.1) as f32;
    let mut path = round_figure(side, radius, dice);
    path.extend(round_figure(side, radius / 2.0, dice));
    path
}

/// Around the label's middle: two quarters of quads, two of cubics.
fn round_figure(side: usize, radius: f32, dice: &mut Dice) -> Vec<Command> {
    let middle = side as f32 / 2.0;
    let mut near = |x: f32, y: f32| {
        let mut shaken = |v: f32| middle + v * radius + dice.between(-99, 99) as f32 / 4.0;
        Point::new(shaken(x), shaken(y))
    };
    let start = near(1.0, 0.0);
    vec![
        Command::MoveTo(start),
        Command::QuadTo(near(1.0, 0.4), near(0.7, 0.7)),
        Command::QuadTo(near(0.4, 1.0), near(0.0, 1.0)),
        Command::CurveTo(near(-0.55, 1.0), near(-1.0, 0.55), near(-1.0, 0.0)),
        Command::QuadTo(near(-1.0, -0.4), near(-0.7, -0.7)),
        Command::QuadTo(near(-0.4, -1.0), near(0.0, -1.0)),
        Command::CurveTo(near(0.55, -1.0), near(1.0, -0.55), start),
        Command::Close,
    ]
}

/// A bar across the whole label, thinner than a pixel, at any angle.
pub fn thin_bar(side: usize, dice: &mut Dice) -> Vec<Command> {
    let mut along = || dice.between(0, side as i64 * 64) as f32 / 64.0;
    let (from, to) = (along(), along());
    let side = side as f32;
    let thick = dice.between(8, 48) as f32 / 64.0;
    let corners = [
        (0.0, from),
        (side, to),
        (side, to + thick),
        (0.0, from + thick),
    ];
    let turned = dice.one_in(2);
    let point = |&(x, y): &(f32, f32)| {
        let y = y.min(side);
        if turned {
            Point::new(y, x)
        } else {
            Point::new(x, y)
        }
    };
    let mut path = vec![Command::MoveTo(point(&corners[0]))];
    path.extend(corners[1..].iter().map(|c| Command::LineTo(point(c))));
    path.push(Command::Close);
    path
}

#[cfg(test)]
mod tests {
    use super::*;
    use crate::drawing::Drawing;
    use crate::driver;

    #[test]
    fn large_paths_fit_the_pool() {
        let mut dice = Dice::new(20);
        for (side, radii) in [(2048, (700, 900)), (2048, (700, 900)), (4096, (1200, 1300))] {
            for path in [
                large_curves(side, radii, &mut dice),
                thin_bar(side, &mut dice),
            ] {
                let outcome = driver::outcome(&Drawing::plain(&path, side, side));
                assert_eq!(outcome.number, 0);
                assert!(outcome.cells > 1000, "{}", outcome.cells);
            }
        }
    }
}
