//! An address in plain letters, as labels carry: outlines of lines and quads, holes turned the other
//! way.

use crate::numbers::Dice;
use crate::oracle::{Command, Point, Transform};

/// Width and height of the label that an address fits.
pub const ADDRESS: (usize, usize) = (400, 120);

/// Capitals 20 units high, y down: M, L and Q with their points, Z closes.
const LETTERS: [&str; 16] = [
    "M0 20 L7 0 L10 0 L17 20 L14 20 L12 14 L5 14 L3 20 Z M6 11 L11 11 L8 3 Z",
    "M0 0 L8 0 Q14 0 14 5 Q14 9 10 10 Q15 11 15 15 Q15 20 8 20 L0 20 Z \
     M3 3 L3 8 L8 8 Q11 8 11 5 Q11 3 8 3 Z M3 11 L3 17 L8 17 Q12 17 12 14 Q12 11 8 11 Z",
    "M15 5 L12 6 Q11 3 8 3 Q3 3 3 10 Q3 17 8 17 Q11 17 12 14 L15 15 Q13 20 8 20 \
     Q0 20 0 10 Q0 0 8 0 Q13 0 15 5 Z",
    "M0 0 L7 0 Q15 0 15 10 Q15 20 7 20 L0 20 Z M3 3 L3 17 L7 17 Q12 17 12 10 Q12 3 7 3 Z",
    "M0 0 L13 0 L13 3 L3 3 L3 8 L11 8 L11 11 L3 11 L3 17 L13 17 L13 20 L0 20 Z",
    "M0 0 L3 0 L3 8 L12 8 L12 0 L15 0 L15 20 L12 20 L12 11 L3 11 L3 20 L0 20 Z",
    "M0 0 L3 0 L3 20 L0 20 Z",
    "M0 0 L3 0 L3 17 L12 17 L12 20 L0 20 Z",
    "M0 0 L3 0 L12 15 L12 0 L15 0 L15 20 L12 20 L3 5 L3 20 L0 20 Z",
    "M8 0 Q16 0 16 10 Q16 20 8 20 Q0 20 0 10 Q0 0 8 0 Z M8 3 Q3 3 3 10 Q3 17 8 17 Q13 17 13 10 \
     Q13 3 8 3 Z",
    "M0 0 L8 0 Q14 0 14 6 Q14 11 9 12 L14 20 L11 20 L6 12 L3 12 L3 20 L0 20 Z \
     M3 3 L3 9 L8 9 Q11 9 11 6 Q11 3 8 3 Z",
    "M14 4 L12 6 Q10 3 7 3 Q4 3 4 5 Q4 8 8 9 Q15 11 15 15 Q15 20 8 20 Q2 20 0 16 L3 14 \
     Q4 17 8 17 Q12 17 12 15 Q12 13 7 12 Q1 10 1 5 Q1 0 7 0 Q12 0 14 4 Z",
    "M0 0 L16 0 L16 3 L10 3 L10 20 L7 20 L7 3 L0 3 Z",
    "M0 0 L3 0 L3 13 Q3 17 8 17 Q12 17 12 13 L12 0 L15 0 L15 13 Q15 20 8 20 Q0 20 0 13 Z",
    "M1 5 Q1 0 7 0 Q13 0 13 5 Q13 9 4 17 L13 17 L13 20 L0 20 L0 17 Q10 8 10 5 Q10 3 7 3 \
     Q4 3 4 6 Z",
    "M0 0 L4 0 L8 9 L12 0 L16 0 L9 13 L9 20 L7 20 L7 13 Z",
];

/// Four lines of words, a letter every 18 pixels, each letter a little off the pixels' grid.
pub fn address(dice: &mut Dice) -> Vec<Command> {
    let mut path = Vec::new();
    for line in 0..4 {
        let y = 6.0 + 28.0 * line as f32 + hair(dice);
        let mut x = 4.0 + hair(dice);
        while x < 370.0 {
            if !dice.one_in(6) {
                letter(dice.pick(&LETTERS), x, y, &mut path);
            }
            x += 18.0 + hair(dice);
        }
    }
    path
}

/// One letter in the upper left corner, so high.
pub fn glyph(height: f32, dice: &mut Dice) -> Vec<Command> {
    let mut path = Vec::new();
    letter(dice.pick(&LETTERS), 0.0, 0.0, &mut path);
    let scale = Transform::scale(height / 20.0, height / 20.0);
    path.iter()
        .map(|command| command.transform(&scale))
        .collect()
}

/// Less than a pixel.
pub(super) fn hair(dice: &mut Dice) -> f32 {
    dice.below(64) as f32 / 64.0
}

fn letter(outline: &str, x: f32, y: f32, path: &mut Vec<Command>) {
    let mut words = outline.split_whitespace();
    while let Some(word) = words.next() {
        let (verb, first) = word.split_at(1);
        let number = |word: &str| word.parse::<f32>().expect("a letter's numbers are whole");
        let point_from =
            |first: &str, second: &str| Point::new(x + number(first), y + number(second));
        let mut next = || words.next().expect("a letter's points are whole");
        path.push(match verb {
            "M" => Command::MoveTo(point_from(first, next())),
            "L" => Command::LineTo(point_from(first, next())),
            "Q" => {
                let control = point_from(first, next());
                Command::QuadTo(control, point_from(next(), next()))
            }
            _ => Command::Close,
        });
    }
}

#[cfg(test)]
mod tests {
    use super::*;
    use crate::drawing::Drawing;
    use crate::driver;

    /// An address is a list that is drawn, with ink and holes.
    #[test]
    fn addresses_are_drawn() {
        let mut dice = Dice::new(19);
        for _ in 0..20 {
            let path = address(&mut dice);
            let outcome = driver::outcome(&Drawing::plain(&path, ADDRESS.0, ADDRESS.1));
            assert_eq!(outcome.number, 0);
            let full = outcome.mask.iter().filter(|&&byte| byte == 255).count();
            assert!((4_000..12_000).contains(&full), "{full}");
        }
    }
}
