//! An address in real outlines: the letters of examples/label.mzp, cut out of it and set anew.

use super::text::hair;
use crate::list;
use crate::numbers::Dice;
use crate::oracle::{self, Bounds, Command, Transform};
use crate::reading;

/// What examples/make_label.py wrote: a frame, then four lines in Open Sans.
const LABEL: &[u8] = include_bytes!("../../../examples/label.mzp");

/// Size and baseline of each of its lines in pixels, as make_label.py has them.
const LINES: [(f32, f32); 4] = [(40.0, 65.0), (36.0, 111.0), (36.0, 157.0), (36.0, 203.0)];

/// In parts of a letter's size: how high a capital is, how far a line is below the one before, the
/// gap between two letters and the gap between two words.
const CAPITAL: f32 = 0.714;
const LEADING: f32 = 1.1;
const GAP: f32 = 0.08;
const WORD_GAP: f32 = 0.26;

/// What stays free on every side of a label, in pixels.
const MARGIN: f32 = 4.0;

/// The lowest and the highest capitals, in pixels.
const HEIGHTS: (f32, f32) = (8.0, 40.0);

/// An address has no more lines, and a line no more letters: their list would grow too long.
const MOST_LINES: usize = 6;
const MOST_LETTERS: usize = 28;

/// A letter of size 1 whose box starts at x 0, on a baseline at y 0.
struct Glyph {
    path: Vec<Command>,
    width: f32,
}

impl Glyph {
    /// A letter where the label has it. Its line is the first whose baseline is below its top.
    fn new(figure: &[Command]) -> Glyph {
        let bounds = box_of(figure);
        let is_below = |line: &&(f32, f32)| bounds.min.y < line.1;
        let line = LINES.iter().find(is_below);
        let &(size, baseline) = line.expect("a letter reaches above its baseline");
        let to_zero = Transform::translation(-bounds.min.x, -baseline);
        let path = moved(figure, &to_zero.then_scale(1.0 / size, 1.0 / size));
        let width = box_of(&path).width();
        Glyph { path, width }
    }

    /// The letter in this size, from this x on.
    fn set(&self, size: f32, x: f32, baseline: f32) -> Vec<Command> {
        let place = Transform::scale(size, size).then_translate(x, baseline);
        moved(&self.path, &place)
    }
}

fn moved(path: &[Command], transform: &Transform) -> Vec<Command> {
    let moved = |command: &Command| command.transform(transform);
    path.iter().map(moved).collect()
}

fn box_of(path: &[Command]) -> Bounds {
    oracle::bounds(path, Transform::IDENTITY)
}

/// The label's letters, where it has them and in its order. A subpath that stands above, below or
/// inside the one before it belongs to the same letter: a counter, the dot of an i.
fn figures() -> Vec<Vec<Command>> {
    let label = reading::judge_bounds(LABEL, &Transform::IDENTITY);
    let label = label.expect("the example is a list that is accepted");
    let subpaths = label.chunk_by(|_, next| !matches!(next, Command::MoveTo(_)));
    let mut figures: Vec<Vec<Command>> = Vec::new();
    for subpath in subpaths.filter(|subpath| !is_frame(subpath)) {
        match figures.last_mut() {
            Some(figure) if share_columns(figure, subpath) => figure.extend(subpath),
            _ => figures.push(subpath.to_vec()),
        }
    }
    figures
}

/// The frame alone has cubics, in its corners: letters are of lines and quads.
fn is_frame(subpath: &[Command]) -> bool {
    let is_cubic = |command: &Command| matches!(command, Command::CurveTo(..));
    subpath.iter().any(is_cubic)
}

fn share_columns(a: &[Command], b: &[Command]) -> bool {
    let (a, b) = (box_of(a), box_of(b));
    a.min.x < b.max.x && b.min.x < a.max.x
}

fn glyphs() -> Vec<Glyph> {
    let figures = figures();
    figures.iter().map(|figure| Glyph::new(figure)).collect()
}

/// An address on a label of this size, each of its lines in letters of a size of its own.
pub fn outlines((width, height): (usize, usize), dice: &mut Dice) -> Vec<Command> {
    let glyphs = glyphs();
    let mut path = Vec::new();
    for (capital, baseline) in lines(height, dice) {
        path.extend(line(&glyphs, capital / CAPITAL, baseline, width, dice).concat());
    }
    path
}

/// The lines of an address down a label so high: how high a capital is, and where the baseline.
fn lines(height: usize, dice: &mut Dice) -> Vec<(f32, f32)> {
    let mut lines = Vec::new();
    let mut top = MARGIN;
    for _ in 0..MOST_LINES {
        let room = (height as f32 - MARGIN - top) / LEADING * CAPITAL;
        if room < HEIGHTS.0 {
            break;
        }
        let capital = dice.between(HEIGHTS.0 as i64, room.min(HEIGHTS.1) as i64) as f32;
        lines.push((capital, top + capital + hair(dice)));
        top += capital / CAPITAL * LEADING;
    }
    lines
}

/// The letters of one line, as many as a list of so many bytes holds, on a label as wide as that of
/// an address.
pub fn letters_within(bytes: usize, dice: &mut Dice) -> Vec<Command> {
    let mut path = Vec::new();
    for letter in line(&glyphs(), 28.0, 60.0, super::ADDRESS.0, dice) {
        if list::written(&path).len() + list::written(&letter).len() > bytes {
            break;
        }
        path.extend(letter);
    }
    path
}

/// Words of any letters, one behind the other up to the right margin, each letter a little off the
/// pixels' grid.
fn line(
    glyphs: &[Glyph],
    size: f32,
    baseline: f32,
    width: usize,
    dice: &mut Dice,
) -> Vec<Vec<Command>> {
    let mut letters = Vec::new();
    let mut x = MARGIN;
    while letters.len() < MOST_LETTERS {
        let glyph = &glyphs[dice.below(glyphs.len())];
        let left = x + hair(dice);
        let right = left + size * glyph.width;
        if right > width as f32 - MARGIN {
            break;
        }
        letters.push(glyph.set(size, left, baseline));
        x = right + size * if dice.one_in(6) { WORD_GAP } else { GAP };
    }
    letters
}

#[cfg(test)]
mod tests {
    use super::*;
    use crate::drawing::Drawing;
    use crate::driver;
    use crate::paths::ADDRESS;
    use std::collections::HashSet;

    /// The text of make_label.py, line by line, without its blanks.
    const TEXT: [&str; 4] = [
        "OttolineGrasmere",
        "Marsh&KestrelBooks",
        "27bZephyrLane",
        "MZ74QXMossford",
    ];

    /// How many subpaths the outline of a letter of the text has.
    fn subpaths_of(letter: char) -> usize {
        match letter {
            'B' | '&' => 3,
            'a' | 'b' | 'd' | 'e' | 'i' | 'o' | 'p' | 'O' | 'Q' | '4' => 2,
            _ => 1,
        }
    }

    /// As many letters as the text has, each with the counters and dots that it should have.
    #[test]
    fn the_label_is_cut_into_its_letters() {
        let is_move = |command: &&Command| matches!(command, Command::MoveTo(_));
        let found = figures();
        let found: Vec<usize> = found
            .iter()
            .map(|figure| figure.iter().filter(is_move).count())
            .collect();
        let expected: Vec<usize> = TEXT.concat().chars().map(subpaths_of).collect();
        assert_eq!(expected.len(), 61);
        assert_eq!(found, expected);
    }

    /// Boxes start at x 0 and lie between the lowest descender and the highest stem; an M stands on
    /// its baseline and is as high as a capital, and the same in both of its lines.
    #[test]
    fn letters_are_of_size_one() {
        let glyphs = glyphs();
        for glyph in &glyphs {
            let bounds = box_of(&glyph.path);
            assert_eq!((bounds.min.x, bounds.max.x), (0.0, glyph.width));
            assert!((0.05..0.9).contains(&glyph.width), "{bounds:?}");
            assert!(-0.79 < bounds.min.y && bounds.max.y < 0.25, "{bounds:?}");
        }
        let at_m = |line: usize| TEXT[..line].concat().len();
        for letter in [&glyphs[at_m(1)], &glyphs[at_m(3)]] {
            let bounds = box_of(&letter.path);
            assert!((bounds.min.y + CAPITAL).abs() < 0.001, "{bounds:?}");
            assert!(bounds.max.y.abs() < 0.001, "{bounds:?}");
        }
    }

    /// Addresses are drawn, with room in the list and in the pool, within the label's margins.
    #[test]
    fn outlines_are_drawn() {
        let mut dice = Dice::new(43);
        for size in [ADDRESS, (256, 120)] {
            for _ in 0..50 {
                let path = outlines(size, &mut dice);
                let outcome = driver::outcome(&Drawing::plain(&path, size.0, size.1));
                assert_eq!(outcome.number, 0);
                assert!(outcome.cells > 500, "{}", outcome.cells);
                let bounds = box_of(&path);
                assert!(bounds.min.x >= MARGIN && bounds.max.x <= size.0 as f32 - MARGIN);
                assert!(bounds.min.y > 0.0 && bounds.max.y < size.1 as f32);
            }
        }
    }

    /// Capitals are of every height from 8 to 40 pixels, and lines stand clear of each other.
    #[test]
    fn lines_are_of_every_height() {
        let mut dice = Dice::new(44);
        let mut heights = HashSet::new();
        for _ in 0..400 {
            let lines = lines(ADDRESS.1, &mut dice);
            assert!((2..=MOST_LINES).contains(&lines.len()));
            heights.extend(lines.iter().map(|line| line.0 as usize));
            for two in lines.windows(2) {
                let top_of_next = two[1].1 - two[1].0;
                assert!(two[0].1 + two[0].0 / 4.0 < top_of_next, "{two:?}");
            }
        }
        assert_eq!(heights, (8..=40).collect());
    }

    #[test]
    fn letters_keep_to_their_bytes() {
        let mut dice = Dice::new(45);
        for most in [1024, 4096].repeat(50) {
            let bytes = list::written(&letters_within(most, &mut dice)).len();
            assert!((most - 600..=most).contains(&bytes), "{bytes}");
        }
    }
}
