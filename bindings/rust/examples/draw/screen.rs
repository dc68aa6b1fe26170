//! A picture in the terminal: a column is a pixel wide, a row of characters two pixels high.

use std::env;
use std::io::{stdout, IsTerminal};

/// How wide a picture is where COLUMNS does not say.
const USUAL_COLUMNS: usize = 80;

/// A pixel is seen from this cover on: a third, since the strokes of a picture made small are thin.
const SEEN: u8 = 85;

/// The 256-colour palette has greys from 232, nearly black, to 255, nearly white.
const DARKEST: u16 = 232;
const STEPS: u16 = 23;

const UPPER: char = '▀';

pub struct Screen {
    pub columns: usize,
    /// Whether it shows the palette's greys; else a pixel is there or not.
    pub greys: bool,
}

impl Screen {
    /// What the environment says of standard output.
    pub fn of_environment() -> Screen {
        let columns = env::var("COLUMNS").ok().and_then(|word| word.parse().ok());
        let dumb = env::var("TERM").map_or(true, |name| name == "dumb");
        let plain = env::var_os("NO_COLOR").is_some_and(|word| !word.is_empty());
        Screen {
            columns: columns.filter(|&n| n > 0).unwrap_or(USUAL_COLUMNS),
            greys: stdout().is_terminal() && !dumb && !plain,
        }
    }

    /// The lines that show a picture of rows of `width` covers. Ink is dark on a light ground.
    pub fn lines(&self, covers: &[u8], width: usize, ink: bool) -> String {
        let line = if self.greys { grey_line } else { plain_line };
        let mut covers = covers.to_vec();
        // Below an odd number of rows the ground shows.
        covers.resize(covers.len().next_multiple_of(2 * width), 0);
        let pairs = covers.chunks(2 * width).map(|two| two.split_at(width));
        pairs.map(|(up, low)| line(up, low, ink)).collect()
    }
}

fn plain_line(upper: &[u8], lower: &[u8], ink: bool) -> String {
    let lit = |cover: u8| (cover >= SEEN) != ink;
    let pairs = upper.iter().zip(lower);
    let blocks = pairs.map(|(&up, &low)| match (lit(up), lit(low)) {
        (false, false) => ' ',
        (true, false) => UPPER,
        (false, true) => '▄',
        (true, true) => '█',
    });
    blocks.chain(['\n']).collect()
}

/// Upper half blocks, in the colour of the upper pixel on that of the lower one.
fn grey_line(upper: &[u8], lower: &[u8], ink: bool) -> String {
    let mut line = String::new();
    let mut before = None;
    for (&up, &low) in upper.iter().zip(lower) {
        let colours = (grey(up, ink), grey(low, ink));
        if before != Some(colours) {
            let (front, back) = colours;
            line += &format!("\x1b[38;5;{front};48;5;{back}m");
            before = Some(colours);
        }
        line.push(UPPER);
    }
    line + "\x1b[0m\n"
}

/// The palette's number for a cover.
fn grey(cover: u8, ink: bool) -> u16 {
    let light = if ink { 255 - cover } else { cover };
    DARKEST + (u16::from(light) * STEPS + 127) / 255
}

#[cfg(test)]
mod tests {
    use super::*;

    fn screen(greys: bool) -> Screen {
        let columns = 4;
        Screen { columns, greys }
    }

    #[test]
    fn a_pair_of_rows_is_a_line_of_half_blocks() {
        let covers = [
            [0, 255, 0, 255],
            [0, 0, 255, 255],
            [85, 84, 84, 85],
            [84, 84, 85, 85],
        ]
        .concat();
        assert_eq!(screen(false).lines(&covers, 4, false), " ▀▄█\n▀ ▄█\n");
        assert_eq!(screen(false).lines(&covers, 4, true), "█▄▀ \n▄█▀ \n");
    }

    #[test]
    fn below_an_odd_number_of_rows_the_ground_shows() {
        let covers = [255, 0, 0, 255, 255, 0];
        assert_eq!(screen(false).lines(&covers, 2, false), "▀▄\n▀ \n");
        assert_eq!(screen(false).lines(&covers, 2, true), "▄▀\n▄█\n");
    }

    #[test]
    fn greys_change_where_the_pixels_do() {
        let covers = [0, 0, 128, 255, 255, 0];
        let light = "\x1b[38;5;232;48;5;255m▀▀\x1b[38;5;244;48;5;232m▀\x1b[0m\n";
        let ink = "\x1b[38;5;255;48;5;232m▀▀\x1b[38;5;243;48;5;255m▀\x1b[0m\n";
        assert_eq!(screen(true).lines(&covers, 3, false), light);
        assert_eq!(screen(true).lines(&covers, 3, true), ink);
    }
}
