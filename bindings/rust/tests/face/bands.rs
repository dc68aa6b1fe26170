//! Bands drawn by themselves are the whole label, cut; drawn one behind the other they are the whole.

use crate::{at, counts, k1, on_grid, rectangle, round_figure, told};
use mosszephyr::{
    bands_words, draw, draw_band, draw_in_bands, mask_bytes, workspace_words, Fill, Label, Origin,
    Path,
};

/// A band's mask and cells, drawn into memory that holds something old.
fn band(path: &Path, label: &Label, first: usize, end: usize) -> (Vec<u8>, usize) {
    let rows = end - first;
    let bytes = mask_bytes(label.width, rows, label.pitch).unwrap();
    let count = workspace_words(rows, (label.width + 1) * rows).unwrap();
    let (mut mask, mut words) = (vec![0xA5; bytes], vec![0x5A5A_5A5A; count]);
    let drawn = draw_band(path, label, first..end, &mut mask, &mut words).unwrap();
    assert!(words.iter().all(|&word| word == 0));
    (mask, drawn.cells)
}

/// The path row that a mask's row shows, counted from the band's first.
fn path_row(origin: Origin, row: usize, rows: usize) -> usize {
    match origin {
        Origin::TopLeft => row,
        Origin::BottomLeft => rows - 1 - row,
    }
}

/// The band's part of a whole label whose origin is at the top left.
fn cut(whole: &[u8], label: &Label, first: usize, end: usize) -> Vec<u8> {
    let rows = end - first;
    let row_of = |row| {
        let at = (first + path_row(label.origin, row, rows)) * label.width;
        &whole[at..at + label.width]
    };
    (0..rows).flat_map(row_of).copied().collect()
}

fn bands_are_the_whole(label: &Label, rows: usize) {
    let path = round_figure();
    let from_top = Label {
        origin: Origin::TopLeft,
        ..*label
    };
    let whole = draw(&path, &from_top).unwrap();
    let mut cells = 0;
    for first in (0..label.height).step_by(rows) {
        let end = label.height.min(first + rows);
        let (mask, count) = band(&path, label, first, end);
        assert_eq!(mask, cut(whole.mask(), label, first, end), "{first}..{end}");
        cells += count;
    }
    assert_eq!(cells, whole.cells());
}

#[test]
fn bands_of_every_height_are_the_whole() {
    for origin in [Origin::TopLeft, Origin::BottomLeft] {
        for fill in [Fill::NonZero, Fill::EvenOdd] {
            for rows in [1, 7, 16, 29, 30] {
                let label = Label {
                    origin,
                    fill,
                    ..Label::new(40, 30)
                };
                bands_are_the_whole(&label, rows);
            }
        }
    }
}

/// The figure paints something, leaves something out, and has soft edges.
#[test]
fn figure_shows_ink_paper_and_edges() {
    let picture = draw(round_figure(), &Label::new(40, 30)).unwrap();
    let mask = picture.mask();
    assert!(mask.contains(&0) && mask.contains(&255));
    assert!(mask.iter().any(|&byte| byte != 0 && byte != 255));
}

/// Row by row, a workspace for one row serves the whole label.
#[test]
fn bands_need_little_room() {
    let label = Label::new(40, 30);
    let whole = draw(round_figure(), &label).unwrap();
    let mut words = vec![0; workspace_words(1, 41).unwrap()];
    let mut mask = vec![0; label.width * label.height];
    for (row, bytes) in mask.chunks_mut(label.width).enumerate() {
        draw_band(round_figure(), &label, row..row + 1, bytes, &mut words).unwrap();
    }
    assert_eq!(mask, whole.mask());
}

/// Drawn at once or in bands of any height, every row is the same, also of a part of the label.
#[test]
fn any_step_draws_what_is_drawn_at_once() {
    for origin in [Origin::TopLeft, Origin::BottomLeft] {
        let label = Label {
            origin,
            pitch: 43,
            ..Label::new(40, 30)
        };
        for (first, end) in [(0, 30), (3, 22), (9, 9)] {
            for step in [0, 1, 2, 7, end - first, 31, usize::MAX] {
                in_bands_as_at_once(&label, first, end, step);
            }
        }
    }
}

fn in_bands_as_at_once(label: &Label, first: usize, end: usize, step: usize) {
    let path = round_figure();
    let (at_once, cells) = band(&path, label, first, end);
    let (mut mask, mut words) = (vec![0xA5; at_once.len()], vec![1; 41 * 30 * 4 + 30]);
    let drawn = draw_in_bands(&path, label, first..end, step, &mut mask, &mut words);
    assert_eq!(drawn, Ok(on_grid(9, cells)), "{first}..{end} by {step}");
    assert_eq!(mask, at_once);
    assert!(words.iter().all(|&word| word == 0));
}

/// K1 on the widest and on the highest label, row by row.
#[test]
fn sizes_at_their_limits_pass() {
    for (width, height) in [(4096, 3), (4, 4096)] {
        let label = Label::new(width, height);
        let count = bands_words(height, 1, 2).unwrap();
        let (mut mask, mut words) = (vec![0xA5; width * height], vec![9; count]);
        let drawn = draw_in_bands(k1(), &label, 0..height, 1, &mut mask, &mut words);
        assert_eq!(drawn, Ok(on_grid(5, 2)));
        assert_eq!(mask, draw(k1(), &label).unwrap().mask());
    }
}

/// Row by row, little more than a word for each row serves the whole label; at once it does not.
#[test]
fn rows_share_a_small_room() {
    let label = Label::new(40, 30);
    let whole = draw(round_figure(), &label).unwrap();
    let (mut mask, mut words) = (vec![7; 1200], vec![9; workspace_words(1, 41).unwrap()]);
    let refused = draw_band(round_figure(), &label, 0..30, &mut mask, &mut words);
    assert_eq!(told(refused.unwrap_err()), at(13, 1, 12));
    assert_eq!(mask, vec![7; 1200]);
    let drawn = draw_in_bands(round_figure(), &label, 0..30, 1, &mut mask, &mut words);
    assert_eq!(drawn, Ok(counts(&whole)));
    assert_eq!(mask, whole.mask());
}

/// One place in each row, two in the last: a pool of one place refuses that band, at the list's end,
/// and the mask shows nothing of those before it.
#[test]
fn a_later_band_without_room_leaves_the_mask() {
    let mut path = rectangle(0.0, 0.0, 4.0, 3.0);
    path.move_to((2.0, 2.0));
    let (mut mask, mut words) = ([7; 12], [9; 7]);
    let refused = draw_in_bands(&path, &Label::new(4, 3), 0..3, 1, &mut mask, &mut words);
    assert_eq!(told(refused.unwrap_err()), at(13, 6, 64));
    assert_eq!((mask, words), ([7; 12], [0; 7]));
}

/// 1 to 12 and 18 are judged over all rows, whatever the step: here a mask and a workspace that would
/// do for one row, a cut record, and a line behind a Close.
#[test]
fn refusals_are_those_of_the_whole_band() {
    let label = Label::new(4, 3);
    let cut = Path::from_bytes([k1().as_bytes(), &[2]].concat());
    let mut after_close = k1();
    after_close.line_to((2.0, 2.0));
    let cases = [
        (k1(), 11, 7, 4),
        (k1(), 12, 2, 5),
        (cut, 12, 7, 8),
        (after_close, 12, 7, 18),
    ];
    for (path, bytes, count, number) in cases {
        for step in [0, 1, usize::MAX] {
            let (mut mask, mut words) = (vec![7; bytes], vec![9; count]);
            let refusal = draw_in_bands(&path, &label, 0..3, step, &mut mask, &mut words);
            assert_eq!(refusal.unwrap_err().number(), number);
            assert_eq!((mask, words), (vec![7; bytes], vec![9; count]));
        }
    }
}
