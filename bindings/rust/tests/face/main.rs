//! The crate over the library, as its users call it: the labels and refusals of the rules
//! (docs/RULES.md), bands, and what a call leaves in the memory that it is lent.

mod after_close;
mod bands;
mod grid;
mod header;
mod labels;
mod lent;
mod pictures;
mod printer;
mod reading;
mod refusals;
mod room;
mod transforms;
mod worked;

use std::ops::Range;

use mosszephyr::{
    draw, draw_band, mask_bytes, workspace_words, Command, Drawn, Label, Path, Picture, Point,
    Refusal,
};

/// The largest part of a point that passes, and the next float, which fails.
const JUST_WITHIN: f32 = 4096.0 + 7.0 / 2048.0;
const JUST_BEYOND: f32 = 4096.0 + 1.0 / 256.0;

/// Lines through these points.
fn open(points: &[(f32, f32)]) -> Path {
    let mut path = Path::new();
    path.move_to(points[0]);
    for &point in &points[1..] {
        path.line_to(point);
    }
    path
}

/// The same, closed.
fn closed(points: &[(f32, f32)]) -> Path {
    let mut path = open(points);
    path.close();
    path
}

/// A rectangle in the order of K1: right along the top first.
fn rectangle(left: f32, top: f32, right: f32, bottom: f32) -> Path {
    closed(&[(left, top), (right, top), (right, bottom), (left, bottom)])
}

/// Every place that a point has in a record; all others are 0.
fn in_each_place(point: Point) -> [Command; 7] {
    let zero = Point::ZERO;
    [
        Command::MoveTo(point),
        Command::LineTo(point),
        Command::QuadTo(point, zero),
        Command::QuadTo(zero, point),
        Command::CurveTo(point, zero, zero),
        Command::CurveTo(zero, point, zero),
        Command::CurveTo(zero, zero, point),
    ]
}

/// K1's path.
fn k1() -> Path {
    rectangle(1.0, 1.0, 3.0, 2.0)
}

/// An accepted drawing.
fn drawn(path: &Path, width: usize, height: usize) -> Picture {
    draw(path, &Label::new(width, height)).expect("the label is accepted")
}

/// What a picture counts.
fn counts(picture: &Picture) -> Drawn {
    Drawn {
        records: picture.records(),
        cells: picture.cells(),
        cut: picture.cut(),
    }
}

/// The counts of a path whose coordinates all lie on the grid.
const fn on_grid(records: usize, cells: usize) -> Drawn {
    Drawn {
        records,
        cells,
        cut: 0,
    }
}

/// A band drawn at once with a pool of so many places. A 13 leaves the mask as it was, and all words
/// are 0 behind it too.
fn with_pool(
    list: impl AsRef<[u8]>,
    label: &Label,
    band: Range<usize>,
    pool: usize,
) -> Result<Drawn, Refusal> {
    let bytes = mask_bytes(label.width, band.len(), label.pitch).unwrap();
    let count = workspace_words(band.len(), pool).unwrap();
    let (mut mask, mut words) = (vec![7; bytes], vec![9; count]);
    let drawn = draw_band(list, label, band, &mut mask, &mut words);
    if drawn.is_err() {
        assert_eq!(mask, vec![7; bytes]);
    }
    assert_eq!(words, vec![0; count]);
    drawn
}

/// A refusal as number, record and byte.
fn told(refusal: Refusal) -> (u32, Option<usize>, Option<usize>) {
    (refusal.number(), refusal.record(), refusal.byte())
}

/// The same of a refusal that names a record.
fn at(number: u32, record: usize, byte: usize) -> (u32, Option<usize>, Option<usize>) {
    (number, Some(record), Some(byte))
}

/// A round figure with a hole, of every command, that reaches past each side of 40 x 30.
fn round_figure() -> Path {
    let mut path = Path::new();
    path.move_to((-3.0, 15.0))
        .curve_to((-3.0, -7.5), (43.5, -7.5), (43.5, 15.0))
        .quad_to((41.0, 33.0), (20.25, 33.0))
        .line_to((-3.0, 24.5))
        .close()
        .move_to((20.0, 8.0))
        .quad_to((28.5, 15.25), (20.0, 22.0))
        .quad_to((11.5, 15.25), (20.0, 8.0))
        .close();
    path
}

/// Three labels with a fault more each: a NaN in the offset, a pitch below the width, a width that
/// is too large.
fn faulty_labels() -> [Label; 3] {
    let endless = Label {
        offset: Point::new(f32::NAN, 0.0),
        ..Label::new(4, 3)
    };
    let narrow = Label {
        pitch: 3,
        ..endless
    };
    let wide = Label {
        width: 4097,
        ..narrow
    };
    [endless, narrow, wide]
}

/// Throws of dice with so many sides, the same in each run.
fn dice(mut state: u32) -> impl FnMut(u32) -> u32 {
    move |sides| {
        state = state.wrapping_mul(1_664_525).wrapping_add(1_013_904_223);
        (state >> 16) % sides
    }
}

/// Lists of up to 14 records with points on and beside 6 x 5 pixels, a quarter of a pixel apart.
fn small_figures(seed: u32) -> impl Iterator<Item = Path> {
    let mut dice = dice(seed);
    std::iter::repeat_with(move || {
        let mut path = Path::new();
        let mut closed = true;
        for _ in 0..=dice(14) {
            let mut point = || Point::new(dice(40) as f32 / 4.0 - 2.0, dice(36) as f32 / 4.0 - 2.0);
            let (a, b, c) = (point(), point(), point());
            let command = match (dice(8), closed) {
                (0, _) if !path.is_empty() => Command::Close,
                (1, _) | (_, true) => Command::MoveTo(a),
                (2, _) => Command::QuadTo(a, b),
                (3, _) => Command::CurveTo(a, b, c),
                _ => Command::LineTo(a),
            };
            closed = command == Command::Close;
            path.push(command);
        }
        path
    })
}

/// Lines down and up, one within each column and one before them, past these rows: every row has
/// width + 1 places.
fn comb(width: u16, rows: u16) -> Path {
    let ends = [f32::from(rows) + 1.0, -1.0];
    let mut path = Path::new();
    path.move_to((-1.0, ends[1]));
    for column in 0..=width {
        path.line_to((f32::from(column), ends[usize::from(column % 2)]));
    }
    path
}
