//! 1 to 6: sizes, loans and floats.

use super::{k1, k1_but, rectangle, Boundary, Rows};
use crate::drawing::Drawing;
use crate::reading::SIDE;

const FAR: usize = usize::MAX;

pub fn table() -> Vec<Boundary> {
    let mut rows = Rows::default();
    sides(&mut rows);
    bands(&mut rows);
    pitches(&mut rows);
    masks(&mut rows);
    workspaces(&mut rows);
    floats(&mut rows);
    rows.0
}

fn sides(rows: &mut Rows) {
    let path = rectangle(1.0, 1.0, 3.0, 2.0);
    for (side, number) in [(0, 0), (1, 0), (SIDE - 1, 0), (SIDE, 0), (SIDE + 1, 1)] {
        let wide = Drawing::plain(&path, side, 3);
        rows.plain(format!("{side} wide"), number, wide);
        let tall = Drawing::plain(&path, 4, side);
        rows.plain(format!("{side} high"), number, tall);
    }
    for side in [8192, 65_536, 1 << 31, 1 << 32, FAR - 1, FAR] {
        rows.plain(format!("{side} wide"), 1, k1_but(|d| d.width = side));
        rows.plain(format!("{side} high"), 1, k1_but(|d| d.height = side));
        let both = k1_but(|d| (d.width, d.height) = (side, side));
        rows.plain(format!("{side} both ways"), 1, both);
    }
}

fn bands(rows: &mut Rows) {
    let cases = [
        ((0, 3), 0),
        ((0, 0), 0),
        ((3, 3), 0),
        ((1, 2), 0),
        ((2, 1), 2),
        ((0, 4), 2),
        ((4, 4), 2),
        ((4, 3), 2),
        ((0, FAR), 2),
        ((FAR, FAR), 2),
        ((FAR, 0), 2),
        ((FAR, 3), 2),
        ((1, 0), 2),
    ];
    for ((first, end), number) in cases {
        let drawing = k1_but(|d| (d.first, d.end) = (first, end));
        rows.plain(format!("band [{first}, {end})"), number, drawing);
    }
}

fn pitches(rows: &mut Rows) {
    for pitch in [0, 1, 3, 65_537, 1 << 31, 1 << 32, FAR - 1, FAR] {
        let drawing = k1_but(|d| d.pitch = pitch);
        rows.plain(format!("pitch {pitch} for width 4"), 3, drawing);
    }
    for pitch in [4, 5, 65_535, 65_536] {
        let mut drawing = k1();
        drawing.pitch = pitch;
        drawing.lend(0, 20);
        rows.plain(format!("pitch {pitch} for width 4"), 0, drawing);
    }
    let none = Drawing::plain(&[], 0, 3);
    rows.plain("pitch 0 for width 0", 0, none);
    let no_rows = k1_but(|d| (d.end, d.pitch) = (0, 3));
    rows.plain("pitch 3 for width 4 and no rows", 3, no_rows);
}

fn masks(rows: &mut Rows) {
    for (width, height, pitch) in [(4, 3, 4), (4, 3, 9), (4, 1, 4), (1, 1, 65_536), (0, 3, 5)] {
        let mut drawing = Drawing::plain(&rectangle(0.0, 0.0, 1.0, 1.0), width, height);
        drawing.pitch = pitch;
        drawing.lend(0, 20);
        let what = format!("{width} by {height}, pitch {pitch}: a mask");
        rows.plain(format!("{what} that fits"), 0, drawing.clone());
        drawing.mask.push(9);
        rows.plain(format!("{what} one longer"), 0, drawing.clone());
        drawing.mask.truncate(drawing.mask.len() - 2);
        rows.plain(format!("{what} one short"), 4, drawing.clone());
        drawing.mask.clear();
        rows.plain(format!("{what} of nothing"), 4, drawing);
    }
    let no_rows = k1_but(|d| {
        (d.first, d.end, d.pitch) = (2, 2, 65_536);
        d.mask.clear();
    });
    rows.plain("no rows and no mask", 0, no_rows);
    let mut tall = Drawing::plain(&[], SIDE, SIDE);
    tall.pitch = 65_536;
    rows.plain("a pitch of 65,536 for a mask without gaps", 4, tall);
    let no_width = k1_but(|d| {
        (d.width, d.pitch) = (0, 0);
        d.mask.clear();
    });
    rows.plain("no width, pitch 0 and no mask", 0, no_width);
}

fn workspaces(rows: &mut Rows) {
    for (words, answer) in [(0, (5, 0)), (2, (5, 0)), (3, (13, 2)), (11, (0, 0))] {
        let drawing = k1_but(|d| d.words.truncate(words));
        rows.add(format!("K1 with {words} words"), answer, drawing);
    }
    let mut empty = Drawing::plain(&[], 4, 3);
    empty.words.truncate(3);
    rows.plain("no list, a word for each row", 0, empty.clone());
    empty.words.truncate(2);
    rows.plain("no list, a word short", 5, empty);
    let no_rows = k1_but(|d| {
        d.end = 0;
        d.words.clear();
    });
    rows.plain("no rows and no words", 0, no_rows);
}

fn floats(rows: &mut Rows) {
    for number in [f32::NAN, f32::INFINITY, f32::NEG_INFINITY, f32::MAX] {
        let refusal = if number.is_finite() { 0 } else { 6 };
        for part in 0..8 {
            let mut drawing = Drawing::plain(&[], 2, 2);
            set_part(&mut drawing, part, number);
            rows.plain(format!("part {part} is {number}"), refusal, drawing);
        }
    }
}

/// Entries of the transform first, then the parts of the offset.
fn set_part(drawing: &mut Drawing, part: usize, number: f32) {
    let (t, offset) = (&mut drawing.transform, &mut drawing.offset);
    match part {
        0 => t.xx = number,
        1 => t.xy = number,
        2 => t.yx = number,
        3 => t.yy = number,
        4 => t.x = number,
        5 => t.y = number,
        6 => offset.x = number,
        _ => offset.y = number,
    }
}
