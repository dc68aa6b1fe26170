//! 13: the pool, and the record that is too much for it.

use super::{closed, k1, rectangle, Boundary, Rows};
use crate::drawing::Drawing;
use crate::list;
use crate::oracle::{Command, Point};
use crate::paths::full_rows;
use crate::reading::SIDE;
use Command::{Close, CurveTo, LineTo, MoveTo, QuadTo};

pub fn table() -> Vec<Boundary> {
    let mut rows = Rows::default();
    lone_moves(&mut rows);
    for (what, path, width, records) in squares().into_iter().chain(strokes()) {
        with_each_pool(&mut rows, what, &Drawing::plain(&path, width, 1), records);
    }
    bands(&mut rows);
    the_cap(&mut rows);
    widest_rows(&mut rows);
    rows.0
}

/// A path for a label so wide and one row high, and the records that store a new place, in their
/// order. What is stored behind the last counts as one record more.
type Case = (&'static str, Vec<Command>, usize, &'static [usize]);

/// A call with every pool up to one that holds its places, with and without words that are no
/// place's. A pool is too small at the record of the first place that it has not.
fn with_each_pool(rows: &mut Rows, what: &str, drawing: &Drawing, records: &[usize]) {
    for pool in 0..=records.len() {
        let answer = records.get(pool).map_or((0, 0), |&record| (13, record));
        for spare in [0, 3] {
            let mut drawing = drawing.clone();
            drawing.words.resize(drawing.rows() + 4 * pool + spare, 5);
            let words = drawing.words.len();
            rows.add(format!("{what}, {words} words"), answer, drawing);
        }
    }
}

/// A MoveTo alone stores its cell at the end, where that is in the label's rows and not right of it.
fn lone_moves(rows: &mut Rows) {
    let cases: [(f32, f32, usize, &[usize]); 7] = [
        (0.0, 0.0, 1, &[1]),
        (-1.0, 0.0, 1, &[1]),
        (1.0, 0.0, 1, &[]),
        (0.0, 1.0, 1, &[]),
        (0.0, -1.0, 1, &[]),
        (-1.0, 0.0, 0, &[1]),
        (0.0, 0.0, 0, &[]),
    ];
    for (x, y, width, records) in cases {
        let path = [MoveTo(Point::new(x, y))];
        let what = format!("MoveTo ({x}, {y}) on {width} by 1");
        with_each_pool(rows, &what, &Drawing::plain(&path, width, 1), records);
    }
}

/// The last cell of a square is left by what stands behind it.
fn squares() -> Vec<Case> {
    let closed = rectangle(0.0, 0.0, 1.0, 1.0);
    let open = closed[..4].to_vec();
    let with = |path: &[Command], last: Command| [path, &[last]].concat();
    let moved = MoveTo(Point::new(0.5, 0.5));
    vec![
        ("a square", closed.clone(), 1, &[5]),
        ("a square not closed", open.clone(), 1, &[4]),
        ("a square and a Close more", with(&closed, Close), 1, &[6]),
        ("a square and a MoveTo", with(&closed, moved), 1, &[5]),
        ("a square closed by a MoveTo", with(&open, moved), 1, &[4]),
        (
            "a square on 2 by 1 and a MoveTo",
            with(&closed, moved),
            2,
            &[2, 5],
        ),
    ]
}

fn strokes() -> Vec<Case> {
    let at = Point::new;
    let (start, away) = (MoveTo(at(0.5, 0.25)), MoveTo(at(1.5, 0.0)));
    let (down, aside) = (LineTo(at(0.5, 0.75)), LineTo(at(0.75, 0.75)));
    let quad = QuadTo(at(1.5, 0.25), at(1.5, 0.75));
    let cubic = CurveTo(at(1.5, 0.5), at(2.5, 0.5), at(2.5, 0.75));
    let level = closed(&[(0.5, 0.0), (0.5, 0.5), (1.5, 0.5)]);
    vec![
        ("a line down, level on and closed", level, 2, &[2, 3]),
        ("three MoveTos", vec![start; 3], 1, &[3]),
        (
            "a line that a MoveTo takes back",
            vec![start, down, away],
            2,
            &[3],
        ),
        (
            "a triangle that a MoveTo leaves",
            vec![start, down, aside, away],
            2,
            &[3, 4],
        ),
        ("a quad", vec![start, quad], 2, &[1, 2]),
        ("a cubic", vec![start, cubic, Close], 3, &[1, 1, 2]),
    ]
}

/// A band's records are those of its own rows: of K1, and of a figure whose lower row is stored into
/// first.
fn bands(rows: &mut Rows) {
    let upwards = closed(&[(0.5, 1.5), (1.5, 1.25), (1.5, 0.25), (0.5, 0.5)]);
    let upwards = Drawing::plain(&upwards, 2, 2);
    let cases: [(&str, &Drawing, usize, usize, &[usize]); 7] = [
        ("K1", &k1(), 0, 3, &[2, 5]),
        ("K1", &k1(), 0, 1, &[]),
        ("K1", &k1(), 1, 2, &[2, 5]),
        ("K1", &k1(), 1, 3, &[2, 5]),
        ("upwards", &upwards, 0, 2, &[1, 2, 3, 4]),
        ("upwards", &upwards, 0, 1, &[3, 4]),
        ("upwards", &upwards, 1, 2, &[1, 2]),
    ];
    for (what, label, first, end, records) in cases {
        let what = format!("{what}, band [{first}, {end})");
        with_each_pool(rows, &what, &label.band(first, end), records);
    }
}

/// The largest pool, 16,384: two bars of 4,096 rows take two places a row each, the last of them at the
/// end; a last MoveTo takes one more.
fn the_cap(rows: &mut Rows) {
    let bar = |n: usize| rectangle(8.0 * n as f32, 0.0, 8.0 * n as f32 + 4.0, SIDE as f32);
    let path: Vec<Command> = (0..2).flat_map(bar).collect();
    let mut drawing = Drawing::plain(&path, 16, SIDE);
    let lacking = (13, 10);
    for (words, answer) in [
        (69_631, lacking),
        (69_632, (0, 0)),
        (69_636, (0, 0)),
        (100_000, (0, 0)),
    ] {
        drawing.words.resize(words, 5);
        let what = format!("16,384 places and {words} words");
        rows.add(what, answer, drawing.clone());
    }
    let mut one_more = path;
    one_more.push(MoveTo(Point::new(15.0, 7.0)));
    drawing.list = list::written(&one_more);
    for words in [69_632, 69_636, 100_000] {
        drawing.words.resize(words, 5);
        let what = format!("16,385 places and {words} words");
        rows.add(what, (13, 11), drawing.clone());
    }
}

/// The widest label with every place of its rows stored, 4,097 in each: three rows fit the largest
/// pool, four do not. A row has 66 records: a MoveTo, 64 lines over 64 columns each and one over the
/// last. Of a fourth row 4,093 places fit; the next is in column 4,092, which the last but one leaves.
fn widest_rows(rows: &mut Rows) {
    const RECORDS: usize = 66;
    for (count, answer) in [(1, (0, 0)), (3, (0, 0)), (4, (13, 3 * RECORDS + 64))] {
        let drawing = Drawing::plain(&full_rows(SIDE, count), SIDE, count);
        rows.add(format!("{count} widest rows, full"), answer, drawing);
    }
    let mut lacking = Drawing::plain(&full_rows(SIDE, 3), SIDE, 3);
    lacking.words.truncate(3 + 4 * 3 * (SIDE + 1) - 1);
    let answer = (13, 2 * RECORDS + 65);
    rows.add("3 widest rows, full, a word lacking", answer, lacking);
}
