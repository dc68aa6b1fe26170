//! How many coordinates are cut: what is not whole in 256ths when it is transformed and moved.

use super::{k1, k1_but, Boundary, Rows};
use crate::drawing::Drawing;
use crate::list::record;
use crate::oracle::{Command, Point};
use crate::reading::REACH;
use Command::{Close, CurveTo, LineTo, MoveTo, QuadTo};

/// Half of a 256th.
const HALF: f32 = 1.0 / 512.0;

pub fn table() -> Vec<Boundary> {
    let mut rows = Rows::default();
    numbers(&mut rows);
    moved_labels(&mut rows);
    moved_points(&mut rows);
    killed_points(&mut rows);
    paths(&mut rows);
    bands(&mut rows);
    refusals(&mut rows);
    longest(&mut rows);
    rows.0
}

/// A lone point on K1's label.
fn point(x: f32, y: f32) -> Drawing {
    k1_but(|d| d.list = record(&MoveTo(Point::new(x, y))))
}

fn numbers(rows: &mut Rows) {
    let least = f32::from_bits(1);
    let end = REACH as f32;
    // A number, and whether it is cut.
    let numbers = [
        (0.0, 0),
        (1.0 / 256.0, 0),
        (HALF, 1),
        (0.1, 1),
        (0.003, 1),
        (least, 1),
        (f32::MIN_POSITIVE, 1),
        (1.0 + f32::EPSILON, 1),
        (2047.99609375, 0),
        (2047.9998779296875, 1),
        (end, 0),
        (end - 1.0 / 4096.0, 1),
        (end + 1.0 / 2048.0, 1),
        (end + 7.0 / 2048.0, 1),
    ];
    for (number, cut) in numbers {
        for number in [number, -number] {
            rows.cut(format!("x {number:?}"), cut, point(number, 2.0));
            rows.cut(format!("y {number:?}"), cut, point(-3.5, number));
            rows.cut(format!("both {number:?}"), 2 * cut, point(number, number));
        }
    }
    let mixed = [(-0.003, -0.00390625), (-0.0, least), (HALF, -0.0)];
    for (x, y) in mixed {
        rows.cut(format!("({x:?}, {y:?})"), 1, point(x, y));
    }
}

/// K1, of whose coordinates none is cut where nothing moves it.
fn moved_labels(rows: &mut Rows) {
    let mut add = |what: &str, cut, change: fn(&mut Drawing)| rows.cut(what, cut, k1_but(change));
    add("K1", 0, |_| {});
    add("K1, offset (1/512, 0)", 4, |d| d.offset.x = HALF);
    add("K1, offset (0, 1/512)", 4, |d| d.offset.y = HALF);
    add("K1, offset (1/512, 1/512)", 8, |d| {
        d.offset = Point::new(HALF, HALF);
    });
    add("K1, offset (1/256, -1)", 0, |d| {
        d.offset = Point::new(2.0 * HALF, -1.0);
    });
    add("K1, x 1/512 of the transform", 4, |d| d.transform.x = HALF);
    add("K1, 1/512 and back", 0, |d| {
        (d.transform.x, d.offset.x) = (HALF, -HALF);
    });
    add("K1, half and half of a 256th", 0, |d| {
        (d.transform.y, d.offset.y) = (HALF, HALF);
    });
    add("K1, an offset too small to be felt", 0, |d| {
        d.offset = Point::new(1.0e-30, -f32::from_bits(1));
    });
    add("K1, xx 1/512", 4, |d| d.transform.xx = HALF);
    add("K1, xx and yy 1/512", 6, |d| {
        (d.transform.xx, d.transform.yy) = (HALF, HALF);
    });
    add("K1, yx 1/512", 2, |d| d.transform.yx = HALF);
    add("K1, xx 0, x 1/512", 4, |d| {
        (d.transform.xx, d.transform.x) = (0.0, HALF);
    });
}

/// What a row stands for, how many coordinates are cut, a lone point and what moves it.
type Moved = (&'static str, usize, (f32, f32), fn(&mut Drawing));

fn add_moved(rows: &mut Rows, moved: &[Moved]) {
    for &(what, cut, (x, y), change) in moved {
        let mut drawing = point(x, y);
        change(&mut drawing);
        rows.cut(what, cut, drawing);
    }
}

/// A point off the grid by half a 256th, moved back or not.
fn moved_points(rows: &mut Rows) {
    let halves = (1.0 + HALF, 2.0 - HALF);
    let moved: [Moved; 5] = [
        ("an excess", 2, halves, |_| {}),
        ("an excess cancelled by the offset", 0, halves, |d| {
            d.offset = Point::new(-HALF, HALF);
        }),
        ("x's excess cancelled by the offset", 1, halves, |d| {
            d.offset.x = -HALF;
        }),
        ("an excess doubled", 0, halves, |d| {
            (d.transform.xx, d.transform.yy) = (2.0, 2.0);
        }),
        ("x and y exchanged", 1, (0.5 + HALF, 0.5), |d| {
            (d.transform.xx, d.transform.yx) = (0.0, 1.0);
            (d.transform.xy, d.transform.yy) = (1.0, 0.0);
        }),
    ];
    add_moved(rows, &moved);
}

/// A point whose excess a factor of 0 takes away, or the rounding of a sum.
fn killed_points(rows: &mut Rows) {
    let moved: [Moved; 5] = [
        ("an excess killed by xx", 1, (0.1, 0.1), |d| {
            d.transform.xx = 0.0;
        }),
        ("an excess killed by xx and yy", 0, (0.1, 0.1), |d| {
            (d.transform.xx, d.transform.yy) = (0.0, -0.0);
        }),
        ("an excess swallowed", 0, (1.0e-9, -1.0e-9), |d| {
            d.offset = Point::new(1.0, 1.0);
        }),
        ("an excess lost far away", 0, (0.1, 0.1), |d| {
            (d.transform.x, d.offset.x) = (1.0e6, -1.0e6);
            (d.transform.y, d.offset.y) = (-1.0e6, 1.0e6);
        }),
        ("-0.0 that keeps its sign", 0, (-0.0, -0.0), |d| {
            (d.transform.x, d.transform.y) = (-0.0, -0.0);
            d.offset = Point::new(-0.0, -0.0);
        }),
    ];
    add_moved(rows, &moved);
}

fn paths(rows: &mut Rows) {
    let (on, off) = (Point::new(1.0, 1.5), Point::new(0.1, 0.2));
    let paths: [(&str, usize, &[Command]); 9] = [
        ("a MoveTo and a LineTo", 4, &[MoveTo(off), LineTo(off)]),
        ("a Close has no point", 2, &[MoveTo(off), Close, Close]),
        ("a quad's control point", 2, &[MoveTo(on), QuadTo(off, on)]),
        ("a quad's end", 2, &[MoveTo(on), QuadTo(on, off)]),
        ("a cubic's first", 2, &[MoveTo(on), CurveTo(off, on, on)]),
        ("a cubic's second", 2, &[MoveTo(on), CurveTo(on, off, on)]),
        ("a cubic's end", 2, &[MoveTo(on), CurveTo(on, on, off)]),
        ("a cubic's three", 6, &[MoveTo(on), CurveTo(off, off, off)]),
        ("the same point five times", 10, &[MoveTo(off); 5]),
    ];
    for (what, cut, path) in paths {
        rows.cut(what, cut, Drawing::plain(path, 4, 3));
    }
    let empty = k1_but(|d| {
        d.list.clear();
        d.offset = Point::new(HALF, HALF);
    });
    rows.cut("an empty list, offset (1/512, 1/512)", 0, empty);
}

/// Every band of K1 a little off the grid, those without rows and without ink as well, and labels
/// without a pixel.
fn bands(rows: &mut Rows) {
    let mut label = k1();
    label.offset.x = HALF;
    for (first, end) in [(0, 0), (3, 3), (0, 1), (1, 2), (2, 3), (0, 3)] {
        let what = format!("offset (1/512, 0), band [{first}, {end})");
        rows.cut(what, 4, label.band(first, end));
    }
    for (width, height) in [(0, 3), (4, 0), (0, 0)] {
        let mut small = Drawing::plain(&[], width, height);
        (small.list, small.offset) = (label.list.clone(), label.offset);
        rows.cut(format!("offset (1/512, 0), {width} by {height}"), 4, small);
    }
}

/// Coordinates are cut before each of these is found.
fn refusals(rows: &mut Rows) {
    let mut off = k1();
    off.offset = Point::new(HALF, HALF);
    let mut behind = |what: &str, answer, bytes: &[u8]| {
        let mut drawing = off.clone();
        drawing.list.extend_from_slice(bytes);
        rows.add(what, answer, drawing);
    };
    let beyond = Point::new(0.0, REACH as f32 + 1.0 / 256.0);
    let line = record(&LineTo(Point::ZERO));
    behind("8 behind what is cut", (8, 5), &line[..11]);
    behind("9 behind what is cut", (9, 5), &[2, 0, 6, 0]);
    behind("10 behind what is cut", (10, 5), &[3, 0, 5, 0]);
    behind("12 behind what is cut", (12, 5), &record(&MoveTo(beyond)));
    behind("18 behind what is cut", (18, 5), &line);
    off.words.truncate(3);
    rows.add("13 where coordinates are cut", (13, 2), off);
}

/// The most that a list can have, and two coordinates less.
fn longest(rows: &mut Rows) {
    let (on, off) = (Point::new(1.0, 1.0), Point::new(0.1, 0.2));
    for (what, first, cut) in [
        ("65,532 bytes, all cut", off, 14_042),
        ("65,532 bytes, all but the first cut", on, 14_040),
    ] {
        let mut path = vec![MoveTo(first)];
        path.resize(2341, CurveTo(off, off, off));
        rows.cut(what, cut, Drawing::plain(&path, 4, 3));
    }
}
