//! 7 to 12 and 18: the list's length, its records, their order and their points.

use super::{k1, k1_but, Boundary, Rows};
use crate::drawing::Drawing;
use crate::list::{record, written};
use crate::oracle::{Command, Fill, Point};
use crate::reading::LENGTHS;

pub fn table() -> Vec<Boundary> {
    let mut rows = Rows::default();
    lengths(&mut rows);
    cut_records(&mut rows);
    kinds(&mut rows);
    record_lengths(&mut rows);
    first_records(&mut rows);
    drawing_behind_closes(&mut rows);
    behind_closes(&mut rows);
    long_lists_of_figures(&mut rows);
    points(&mut rows);
    moved_points(&mut rows);
    rows.0
}

/// K1's sizes with these bytes for a list.
fn with_list(list: Vec<u8>) -> Drawing {
    k1_but(|d| d.list = list)
}

fn start() -> Vec<u8> {
    record(&Command::MoveTo(Point::new(0.5, 0.5)))
}

/// A record of a kind with that many bytes of body behind its header, all zero.
fn raw(length: usize, kind: usize, body: usize) -> Vec<u8> {
    let mut bytes = (length as u16).to_le_bytes().to_vec();
    bytes.extend((kind as u16).to_le_bytes());
    bytes.resize(4 + body, 0);
    bytes
}

/// A whole record of a kind, its coordinates zero.
fn sound(kind: usize) -> Vec<u8> {
    raw(LENGTHS[kind - 1], kind, LENGTHS[kind - 1] - 2)
}

fn lengths(rows: &mut Rows) {
    let closes = |count: usize| [start(), raw(2, 5, 0).repeat(count)].concat();
    rows.plain("65,536 bytes", 0, with_list(closes(16_381)));
    rows.plain("65,540 bytes", 7, with_list(closes(16_382)));
    for stray in 1..4 {
        let list = [closes(16_381), vec![0; stray]].concat();
        rows.plain(format!("{} bytes", list.len()), 7, with_list(list));
    }
    let faulty = with_list(vec![0; 65_536]);
    rows.add("65,536 zero bytes", (9, 0), faulty);
    let cut = [closes(16_380), raw(10, 2, 0)].concat();
    rows.add(
        "65,536 bytes, the last record cut",
        (8, 16_381),
        with_list(cut),
    );
}

fn cut_records(rows: &mut Rows) {
    rows.plain("an empty list", 0, with_list(Vec::new()));
    for stray in 1..4 {
        rows.add(format!("{stray} bytes"), (8, 0), with_list(vec![0; stray]));
        let behind = k1_but(|d| d.list.resize(d.list.len() + stray, 0));
        rows.add(format!("{stray} bytes behind K1"), (8, 5), behind);
    }
    for kind in 1..=4 {
        let whole = sound(kind);
        for length in 1..whole.len() {
            let list = [start(), whole[..length].to_vec()].concat();
            let what = format!("kind {kind} cut to {length} bytes");
            rows.add(what, (8, 1), with_list(list));
        }
        let list = [start(), whole].concat();
        rows.plain(format!("kind {kind} whole"), 0, with_list(list));
    }
}

fn kinds(rows: &mut Rows) {
    for kind in [0, 6, 7, 16, 255, 256, 257, 261, 0x0500, 65_535] {
        for (length, body) in [(10, 8), (2, 0), (0, 0), (10, 0), (65_535, 0)] {
            let bytes = raw(length, kind, body);
            let what = format!("kind {kind}, length {length}, {body} bytes of body");
            rows.add(&what, (9, 0), with_list(bytes.clone()));
            let second = [start(), bytes].concat();
            rows.add(what + ", second", (9, 1), with_list(second));
        }
    }
}

fn record_lengths(rows: &mut Rows) {
    for kind in 1..=5 {
        let right = LENGTHS[kind - 1];
        for length in [0, 1, 2, 9, 10, 11, 18, 26, 34, right + 256, 65_535] {
            if length == right {
                continue;
            }
            for body in [0, right - 2, 40] {
                let list = [start(), raw(length, kind, body)].concat();
                let what = format!("kind {kind}, length {length}, {body} bytes of body");
                rows.add(what, (10, 1), with_list(list));
            }
        }
    }
}

fn first_records(rows: &mut Rows) {
    for kind in 2..=5 {
        let what = format!("kind {kind} first");
        rows.add(&what, (11, 0), with_list(sound(kind)));
        let before = [sound(kind), start()].concat();
        rows.add(what + ", a MoveTo behind", (11, 0), with_list(before));
        let closed = [sound(5), sound(kind)].concat();
        let what = format!("a Close first, kind {kind} behind");
        rows.add(what, (11, 0), with_list(closed));
    }
    rows.plain("a MoveTo first", 0, with_list(start()));
}

/// Each kind that draws, directly behind a Close: of a point, of lines, of the last of several
/// figures.
fn drawing_behind_closes(rows: &mut Rows) {
    for kind in 2..=4 {
        for closes in 1..=3 {
            let closed = sound(5).repeat(closes);
            for lines in [0, 1, 2, 6, 30] {
                let list = [start(), sound(2).repeat(lines), closed.clone(), sound(kind)];
                let what = format!("kind {kind} behind {lines} lines and {closes} Closes");
                rows.add(what, (18, 1 + lines + closes), with_list(list.concat()));
            }
            for figures in [1, 2, 5] {
                let figure = [start(), sound(4), closed.clone()].concat();
                let list = [figure.repeat(figures), sound(kind), sound(5), start()];
                let what = format!("kind {kind} behind {figures} figures of {closes} Closes");
                let index = figures * (2 + closes);
                rows.add(what, (18, index), with_list(list.concat()));
            }
        }
    }
}

/// What may stand behind a Close: another, a MoveTo with anything behind it, the end.
fn behind_closes(rows: &mut Rows) {
    for closes in 1..=3 {
        let closed = sound(5).repeat(closes);
        for (name, figure) in [
            ("a point", start()),
            ("a line", [start(), sound(2)].concat()),
        ] {
            let figure = [figure, closed.clone()].concat();
            let what = format!("{name} and {closes} Closes");
            rows.plain(&what, 0, with_list(figure.clone()));
            let moved = [figure, start()].concat();
            let what = what + " and a MoveTo";
            rows.plain(&what, 0, with_list(moved.clone()));
            for kind in 1..=5 {
                let list = [moved.clone(), sound(kind)].concat();
                rows.plain(format!("{what} and kind {kind}"), 0, with_list(list));
            }
        }
    }
}

/// Lists of 65,536 bytes with a MoveTo behind each Close, or with one lost; and those that end with
/// a record that draws behind nothing but Closes.
fn long_lists_of_figures(rows: &mut Rows) {
    let figure = [start(), sound(2), sound(5)].concat();
    let point = [start(), sound(5)].concat();
    let list = [figure.repeat(2340), point.clone()].concat();
    rows.plain("65,536 bytes of closed lines", 0, with_list(list.clone()));
    rows.plain(
        "65,536 bytes of closed points",
        0,
        with_list(point.repeat(4096)),
    );
    for lost in [1, 1170, 2339] {
        let at = lost * figure.len();
        let list = [&list[..at], &list[at + start().len()..]].concat();
        let what = format!("closed lines, the MoveTo of line {lost} lost");
        rows.add(what, (18, 3 * lost), with_list(list));
    }
    for kind in 2..=4 {
        let closes = (65_536 - start().len() - sound(kind).len()) / 4;
        let list = [start(), sound(5).repeat(closes), sound(kind)].concat();
        let what = format!("{} bytes, kind {kind} behind Closes", list.len());
        rows.add(what, (18, 1 + closes), with_list(list));
    }
}

/// The largest parts that pass and the smallest that do not, and what is no number.
const PARTS: [(f32, u8); 12] = [
    (4096.0, 0),
    (-4096.0, 0),
    (4096.0034, 0),
    (-4096.0034, 0),
    (4096.00390625, 12),
    (-4096.00390625, 12),
    (8192.0, 12),
    (f32::MAX, 12),
    (-1.0e30, 12),
    (f32::NAN, 12),
    (f32::INFINITY, 12),
    (f32::NEG_INFINITY, 12),
];

fn points(rows: &mut Rows) {
    for kind in 1..=4 {
        for at in (4..LENGTHS[kind - 1] + 2).step_by(4) {
            for (part, number) in PARTS {
                let mut bytes = sound(kind);
                bytes[at..at + 4].copy_from_slice(&part.to_le_bytes());
                let index = usize::from(number == 12);
                let what = format!("kind {kind}, {part} at byte {at}");
                let list = [start(), bytes].concat();
                rows.add(what, (number, index), with_list(list));
            }
        }
    }
}

/// Points that the transform or the offset brings inside the rule or outside it.
fn moved_points(rows: &mut Rows) {
    let mut moved = |what: &str, x: f32, number: u8, change: fn(&mut Drawing)| {
        let mut drawing = k1();
        drawing.list = written(&[Command::MoveTo(Point::new(x, 0.0))]);
        drawing.fill = Fill::EvenOdd;
        change(&mut drawing);
        rows.add(what, (number, 0), drawing);
    };
    moved("3e38 killed", 3.0e38, 0, |d| d.transform.xx = 0.0);
    moved("infinity killed", f32::INFINITY, 12, |d| {
        d.transform.xx = 0.0
    });
    moved("NaN killed", f32::NAN, 12, |d| d.transform.xx = 0.0);
    moved("the product infinite", 3.0e38, 12, |d| {
        d.transform.xx = 16.0
    });
    moved("moved out by the transform", 4096.0, 12, |d| {
        d.transform.x = 1.0
    });
    moved("moved out by the offset", 4096.0, 12, |d| d.offset.x = 1.0);
    moved("moved in by the offset", 4097.0, 0, |d| d.offset.x = -1.0);
    moved("y moved out by xy", 4096.0, 12, |d| d.transform.xy = 2.0);
    moved("scaled out", 2049.0, 12, |d| d.transform.xx = 2.0);
    moved("scaled to the limit", 2048.0, 0, |d| d.transform.xx = 2.0);
    moved("far away and back", 0.0, 0, |d| {
        (d.transform.x, d.offset.x) = (f32::MAX, f32::MIN);
    });
    moved("an offset that no point feels", 0.0, 12, |d| {
        d.offset.y = 4096.00390625;
    });
    let empty = k1_but(|d| {
        d.list.clear();
        d.offset.x = 4096.00390625;
    });
    rows.plain("an empty list far away", 0, empty);
}
