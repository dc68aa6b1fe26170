//! A list read back as commands, and refused as the library refuses it.

use crate::{dice, k1, round_figure};
use mosszephyr::{commands, draw_band, Command, Label, Path, Point, Refusal};
use Command::{Close, CurveTo, LineTo, MoveTo, QuadTo};

/// Every command; no two numbers are alike.
const EVERY: [Command; 5] = [
    MoveTo(Point::new(1.0, 2.5)),
    LineTo(Point::new(-3.25, 4.0)),
    QuadTo(Point::new(5.0, 6.0), Point::new(7.0, 8.0)),
    CurveTo(
        Point::new(9.0, 10.0),
        Point::new(11.0, 12.0),
        Point::new(13.0, 14.0),
    ),
    Close,
];

/// The same by the methods that are named like them.
fn every() -> Path {
    let mut path = Path::new();
    path.move_to((1.0, 2.5))
        .line_to((-3.25, 4.0))
        .quad_to((5.0, 6.0), (7.0, 8.0))
        .curve_to((9.0, 10.0), (11.0, 12.0), (13.0, 14.0))
        .close();
    path
}

#[test]
fn commands_are_written_as_by_the_methods() {
    let mut pushed = Path::new();
    for command in EVERY {
        pushed.push(command);
    }
    assert_eq!(pushed, every());
    assert_eq!(EVERY.into_iter().collect::<Path>(), every());
    assert_eq!(EVERY.iter().collect::<Path>(), every());
    let mut twice = every();
    twice.extend(EVERY);
    twice.extend(EVERY.iter().take(2));
    assert_eq!(twice.as_bytes()[..76], *every().as_bytes());
    assert_eq!(twice.as_bytes()[76..152], *every().as_bytes());
    assert_eq!(twice.as_bytes()[152..], every().as_bytes()[..24]);
}

#[test]
fn commands_come_back() {
    let read: Vec<Command> = every().commands().map(Result::unwrap).collect();
    assert_eq!(read, EVERY);
    assert_eq!(Path::new().commands().next(), None);
}

/// The examples of docs/RULES.md, "The path list".
#[test]
fn the_rules_examples_are_read() {
    let list = [
        0x0A, 0, 1, 0, 0, 0, 0x80, 0x3F, 0, 0, 0x80, 0x3F, // MoveTo (1, 1)
        0x0A, 0, 2, 0, 0, 0, 0x20, 0x40, 0, 0, 0, 0xBF, // LineTo (2.5, −0.5)
        0x12, 0, 3, 0, 0, 0, 0x80, 0x40, 0, 0, 0, 0, // QuadTo (4, 0),
        0, 0, 0x80, 0x40, 0, 0, 0x80, 0x40, // (4, 4)
        0x1A, 0, 4, 0, 0, 0, 0, 0, 0, 0, 0x80, 0x40, // CurveTo (0, 4),
        0, 0, 0x80, 0x40, 0, 0, 0x80, 0x40, // (4, 4),
        0, 0, 0x80, 0x40, 0, 0, 0, 0, // (4, 0)
        2, 0, 5, 0,
    ];
    let expected = [
        MoveTo(Point::new(1.0, 1.0)),
        LineTo(Point::new(2.5, -0.5)),
        QuadTo(Point::new(4.0, 0.0), Point::new(4.0, 4.0)),
        CurveTo(
            Point::new(0.0, 4.0),
            Point::new(4.0, 4.0),
            Point::new(4.0, 0.0),
        ),
        Close,
    ];
    assert!(commands(&list).eq(expected.map(Ok)));
}

#[test]
fn floats_come_back_bit_for_bit() {
    let parts = [-0.0, 1e-45, f32::MAX, f32::NEG_INFINITY, f32::NAN, -3.25];
    let [a, b, c, d, e, f] = parts;
    let mut path = Path::new();
    path.move_to((a, b)).curve_to((c, d), (e, f), (b, a));
    let read: Path = path.commands().map(Result::unwrap).collect();
    assert_eq!(read.as_bytes(), path.as_bytes());
}

/// What the library says of a list and what its reading ends with.
fn read_as_judged(list: &[u8]) {
    let judged = draw_band(list, &Label::new(1, 1), 0..0, &mut [], &mut []);
    let mut read = commands(list);
    let good = read.by_ref().map_while(Result::ok).count();
    let refused = commands(list).find_map(Result::err);
    match judged {
        Ok(drawn) => assert_eq!((good, refused), (drawn.records, None), "{list:?}"),
        Err(Refusal::Point(at)) => assert!(good > at.unwrap().record, "{list:?}"),
        Err(refusal) => {
            assert_eq!(refused, Some(refusal), "{list:?}");
            assert_eq!(refusal.record(), Some(good));
        }
    }
    assert_eq!(
        (read.next(), read.next()),
        (None, None),
        "nothing behind the end"
    );
}

/// Each byte changed, left out, doubled, and the list cut there.
#[test]
fn damaged_lists_are_refused_as_the_library_refuses_them() {
    for list in [every(), k1(), round_figure()] {
        let list = list.into_bytes();
        for at in 0..list.len() {
            for value in [0, 1, 2, 3, 4, 5, 6, 10, 18, 26, 128, 255] {
                let mut damaged = list.clone();
                damaged[at] = value;
                read_as_judged(&damaged);
                damaged.truncate(list.len() - 1);
                read_as_judged(&damaged);
            }
            read_as_judged(&list[..at]);
            read_as_judged(&list[at..]);
            read_as_judged(&[&list[..at], &list[at + 1..]].concat());
            read_as_judged(&[&list[..=at], &list[at..]].concat());
        }
    }
}

/// Every part of a list, from any byte to any other: among them records of each kind that begin a
/// list and are cut.
#[test]
fn parts_of_a_list_are_refused_as_the_library_refuses_them() {
    let list = every().into_bytes();
    for first in 0..list.len() {
        for end in first..=list.len() {
            read_as_judged(&list[first..end]);
        }
    }
}

/// Records of any kind with any length, some of them right, in front of bytes of no meaning.
#[test]
fn bytes_of_no_meaning_are_refused_as_the_library_refuses_them() {
    let mut dice = dice(5);
    for _ in 0..4000 {
        let mut list = Vec::new();
        for _ in 0..dice(5) {
            let kind = dice(7) as u16;
            let right = [2, 10, 10, 18, 26, 2, 10][usize::from(kind)];
            let length = if dice(8) == 0 { dice(30) as u16 } else { right };
            list.extend(length.to_le_bytes());
            list.extend(if dice(4) == 0 { kind } else { 1 + kind % 2 }.to_le_bytes());
            list.extend((2..length).map(|_| dice(64) as u8));
        }
        list.extend((0..dice(4)).map(|_| dice(256) as u8));
        read_as_judged(&list);
    }
}

/// A path that is too long to be drawn can be read.
#[test]
fn reading_has_no_limit() {
    let mut path = k1();
    path.extend(std::iter::repeat_n(Close, 20_000));
    assert!(path.as_bytes().len() > mosszephyr::MOST_LIST);
    assert_eq!(path.commands().filter(Result::is_ok).count(), 20_005);
}

#[test]
fn a_path_is_shown_as_commands() {
    let mut path = Path::new();
    path.move_to((1.0, 2.5)).close();
    let shown = "[MoveTo(Point { x: 1.0, y: 2.5 }), Close]";
    assert_eq!(format!("{path:?}"), shown);
    let cut = Path::from_bytes([path.as_bytes(), &[2, 0]].concat());
    let shown = "[MoveTo(Point { x: 1.0, y: 2.5 }), Close, \
                 refused with 8 at record 2 (byte 16): the end of the list cuts the record]";
    assert_eq!(format!("{cut:?}"), shown);
    path.line_to((3.0, 4.0)).close();
    let shown = "[MoveTo(Point { x: 1.0, y: 2.5 }), Close, \
                 refused with 18 at record 2 (byte 16): \
                 the record draws directly after a Close, with no MoveTo between]";
    assert_eq!(format!("{path:?}"), shown);
    assert_eq!(format!("{:?}", Path::new()), "[]");
}
