//! Refusal 18, nothing is drawn directly behind a Close: by every function that takes a list, in its
//! place among the others; and what may stand there.

use std::ops::Range;

use crate::{counts, dice, drawn, faulty_labels, k1, on_grid, rectangle, JUST_BEYOND};
use mosszephyr::{
    bounds, commands, draw, draw_band, draw_in_bands, placement, Command, Label, Origin, Path,
    Point, Refusal, Transform, Workspace, MOST_LIST,
};
use Command::{Close, CurveTo, LineTo, MoveTo, QuadTo};

/// A command for each letter, which are SVG's: M, L, Q, C, and Z for Close. A small one has a NaN in
/// its last point.
fn list(letters: &str) -> Path {
    letters.chars().map(command).collect()
}

fn command(letter: char) -> Command {
    let near = Point::new(1.0, 2.0);
    let last = match letter.is_ascii_lowercase() {
        true => Point::new(1.0, f32::NAN),
        false => near,
    };
    match letter.to_ascii_uppercase() {
        'M' => MoveTo(last),
        'L' => LineTo(last),
        'Q' => QuadTo(near, last),
        'C' => CurveTo(near, near, last),
        'Z' => Close,
        other => panic!("no command is {other}"),
    }
}

/// What the rules say of such a list: how many records it has, or a number and a record.
fn ruled(letters: &str) -> Result<usize, (u32, usize)> {
    let mut before = None;
    for (record, letter) in letters.chars().enumerate() {
        match (before, letter) {
            (None, 'L' | 'Q' | 'C' | 'l' | 'q' | 'c' | 'Z') => return Err((11, record)),
            (Some('Z'), 'L' | 'Q' | 'C' | 'l' | 'q' | 'c') => return Err((18, record)),
            (_, 'm' | 'l' | 'q' | 'c') => return Err((12, record)),
            _ => before = Some(letter),
        }
    }
    Ok(letters.len())
}

/// How many records a list has, or its refusal, by every function that takes one.
fn judged(list: &[u8]) -> Result<usize, Refusal> {
    let label = Label::new(4, 3);
    let answer = draw(list, &label).map(|picture| picture.records());
    for band in [0..3, 1..2, 2..2] {
        for step in [None, Some(0), Some(2), Some(usize::MAX)] {
            let drawn = in_rows(list, &label, band.clone(), step);
            assert_eq!(drawn, answer, "{band:?} by {step:?}");
        }
    }
    assert_eq!(by_a_workspace(list, &label), answer);
    let identity = Transform::identity();
    assert_eq!(bounds(list, identity).err(), answer.err());
    for origin in [Origin::TopLeft, Origin::BottomLeft] {
        let placed = placement(list, identity, Point::ZERO, origin);
        assert_eq!(placed.err(), answer.err());
    }
    // A reading has no length that is too long, and judges no point.
    if !matches!(answer, Err(Refusal::List | Refusal::Point(_))) {
        let read: Result<Vec<Command>, Refusal> = commands(list).collect();
        assert_eq!(read.map(|read| read.len()), answer);
    }
    answer
}

/// A band at once, or with a step in bands. A refusal leaves mask and words as they were.
fn in_rows(
    list: &[u8],
    label: &Label,
    band: Range<usize>,
    step: Option<usize>,
) -> Result<usize, Refusal> {
    let (mut mask, mut words) = ([7; 12], [9; 63]);
    let drawn = match step {
        None => draw_band(list, label, band, &mut mask, &mut words),
        Some(step) => draw_in_bands(list, label, band, step, &mut mask, &mut words),
    };
    if drawn.is_err() {
        assert_eq!((mask, words), ([7; 12], [9; 63]));
    }
    drawn.map(|drawn| drawn.records)
}

/// By both drawings of a workspace. A refusal leaves the mask as it was, and lends no band.
fn by_a_workspace(list: &[u8], label: &Label) -> Result<usize, Refusal> {
    let (mut workspace, mut mask, mut buffer) = (Workspace::new(), [7; 12], [7; 4]);
    let lent = workspace.bands(list, label, &mut buffer).map(drop);
    let drawn = workspace.draw(list, label, &mut mask);
    assert_eq!(lent.err(), drawn.err());
    if drawn.is_err() {
        assert_eq!((mask, buffer), ([7; 12], [7; 4]));
    }
    drawn.map(|drawn| drawn.records)
}

/// The list of these letters is judged as the rules say, and its byte is that behind the records
/// before.
fn judged_as_ruled(letters: &str) {
    let answer = judged(list(letters).as_bytes());
    let told = answer.map_err(|refusal| (refusal.number(), refusal.record().unwrap()));
    assert_eq!(told, ruled(letters), "{letters}");
    if let Err(refusal) = answer {
        let before = list(&letters[..refusal.record().unwrap()]);
        assert_eq!(refusal.byte(), Some(before.len()), "{letters}");
    }
}

/// Each list of up to so many of these letters.
fn every_list(letters: &str, most: usize) -> Vec<String> {
    let mut lists = vec![String::new()];
    let mut at = 0;
    while lists[at].len() < most {
        for letter in letters.chars() {
            lists.push(format!("{}{letter}", lists[at]));
        }
        at += 1;
    }
    lists
}

#[test]
fn every_short_list_is_judged_as_ruled() {
    for letters in every_list("MLQCZmlqc", 4) {
        judged_as_ruled(&letters);
    }
    for letters in every_list("MLZ", 6) {
        judged_as_ruled(&letters);
    }
}

/// Lists of up to 300 records, good up to a letter drawn by dice here and there.
#[test]
fn long_lists_are_judged_as_ruled() {
    let mut dice = dice(18);
    for _ in 0..300 {
        let mut letters = String::from("M");
        for _ in 0..dice(300) {
            let choice = match (dice(60), letters.ends_with('Z')) {
                (0, _) => "MLQCZmlqc",
                (_, true) => "MZ",
                (_, false) => "MLQCZ",
            };
            let at = dice(choice.len() as u32) as usize;
            letters.push_str(&choice[at..=at]);
        }
        judged_as_ruled(&letters);
    }
}

/// Worked by hand.
#[test]
fn the_record_directly_before_decides() {
    for (letters, expected) in [
        ("MZL", Err((18, 2))),
        ("MZQ", Err((18, 2))),
        ("MZC", Err((18, 2))),
        ("MLZZL", Err((18, 4))),
        ("MZMLZL", Err((18, 5))),
        ("MLZMLZMLZCZ", Err((18, 9))),
        ("MZZ", Ok(3)),
        ("MZM", Ok(3)),
        ("MLZML", Ok(5)),
        ("MZMLL", Ok(5)),
        ("MZZMQZZMCZ", Ok(10)),
        // 11 comes before it, and 12 behind it.
        ("Z", Err((11, 0))),
        ("ZL", Err((11, 0))),
        ("L", Err((11, 0))),
        ("MZl", Err((18, 2))),
        ("MZZl", Err((18, 3))),
        ("MZm", Err((12, 2))),
        // Of two records the first decides.
        ("mZL", Err((12, 0))),
        ("MlZL", Err((12, 1))),
        ("MZLl", Err((18, 2))),
        ("MZLZC", Err((18, 2))),
    ] {
        assert_eq!(ruled(letters), expected, "{letters}");
        judged_as_ruled(letters);
    }
}

/// Number, record and byte of a list that is refused.
fn told(list: &[u8]) -> (u32, usize, usize) {
    let refusal = judged(list).unwrap_err();
    let at = refusal.record().zip(refusal.byte());
    let (record, byte) = at.expect("a record is at fault");
    (refusal.number(), record, byte)
}

/// A record behind a Close, cut anywhere: 8 as long as it is not whole.
#[test]
fn a_cut_record_is_8() {
    for letters in ["MZL", "MZQ", "MZC", "MZl", "MZq", "MZc"] {
        let list = list(letters).into_bytes();
        for end in 17..list.len() {
            assert_eq!(told(&list[..end]), (8, 2, 16), "{letters} up to {end}");
        }
        assert_eq!(told(&list), (18, 2, 16));
        for stray in 1..=3 {
            let behind = [&list[..], &[0; 3][..stray]].concat();
            assert_eq!(told(&behind), (18, 2, 16), "{stray} bytes behind {letters}");
        }
    }
}

/// Of a record behind a Close, whole or cut, a wrong kind is 9 and a wrong length is 10.
#[test]
fn a_wrong_kind_is_9_and_a_wrong_length_is_10() {
    for letters in ["MZL", "MZQ", "MZC", "MZl", "MZq", "MZc"] {
        let list = list(letters).into_bytes();
        for (at, byte, number) in [(18, 0, 9), (18, 6, 9), (19, 1, 9), (16, 2, 10), (17, 1, 10)] {
            let mut wrong = list.clone();
            wrong[at] = byte;
            assert_eq!(told(&wrong), (number, 2, 16), "{letters}, byte {at}");
            wrong.truncate(20);
            assert_eq!(told(&wrong), (number, 2, 16), "{letters} cut, byte {at}");
        }
    }
}

/// A point that fails the point rule by its transform or its offset alone is 18 behind a Close too.
#[test]
fn no_point_is_judged_before_it() {
    let mut path = Path::new();
    path.move_to((0.0, 0.0)).close().line_to((4096.0, 0.0));
    let far = Transform::scale(JUST_BEYOND / 4096.0, 1.0);
    let offset = Point::new(1.0 / 256.0, 0.0);
    let moved = Label {
        offset,
        ..Label::new(4, 3)
    };
    let scaled = Label {
        transform: far,
        ..Label::new(4, 3)
    };
    let refusal = draw(&path, &moved).unwrap_err();
    assert_eq!((refusal.number(), refusal.record()), (18, Some(2)));
    assert_eq!(draw(&path, &scaled), Err(refusal));
    assert_eq!(bounds(&path, far), Err(refusal));
    let placed = placement(&path, Transform::identity(), offset, Origin::TopLeft);
    assert_eq!(placed, Err(refusal));
}

/// 1 to 7 come before it, and 13, for which there is no room here, behind it.
#[test]
fn the_labels_faults_come_first_and_room_comes_last() {
    let mut path = rectangle(0.0, 0.0, 4.0, 3.0);
    path.line_to((2.0, 2.0));
    let number = |label: &Label, end, bytes, count| {
        let (mut mask, mut words) = (vec![7; bytes], vec![9; count]);
        let drawn = draw_band(&path, label, 0..end, &mut mask, &mut words);
        let in_bands = draw_in_bands(&path, label, 0..end, 1, &mut mask, &mut words);
        assert_eq!(in_bands, drawn);
        assert_eq!((mask, words), (vec![7; bytes], vec![9; count]));
        drawn.unwrap_err().number()
    };
    let label = Label::new(4, 3);
    let narrow = Label { pitch: 3, ..label };
    let [endless, ..] = faulty_labels();
    assert_eq!(number(&Label::new(4097, 3), 3, 12, 3), 1);
    assert_eq!(number(&label, 4, 16, 4), 2);
    assert_eq!(number(&narrow, 3, 12, 3), 3);
    assert_eq!(number(&label, 3, 11, 3), 4);
    assert_eq!(number(&label, 3, 12, 2), 5);
    assert_eq!(number(&endless, 3, 12, 3), 6);
    assert_eq!(number(&label, 3, 12, 3), 18);
    let endless = Transform::translation(f32::INFINITY, 0.0);
    assert_eq!(bounds(&path, endless), Err(Refusal::Float));
    let placed = placement(&path, endless, Point::ZERO, Origin::TopLeft);
    assert_eq!(placed, Err(Refusal::Float));
}

/// A line that ends the longest list, behind as many Closes as there is room for; a byte more is 7.
#[test]
fn the_last_record_of_the_longest_list_is_judged() {
    let mut path = list("M");
    path.extend(std::iter::repeat_n(Close, 16_378));
    path.line_to((1.0, 2.0));
    let mut list = path.into_bytes();
    assert_eq!(list.len(), MOST_LIST);
    assert_eq!(told(&list), (18, 16_379, 65_524));
    list.push(0);
    assert_eq!(judged(&list), Err(Refusal::List));
}

/// Commands put behind a path that ends with a Close.
#[test]
fn a_path_does_not_look_back() {
    let line = [LineTo(Point::new(3.0, 3.0)), Close];
    let mut extended = k1();
    extended.extend(line);
    let mut pushed = k1();
    pushed.push(line[0]).push(line[1]);
    let mut by_reference = k1();
    by_reference.extend(line.iter());
    let joined = [k1().as_bytes(), list("LZ").as_bytes()].concat();
    for path in [extended, pushed, by_reference, Path::from_bytes(joined)] {
        assert_eq!(told(path.as_bytes()), (18, 5, 52));
    }
}

/// A second Close changes no pixel, and a MoveTo begins another figure.
#[test]
fn what_may_stand_behind_a_close_is_drawn() {
    let mut twice = k1();
    twice.close();
    let (once, picture) = (drawn(&k1(), 4, 3), drawn(&twice, 4, 3));
    assert_eq!(picture.mask(), once.mask());
    assert_eq!(counts(&picture), on_grid(6, once.cells()));
    let corner = rectangle(0.0, 0.0, 1.0, 1.0);
    let both = Path::from_bytes([twice.as_bytes(), corner.as_bytes()].concat());
    let picture = drawn(&both, 4, 3);
    assert_eq!(picture.mask(), [255, 0, 0, 0, 0, 255, 255, 0, 0, 0, 0, 0]);
    assert_eq!(counts(&picture), on_grid(11, 4));
}
