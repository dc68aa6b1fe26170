//! Each refusal's number, record and words, by every function that gives it.

use std::ops::Range;

use crate::{at, dice, faulty_labels, in_each_place, k1, told, JUST_BEYOND, JUST_WITHIN};
use mosszephyr::{
    bounds, draw, draw_band, draw_in_bands, placement, Command, Label, Origin, Path, Point,
    Refusal, Transform,
};
use Command::{CurveTo, LineTo, MoveTo, QuadTo};

/// K1's path in a band, at once and row by row, with so many bytes and words; both must stay as they
/// were.
fn band_refusal(label: &Label, band: Range<usize>, bytes: usize, count: usize) -> Refusal {
    let (mut mask, mut words) = (vec![7; bytes], vec![9; count]);
    let refusal = draw_band(k1(), label, band.clone(), &mut mask, &mut words).unwrap_err();
    let by_rows = draw_in_bands(k1(), label, band, 1, &mut mask, &mut words);
    assert_eq!(by_rows, Err(refusal));
    assert_eq!((refusal.record(), refusal.byte()), (None, None));
    assert_eq!(mask, vec![7; bytes]);
    assert_eq!(words, vec![9; count]);
    refusal
}

/// What a list is refused for by drawing, bounds and placement alike.
fn list_refusal(path: &Path) -> Refusal {
    let identity = Transform::identity();
    let refusal = draw(path, &Label::new(4, 3)).unwrap_err();
    assert_eq!(bounds(path, identity), Err(refusal));
    let placed = placement(path, identity, Point::ZERO, Origin::TopLeft);
    assert_eq!(placed, Err(refusal));
    refusal
}

/// K1's list with bytes behind it.
fn k1_and(bytes: &[u8]) -> Path {
    Path::from_bytes([k1().as_bytes(), bytes].concat())
}

#[test]
fn size_is_1() {
    for (width, height) in [(4097, 3), (4, 4097), (usize::MAX, usize::MAX)] {
        let label = Label::new(width, height);
        let refusal = band_refusal(&label, 0..3, 12, 19);
        assert_eq!((refusal, refusal.number()), (Refusal::Size, 1));
        let words = "the width or the height is above 4,096 pixels";
        assert_eq!(refusal.words(), words);
        assert_eq!(draw(k1(), &label), Err(refusal));
    }
}

#[test]
fn band_is_2() {
    let label = Label::new(4, 3);
    for (start, end) in [(2, 1), (0, 4), (usize::MAX, 0), (0, usize::MAX)] {
        let refusal = band_refusal(&label, Range { start, end }, 12, 19);
        assert_eq!((refusal, refusal.number()), (Refusal::Band, 2));
        assert_eq!(refusal.words(), "the band does not lie within the label");
    }
}

#[test]
fn pitch_is_3() {
    for pitch in [0, 3, 65_537, usize::MAX] {
        let label = Label {
            pitch,
            ..Label::new(4, 3)
        };
        let refusal = band_refusal(&label, 0..3, 12, 19);
        assert_eq!((refusal, refusal.number()), (Refusal::Pitch, 3));
        let words = "the pitch is below the width or above 65,536 bytes";
        assert_eq!(refusal.words(), words);
        assert_eq!(draw(k1(), &label), Err(refusal));
    }
}

#[test]
fn mask_is_4() {
    for bytes in [0, 11] {
        let refusal = band_refusal(&Label::new(4, 3), 0..3, bytes, 19);
        assert_eq!((refusal, refusal.number()), (Refusal::Mask, 4));
        assert_eq!(refusal.words(), "the mask is too short for the band");
    }
}

#[test]
fn workspace_is_5() {
    for count in [0, 2] {
        let refusal = band_refusal(&Label::new(4, 3), 0..3, 12, count);
        assert_eq!((refusal, refusal.number()), (Refusal::Workspace, 5));
        let words = "the workspace has fewer words than there are rows to draw";
        assert_eq!(refusal.words(), words);
    }
}

#[test]
fn float_is_6() {
    for part in [f32::NAN, f32::INFINITY, f32::NEG_INFINITY] {
        let label = Label {
            offset: Point::new(0.0, part),
            ..Label::new(4, 3)
        };
        let refusal = band_refusal(&label, 0..3, 12, 19);
        assert_eq!((refusal, refusal.number()), (Refusal::Float, 6));
        let words = "a transform entry or an offset part is NaN or infinite";
        assert_eq!(refusal.words(), words);
        assert_eq!(draw(k1(), &label), Err(refusal));
        let placed = placement(k1(), label.transform, label.offset, Origin::TopLeft);
        assert_eq!(placed, Err(refusal));
    }
}

#[test]
fn every_transform_entry_is_judged() {
    for at in 0..6 {
        let mut entries = [1.0, 0.0, 0.0, 1.0, 0.0, 0.0];
        entries[at] = f32::NAN;
        let [xx, xy, yx, yy, x, y] = entries;
        let transform = Transform::new(xx, xy, yx, yy, x, y);
        let refusal = bounds(k1(), transform).unwrap_err();
        assert_eq!(refusal, Refusal::Float, "entry {at}");
    }
}

#[test]
fn list_is_7() {
    let refusal = list_refusal(&Path::from_bytes(vec![0; 65_537]));
    assert_eq!((refusal, told(refusal)), (Refusal::List, (7, None, None)));
    let words = "the path list is longer than 65,536 bytes";
    assert_eq!(refusal.words(), words);
}

#[test]
fn cut_is_8() {
    for stray in 1..=3 {
        let refusal = list_refusal(&Path::from_bytes(vec![0; stray]));
        assert_eq!(told(refusal), at(8, 0, 0));
        let refusal = list_refusal(&k1_and(&vec![0; stray]));
        assert_eq!(told(refusal), at(8, 5, 52));
        assert!(matches!(refusal, Refusal::Cut(_)));
        assert_eq!(refusal.words(), "the end of the list cuts the record");
    }
    let body = list_refusal(&Path::from_bytes([10, 0, 2, 0]));
    assert_eq!(told(body), at(8, 0, 0), "a cut body beats 11");
}

#[test]
fn kind_is_9() {
    for kind in [[0, 0], [6, 0], [1, 1]] {
        let refusal = list_refusal(&k1_and(&[10, 0, kind[0], kind[1]]));
        assert_eq!(told(refusal), at(9, 5, 52), "9 beats a cut body");
        assert!(matches!(refusal, Refusal::Kind(_)));
        assert_eq!(refusal.words(), "the record's kind is not 1 to 5");
    }
}

#[test]
fn length_is_10() {
    for length in [[0, 0], [10, 0], [2, 1]] {
        let refusal = list_refusal(&k1_and(&[length[0], length[1], 5, 0]));
        assert_eq!(told(refusal), at(10, 5, 52));
        assert!(matches!(refusal, Refusal::Length(_)));
        assert_eq!(refusal.words(), "the record's length is not its kind's");
    }
}

#[test]
fn start_is_11() {
    let (mut close, mut line) = (Path::new(), Path::new());
    close.close();
    line.line_to((f32::NAN, 0.0));
    for path in [close, line] {
        let refusal = list_refusal(&path);
        assert_eq!(told(refusal), at(11, 0, 0), "11 beats 12");
        assert!(matches!(refusal, Refusal::Start(_)));
        assert_eq!(refusal.words(), "the first record is not a MoveTo");
    }
}

#[test]
fn point_is_12() {
    for far in [JUST_BEYOND, -JUST_BEYOND, 3e38, f32::INFINITY, f32::NAN] {
        let mut path = k1();
        path.move_to((0.0, 0.0))
            .curve_to((0.0, 0.0), (0.0, far), (0.0, 0.0));
        let refusal = list_refusal(&path);
        assert_eq!(told(refusal), at(12, 6, 64));
        assert!(matches!(refusal, Refusal::Point(Some(_))));
        let words = "a point is NaN, infinite, or 1/256 of a pixel or more beyond 4,096 from zero";
        assert_eq!(refusal.words(), words);
    }
}

/// Each part of each point of a record by itself, so far away; all others are 0.
fn far_parts(far: f32) -> impl Iterator<Item = Path> {
    let points = [(far, 0.0), (0.0, far), (-far, 0.0), (0.0, -far)].map(Point::from);
    let records = points.into_iter().flat_map(in_each_place);
    records.map(|record| [MoveTo(Point::ZERO), record].into_iter().collect())
}

#[test]
fn every_point_is_judged() {
    assert_eq!(JUST_BEYOND.to_bits(), JUST_WITHIN.to_bits() + 1);
    let identity = Transform::identity();
    for path in far_parts(4096.0).chain(far_parts(JUST_WITHIN)) {
        assert!(draw(&path, &Label::new(4, 3)).is_ok(), "{path:?}");
        assert!(bounds(&path, identity).is_ok(), "{path:?}");
        let placed = placement(&path, identity, Point::ZERO, Origin::TopLeft);
        assert!(placed.is_ok(), "{path:?}");
    }
    for path in far_parts(JUST_BEYOND) {
        assert_eq!(told(list_refusal(&path)), at(12, 1, 12), "{path:?}");
    }
}

/// With the offset added a point may be too far; bounds have no offset.
#[test]
fn points_are_judged_with_the_offset() {
    let (identity, mut path) = (Transform::identity(), Path::new());
    path.move_to((4096.0, -4096.0));
    for offset in [Point::new(1.0 / 256.0, 0.0), Point::new(0.0, -1.0 / 256.0)] {
        let label = Label {
            offset,
            ..Label::new(4, 3)
        };
        let refusal = draw(&path, &label).unwrap_err();
        assert_eq!(told(refusal), at(12, 0, 0));
        let placed = placement(&path, identity, offset, Origin::TopLeft);
        assert_eq!(placed, Err(refusal));
    }
    assert!(bounds(&path, identity).is_ok());
}

/// The offset of an empty path is judged by a placement only.
#[test]
fn offset_of_an_empty_path_is_12_in_a_placement() {
    let offset = Point::new(4096.5, 0.0);
    let placed = placement(
        Path::new(),
        Transform::identity(),
        offset,
        Origin::BottomLeft,
    );
    assert_eq!(placed, Err(Refusal::Point(None)));
    assert_eq!(told(placed.unwrap_err()), (12, None, None));
    let label = Label {
        offset,
        ..Label::new(1, 1)
    };
    assert!(draw(Path::new(), &label).is_ok());
}

/// K1 stores two places, so a pool of one is too small: the second is stored by the end.
#[test]
fn room_is_13() {
    let label = Label::new(4, 3);
    let words = "the drawing needs more places than the workspace has room for";
    for count in 3..11 {
        let (mut mask, mut lent) = ([7; 12], vec![9; count]);
        let refusal = draw_band(k1(), &label, 0..3, &mut mask, &mut lent).unwrap_err();
        let (place, expected) = match count {
            ..7 => ("record 2 (byte 24)", at(13, 2, 24)),
            _ => ("the list's end, record 5 (byte 52)", at(13, 5, 52)),
        };
        assert_eq!((told(refusal), refusal.words()), (expected, words));
        assert!(matches!(refusal, Refusal::Room { .. }));
        let said = format!("refused with 13 at {place}: {words}");
        assert_eq!(refusal.to_string(), said);
        assert_eq!((mask, lent), ([7; 12], vec![0; count]));
    }
    let (mut mask, mut words) = ([7; 12], [9; 11]);
    assert!(draw_band(k1(), &label, 0..3, &mut mask, &mut words).is_ok());
}

#[test]
fn after_close_is_18() {
    let p = Point::ZERO;
    for command in [LineTo(p), QuadTo(p, p), CurveTo(p, p, p)] {
        let mut path = k1();
        path.push(command);
        let refusal = list_refusal(&path);
        assert_eq!(told(refusal), at(18, 5, 52));
        assert!(matches!(refusal, Refusal::AfterClose(_)));
        let words = "the record draws directly after a Close, with no MoveTo between";
        assert_eq!(refusal.words(), words);
        let said = format!("refused with 18 at record 5 (byte 52): {words}");
        assert_eq!(refusal.to_string(), said);
    }
}

/// A list cut anywhere: whole records are a list, anything else is 8 at the record that is cut.
#[test]
fn every_cut_is_told() {
    let bytes = k1().into_bytes();
    let ends = [0, 12, 24, 36, 48, 52];
    for cut in 0..=bytes.len() {
        let path = Path::from_bytes(&bytes[..cut]);
        if ends.contains(&cut) {
            assert!(draw(&path, &Label::new(4, 3)).is_ok());
        } else {
            let record = cut / 12;
            assert_eq!(told(list_refusal(&path)), at(8, record, 12 * record));
        }
    }
}

/// Bytes of no meaning are answered too.
#[test]
fn any_bytes_are_answered() {
    let mut dice = dice(1);
    for length in 0..300 {
        let mut bytes: Vec<u8> = (0..length).map(|_| dice(256) as u8).collect();
        let noise = Path::from_bytes(bytes.clone());
        let accepted = draw(&noise, &Label::new(4, 3)).is_ok();
        assert_eq!(accepted, length == 0);
        bytes.splice(..0, [10, 0, 1, 0]);
        let moved = Path::from_bytes(bytes);
        let drawn = draw(&moved, &Label::new(4, 3));
        let bounded = bounds(&moved, Transform::identity());
        assert_eq!(drawn.err(), bounded.err());
    }
}

#[test]
fn refusals_come_in_their_order() {
    let [endless, narrow, wide] = faulty_labels();
    let number = |label: &Label, end, bytes, count| {
        let (mut mask, mut words) = (vec![0; bytes], vec![0; count]);
        let path = Path::from_bytes(vec![0; 65_537]);
        let drawn = draw_band(&path, label, 0..end, &mut mask, &mut words);
        drawn.unwrap_err().number()
    };
    assert_eq!(number(&wide, 4, 0, 0), 1);
    assert_eq!(number(&narrow, 4, 0, 0), 2);
    assert_eq!(number(&narrow, 3, 0, 0), 3);
    assert_eq!(number(&endless, 3, 0, 0), 4);
    assert_eq!(number(&endless, 3, 12, 0), 5);
    assert_eq!(number(&endless, 3, 12, 3), 6);
    assert_eq!(number(&Label::new(4, 3), 3, 12, 3), 7);
}

/// A refusal is an error as others are, and says its number, record and words.
#[test]
fn refusal_is_an_error() {
    let error: Box<dyn std::error::Error> = Box::new(list_refusal(&k1_and(&[2])));
    let said = "refused with 8 at record 5 (byte 52): the end of the list cuts the record";
    assert_eq!(error.to_string(), said);
    assert_eq!(format!("{error:?}"), said);
}
