//! Refusal 13 names the record that stores a place too many, or the list's end: of a label drawn at
//! once, of a band by itself, and of the first band that is full.

use std::ops::Range;

use crate::{at, closed, k1, open, rectangle, round_figure, small_figures, told, with_pool};
use mosszephyr::{draw_band, draw_in_bands, Command, Label, Origin, Path, Refusal, MOST_LIST};

/// The record of a 13. Its byte is behind all records before it, and the end is behind the last.
fn full_at(path: &Path, refusal: Refusal) -> usize {
    let Refusal::Room { at, at_end } = refusal else {
        panic!("{refusal}");
    };
    let commands: Vec<Command> = path.commands().map(Result::unwrap).collect();
    let before: Path = commands[..at.record].iter().collect();
    assert_eq!(at.byte, before.len());
    assert_eq!(at_end, at.record == commands.len());
    at.record
}

/// The record at which each pool is full that is too small, from no place on: one for each place that
/// is stored.
fn each_full_at(path: &Path, label: &Label, band: Range<usize>) -> Vec<usize> {
    let mut records = Vec::new();
    loop {
        match with_pool(path, label, band.clone(), records.len()) {
            Err(refusal) => records.push(full_at(path, refusal)),
            Ok(drawn) => {
                assert_eq!(drawn.cells, records.len());
                return records;
            }
        }
    }
}

/// The same of a whole label.
fn whole_full_at(path: &Path, width: usize, height: usize) -> Vec<usize> {
    each_full_at(path, &Label::new(width, height), 0..height)
}

/// The bands of so many rows, each of `step` of them and the last of what is left.
fn bands(rows: usize, step: usize) -> impl Iterator<Item = Range<usize>> {
    (0..rows)
        .step_by(step)
        .map(move |first| first..rows.min(first + step))
}

/// The first place is inked by record 1, and left by record 2, which inks nothing. The second is inked
/// and left by the Close or, where there is none, by the end.
#[test]
fn the_record_that_leaves_a_place_is_named() {
    let points = [(0.5, 0.0), (0.5, 0.5), (1.5, 0.5)];
    for (path, place) in [(closed(&points), ""), (open(&points), "the list's end, ")] {
        assert_eq!(whole_full_at(&path, 2, 1), [2, 3]);
        let second = with_pool(&path, &Label::new(2, 1), 0..1, 1).unwrap_err();
        let said = format!("refused with 13 at {place}record 3 (byte 36): ");
        assert!(second.to_string().starts_with(&said), "{second}");
    }
}

/// K1's path without its Close.
fn k1_unclosed() -> Path {
    open(&[(1.0, 1.0), (3.0, 1.0), (3.0, 2.0), (1.0, 2.0)])
}

/// What the end closes or stores has the number of records.
#[test]
fn the_end_is_behind_the_last_record() {
    assert_eq!(whole_full_at(&open(&[(0.0, 0.0)]), 1, 1), [1]);
    assert_eq!(whole_full_at(&k1(), 4, 3), [2, 5]);
    let mut twice = k1();
    twice.close();
    assert_eq!(whole_full_at(&twice, 4, 3), [2, 6]);
    assert_eq!(whole_full_at(&k1_unclosed(), 4, 3), [2, 4]);
    // K3, whose last place is stored though it is empty.
    let k3 = closed(&[(1.5, 2.0), (2.0, 2.0), (2.0, 1.0), (1.5, 1.0)]);
    assert_eq!(whole_full_at(&k3, 4, 3), [3, 4, 5]);
}

/// A subpath that is closed by a MoveTo counts to it, and so does the place that it leaves.
#[test]
fn a_move_to_closes_and_leaves() {
    let mut unclosed = k1_unclosed();
    unclosed.move_to((0.0, 0.0));
    assert_eq!(whole_full_at(&unclosed, 4, 3), [2, 4, 5]);
    let mut rows = open(&[(0.0, 0.0), (4.0, 0.0), (4.0, 4.0), (0.0, 4.0)]);
    rows.move_to((-9.0, -9.0));
    assert_eq!(whole_full_at(&rows, 4, 4), [4; 4]);
    let mut square = rectangle(0.0, 0.0, 1.0, 1.0);
    for _ in 0..3 {
        square.move_to((0.0, 0.0));
        assert_eq!(whole_full_at(&square, 1, 1), [5]);
    }
    let corners = [(0.25, 0.25), (0.75, 0.25), (0.25, 0.75)];
    for (mut path, last) in [(open(&corners), 3), (closed(&corners), 4)] {
        path.move_to((-9.0, -9.0));
        assert_eq!(whole_full_at(&path, 1, 1), [last]);
    }
}

/// The curves of docs/RULES.md, "Labels to try".
#[test]
fn a_curve_is_one_record() {
    let mut path = Path::new();
    path.move_to((0.0, 0.0)).quad_to((4.0, 0.0), (4.0, 4.0));
    path.line_to((0.0, 4.0)).close();
    let full = [1, 1, 1, 1, 1, 1, 1, 1, 3, 3, 3];
    assert_eq!(whole_full_at(&path, 5, 4), full);
    let mut path = Path::new();
    path.move_to((0.0, 0.0))
        .curve_to((0.0, 4.0), (4.0, 4.0), (4.0, 0.0))
        .close();
    assert_eq!(whole_full_at(&path, 4, 4), [1; 8]);
}

/// Four full rows, whose left side is drawn upward by the Close: the top row's place is stored by the
/// end, those below it by the Close. A column right of the label has none.
#[test]
fn a_band_has_a_record_of_its_own() {
    let (path, label) = (rectangle(0.0, 0.0, 4.0, 4.0), Label::new(4, 4));
    for (band, full) in [
        (0..4, vec![4, 4, 4, 5]),
        (0..1, vec![5]),
        (1..2, vec![4]),
        (0..2, vec![4, 5]),
        (1..3, vec![4, 4]),
        (3..4, vec![4]),
        (2..2, vec![]),
    ] {
        assert_eq!(each_full_at(&path, &label, band), full);
    }
    let mut words = [9; 6];
    let whole = draw_band(&path, &label, 0..4, &mut [7; 16], &mut words);
    assert_eq!(told(whole.unwrap_err()), at(13, 4, 48));
    let by_twos = draw_in_bands(&path, &label, 0..4, 2, &mut [7; 16], &mut words);
    assert_eq!(told(by_twos.unwrap_err()), at(13, 5, 52));
}

/// All rows of the same label have no room: the top one's refusal counts, though the others are full
/// at an earlier record, and wherever it stands in the mask.
#[test]
fn the_first_full_band_counts() {
    let path = rectangle(0.0, 0.0, 4.0, 4.0);
    for origin in [Origin::TopLeft, Origin::BottomLeft] {
        let label = Label {
            origin,
            ..Label::new(4, 4)
        };
        for (band, record, byte) in [(0..4, 5, 52), (1..4, 4, 48), (0..1, 5, 52)] {
            let (mut mask, mut words) = ([7; 16], [9; 4]);
            let refused = draw_in_bands(&path, &label, band, 1, &mut mask, &mut words);
            assert_eq!(told(refused.unwrap_err()), at(13, record, byte));
            assert_eq!((mask, words), ([7; 16], [0; 4]));
        }
    }
}

/// In bands a label is refused as the first of them is that is refused by itself, with the same words;
/// whether one is.
fn refused_as_alone(path: &Path, label: &Label, count: usize, step: usize) -> bool {
    let (mut mask, mut words) = (vec![7; label.width * label.height], vec![9; count]);
    let alone = bands(label.height, step)
        .find_map(|band| draw_band(path, label, band, &mut mask, &mut words).err());
    let drawn = draw_in_bands(path, label, 0..label.height, step, &mut mask, &mut words);
    assert_eq!(drawn.err(), alone, "{path:?}, {count} words by {step}");
    alone.is_some()
}

#[test]
fn bands_are_refused_as_by_themselves() {
    let (mut drawn, mut refused) = (0, 0);
    let figures = small_figures(13).take(60).map(|path| (path, 6, 5));
    for (path, width, height) in figures.chain([(round_figure(), 40, 30)]) {
        for count in (height..height + 4 * 40).step_by(3) {
            for step in [1, 2, 3, height - 1, height] {
                match refused_as_alone(&path, &Label::new(width, height), count, step) {
                    true => refused += 1,
                    false => drawn += 1,
                }
            }
        }
    }
    assert!(drawn > 1000 && refused > 1000, "{drawn} and {refused}");
}

/// No place is in two bands, and in its band each is stored by the same record as in the whole label.
#[test]
fn bands_store_what_the_whole_label_does() {
    let figures = small_figures(8).take(200).map(|path| (path, 6, 5));
    for (path, width, height) in figures.chain([(round_figure(), 40, 30)]) {
        let label = Label::new(width, height);
        let whole = each_full_at(&path, &label, 0..height);
        assert!(whole.is_sorted(), "{path:?}");
        for step in [1, 2, 3] {
            let full = |band| each_full_at(&path, &label, band);
            let mut in_bands: Vec<usize> = bands(height, step).flat_map(full).collect();
            in_bands.sort_unstable();
            assert_eq!(in_bands, whole, "{path:?} by {step}");
        }
    }
}

/// Cut behind the record that is named, a list is refused with the same one; cut before it, by its own
/// end or not at all.
#[test]
fn records_behind_it_have_no_say() {
    let label = Label::new(6, 5);
    for path in small_figures(21).take(200) {
        let commands: Vec<Command> = path.commands().map(Result::unwrap).collect();
        for (pool, &record) in each_full_at(&path, &label, 0..5).iter().enumerate() {
            for end in 0..=commands.len() {
                let cut: Path = commands[..end].iter().collect();
                match with_pool(&cut, &label, 0..5, pool) {
                    Err(refusal) => assert_eq!(full_at(&cut, refusal), record.min(end)),
                    Ok(_) => assert!(end <= record, "{path:?} up to {end}"),
                }
            }
        }
    }
}

/// A record's own fault comes first, also behind the record that finds no room.
#[test]
fn faults_behind_it_come_first() {
    let mut far = Path::new();
    far.move_to((0.0, f32::NAN));
    let mut line = Path::new();
    line.line_to((2.0, 2.0));
    for (behind, number) in [
        (&[2][..], 8),
        (&[2, 0, 6, 0], 9),
        (&[4, 0, 5, 0], 10),
        (far.as_bytes(), 12),
        (line.as_bytes(), 18),
    ] {
        let list = [k1().as_bytes(), behind].concat();
        let (mut mask, mut words) = ([7; 12], [9; 3]);
        let refused = draw_band(&list, &Label::new(4, 3), 0..3, &mut mask, &mut words);
        assert_eq!(told(refused.unwrap_err()), at(number, 5, 52));
        assert_eq!((mask, words), ([7; 12], [9; 3]));
    }
}

/// As many records as there can be, and a place that only the end stores.
#[test]
fn the_longest_list_ends_at_its_length() {
    let mut path = open(&[(0.0, 0.0)]);
    path.extend(std::iter::repeat_n(Command::Close, 16_381));
    let refusal = with_pool(&path, &Label::new(1, 1), 0..1, 0).unwrap_err();
    assert_eq!(told(refusal), at(13, 16_382, MOST_LIST));
}
