//! A label's bands as a printer takes them, lent from one buffer.

use std::ops::Range;

use crate::{comb, faulty_labels, k1, rectangle, round_figure};
use mosszephyr::{draw, Label, Origin, Path, Refusal, Workspace};

/// The rows of each band, and the picture that they make together without the pitch's gaps.
fn printed(list: &Path, label: &Label, bytes: usize) -> (Vec<Range<usize>>, Vec<u8>) {
    let (mut workspace, mut buffer) = (Workspace::new(), vec![7; bytes]);
    let mut bands = workspace.bands(list, label, &mut buffer).unwrap();
    let (mut rows, mut picture) = (Vec::new(), Vec::new());
    while let Some(band) = bands.next() {
        assert_eq!(
            band.mask().len(),
            label.pitch * (band.rows().len() - 1) + label.width
        );
        for index in 0..band.rows().len() {
            let from = band.pitch() * index;
            assert_eq!(band.row(index), &band.mask()[from..from + label.width]);
            picture.extend(band.row(index));
        }
        rows.push(band.rows());
    }
    assert!(bands.next().is_none(), "behind the last band there is none");
    (rows, picture)
}

/// pitch · (rows − 1) + width bytes hold so many rows, and a byte less holds one row less.
#[test]
fn bands_have_as_many_rows_as_the_buffer_holds() {
    let label = Label {
        pitch: 7,
        ..Label::new(4, 5)
    };
    let bands = |bytes| printed(&k1(), &label, bytes).0;
    assert_eq!(bands(4), [0..1, 1..2, 2..3, 3..4, 4..5]);
    assert_eq!(bands(10), bands(4));
    assert_eq!(bands(11), [0..2, 2..4, 4..5]);
    assert_eq!(bands(17), bands(11));
    assert_eq!(bands(18), [0..3, 3..5]);
    assert_eq!(bands(25), [0..4, 4..5]);
    assert_eq!(bands(31), bands(25));
    assert_eq!(bands(32), [Range { start: 0, end: 5 }]);
    assert_eq!(bands(1000), bands(32));
}

/// Rows from the top: where y points up, the path's last rows come first.
#[test]
fn bands_come_from_the_pictures_top() {
    let path = rectangle(1.0, 0.0, 3.0, 1.0);
    let down = Label::new(4, 3);
    let up = Label {
        origin: Origin::BottomLeft,
        ..down
    };
    let (clear, inked) = ([0; 4], [0, 255, 255, 0]);
    assert_eq!(printed(&path, &down, 8).1, [inked, clear, clear].concat());
    assert_eq!(printed(&path, &up, 8).1, [clear, clear, inked].concat());
}

#[test]
fn bands_together_are_the_picture() {
    for origin in [Origin::TopLeft, Origin::BottomLeft] {
        let label = Label {
            origin,
            pitch: 43,
            ..Label::new(40, 30)
        };
        let whole: Vec<u8> = draw(round_figure(), &label)
            .unwrap()
            .rows()
            .collect::<Vec<_>>()
            .concat();
        for rows in [1, 4, 7, 29, 30] {
            assert_eq!(printed(&round_figure(), &label, 43 * rows).1, whole);
        }
    }
}

/// Bands with more places than there is room for are drawn too: 257 in each of 70 rows, and 4,097
/// in each of 5.
#[test]
fn bands_full_of_places_are_drawn() {
    for (width, height, held) in [(256, 100, 70), (4096, 7, 5)] {
        let path = comb(width, height);
        for origin in [Origin::TopLeft, Origin::BottomLeft] {
            let label = Label {
                origin,
                ..Label::new(width.into(), height.into())
            };
            let (rows, picture) = printed(&path, &label, label.width * held);
            assert_eq!(rows, [0..held, held..label.height]);
            assert!(picture == draw(&path, &label).unwrap().mask());
        }
    }
}

#[test]
fn a_label_without_rows_has_no_band() {
    assert_eq!(printed(&k1(), &Label::new(4, 0), 0), (vec![], vec![]));
}

#[test]
fn rows_without_pixels_are_lent() {
    assert_eq!(
        printed(&k1(), &Label::new(0, 3), 0),
        (vec![Range { start: 0, end: 3 }], vec![])
    );
    let spaced = Label {
        pitch: 2,
        ..Label::new(0, 3)
    };
    assert_eq!(printed(&k1(), &spaced, 2), (vec![0..2, 2..3], vec![]));
}

#[test]
fn rows_end_with_the_band() {
    let (path, mut workspace, mut buffer) = (k1(), Workspace::new(), [0; 8]);
    let mut bands = workspace
        .bands(&path, &Label::new(4, 3), &mut buffer)
        .unwrap();
    bands.next();
    let last = bands.next().unwrap();
    assert_eq!((last.rows(), last.mask().len()), (2..3, 4));
    for index in [1, usize::MAX] {
        let row = std::panic::catch_unwind(|| last.row(index).len());
        assert!(row.is_err());
    }
}

fn refusal(list: &[u8], label: &Label, bytes: usize) -> Refusal {
    let (mut workspace, mut buffer) = (Workspace::new(), vec![7; bytes]);
    let refused = workspace.bands(list, label, &mut buffer).map(drop);
    assert!(buffer.iter().all(|&byte| byte == 7));
    refused.unwrap_err()
}

/// Each fault hides those behind it.
#[test]
fn refusals_come_before_any_band_in_their_order() {
    let long = vec![0; 65_537];
    let [endless, narrow, wide] = faulty_labels();
    assert_eq!(refusal(&long, &wide, 3), Refusal::Size);
    assert_eq!(refusal(&long, &narrow, 3), Refusal::Pitch);
    assert_eq!(refusal(&long, &endless, 3), Refusal::Mask);
    assert_eq!(refusal(&long, &endless, 4), Refusal::Float);
    assert_eq!(refusal(&long, &Label::new(4, 3), 4), Refusal::List);
    assert_eq!(refusal(&long, &Label::new(4, 0), 0), Refusal::List);
}

/// A fault in the last record is found before the first row is printed.
#[test]
fn the_whole_list_is_judged_first() {
    let label = Label::new(4, 3);
    let cut = [k1().as_bytes(), &[2]].concat();
    let found = refusal(&cut, &label, 4);
    assert_eq!((found.number(), found.byte()), (8, Some(52)));
    let mut far = k1();
    far.move_to((0.0, 5000.0));
    let found = refusal(far.as_bytes(), &label, 4);
    assert_eq!((found.number(), found.record()), (12, Some(5)));
    let mut after_close = k1();
    after_close.line_to((0.0, 5000.0));
    let found = refusal(after_close.as_bytes(), &label, 4);
    assert_eq!((found.number(), found.byte()), (18, Some(52)));
}

#[test]
fn one_workspace_and_one_buffer_serve_many_labels() {
    let (mut workspace, mut buffer) = (Workspace::new(), vec![7; 200]);
    for (path, width, height) in [
        (round_figure(), 40, 30),
        (k1(), 4, 3),
        (round_figure(), 17, 30),
    ] {
        let label = Label::new(width, height);
        let mut bands = workspace.bands(&path, &label, &mut buffer).unwrap();
        let mut picture: Vec<u8> = Vec::new();
        while let Some(band) = bands.next() {
            picture.extend(band.mask());
        }
        assert_eq!(picture, draw(&path, &label).unwrap().mask());
    }
}
