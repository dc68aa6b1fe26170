//! The masks that the tests of the bindings go by, bindings/worked/: what zeno draws, and the
//! numbers that bindings/worked/README.md tells of it.

use crate::alone;
use crate::drawing::{Drawing, Way};
use crate::driver::{outcome, outcome_in, Outcome};
use crate::oracle::{Fill, Point, Transform};

const LIST: &[u8] = include_bytes!("../../bindings/worked/slanted.mzp");
const EVEN_ODD: &[u8] = include_bytes!("../../bindings/worked/slanted_even_odd.mask");
const NONZERO: &[u8] = include_bytes!("../../bindings/worked/slanted_nonzero.mask");
const WORDS: usize = 123;

fn slanted(fill: Fill, words: usize) -> Drawing {
    Drawing {
        list: LIST.to_vec(),
        transform: Transform::new(1.25, 0.375, -0.5, 0.875, 6.5, 1.75),
        offset: Point::new(1.125, -2.25),
        fill,
        up: true,
        width: 24,
        height: 17,
        pitch: 29,
        first: 3,
        end: 14,
        mask: vec![0xA5; 29 * 10 + 24],
        words: vec![7; words],
    }
}

#[test]
fn the_stored_masks_are_zenos() {
    for (fill, mask) in [(Fill::EvenOdd, EVEN_ODD), (Fill::NonZero, NONZERO)] {
        let drawn = outcome(&slanted(fill, 1000));
        assert_eq!(counts(&drawn), (0, 12, 93, 0));
        assert_eq!(drawn.mask, mask, "{fill:?}");
    }
}

/// The number, records, cells and coordinates cut.
fn counts(drawn: &Outcome) -> (u8, usize, usize, usize) {
    (drawn.number, drawn.records, drawn.cells, drawn.cut)
}

/// Moved off the grid by so many 1024ths in x and y: coordinates are cut, and zeno draws what it drew.
#[test]
fn off_the_grid_the_masks_stay() {
    let moved = [
        (1.0, 0.0, 13),
        (0.0, 3.0, 13),
        (1.0, 3.0, 26),
        (2.0, 1.0, 26),
    ];
    for fill in [Fill::EvenOdd, Fill::NonZero] {
        for (x, y, cut) in moved {
            let mut off = slanted(fill, 1000);
            off.offset = off.offset + Point::new(x / 1024.0, y / 1024.0);
            let on_grid = outcome(&slanted(fill, 1000));
            assert_eq!(outcome(&off), Outcome { cut, ..on_grid });
        }
    }
}

/// A band of one row has no more places than the band of three that it is part of.
#[test]
fn three_rows_and_one_are_the_only_steps() {
    let accepted = |step: &usize| {
        let drawn = outcome_in(&slanted(Fill::EvenOdd, WORDS), Way::InBands(*step));
        assert!(drawn.number == 0 || drawn.number == 13, "{}", drawn.number);
        drawn.number == 0
    };
    assert_eq!((1..20).filter(accepted).collect::<Vec<_>>(), [1, 3]);
    let word_less = slanted(Fill::EvenOdd, WORDS - 1);
    assert_eq!(outcome_in(&word_less, Way::InBands(3)).number, 13);
}

/// The band and the record of 13, by either fill.
fn refused(words: usize, way: Way) -> (usize, usize) {
    let [even_odd, nonzero] = [Fill::EvenOdd, Fill::NonZero].map(|fill| {
        let call = slanted(fill, words);
        let outcome = outcome_in(&call, way);
        let full = alone::first_full(&call, way).expect("no room");
        assert_eq!((outcome.number, outcome.index), (13, full.record));
        full
    });
    assert_eq!(even_odd, nonzero);
    (even_odd.band, even_odd.record)
}

/// How many places each record is the first to store into: so every pool names its record.
#[test]
fn the_cells_by_record_are_zenos() {
    let cells = [0, 15, 5, 11, 0, 16, 9, 7, 18, 1, 11, 0];
    let records = cells.into_iter().enumerate();
    let by: Vec<usize> = records.flat_map(|(record, n)| vec![record; n]).collect();
    assert_eq!(by.len(), 93);
    for (pool, record) in by.into_iter().enumerate() {
        assert_eq!(refused(11 + 4 * pool, Way::AtOnce), (0, record), "{pool}");
    }
}

/// The records that those tests have where there is no room: by a step of 2 for the second band, by
/// the others for the first.
#[test]
fn the_records_without_room_are_zenos() {
    assert_eq!(refused(WORDS, Way::InBands(2)), (1, 10));
    for (steps, record) in [(4..=5, 8), (6..=7, 7), (8..=10, 5), (11..=30, 3)] {
        for step in steps {
            assert_eq!(refused(WORDS, Way::InBands(step)), (0, record), "{step}");
        }
    }
    assert_eq!(refused(WORDS, Way::AtOnce), (0, 3));
    assert_eq!(refused(11 + 4 * 93 - 1, Way::AtOnce), (0, 10));
    assert_eq!(refused(WORDS - 1, Way::InBands(3)), (0, 8));
    assert_eq!(refused(WORDS - 1, Way::InBands(7)), (0, 6));
}

/// All rows of the same label, as bindings/rust/tests/worked/ has them.
#[test]
fn the_stored_pictures_are_zenos() {
    let even_odd = include_bytes!("../../bindings/rust/tests/worked/slanted_whole_even_odd.mask");
    let nonzero = include_bytes!("../../bindings/rust/tests/worked/slanted_whole_nonzero.mask");
    for (fill, mask) in [(Fill::EvenOdd, even_odd), (Fill::NonZero, nonzero)] {
        let whole = Drawing {
            first: 0,
            end: 17,
            mask: vec![0xA5; mask.len()],
            ..slanted(fill, 1000)
        };
        let drawn = outcome(&whole);
        assert_eq!(counts(&drawn), (0, 12, 115, 0));
        assert_eq!(drawn.mask, mask, "{fill:?}");
    }
}

/// FNV-1a, 64 bits.
fn checksum(bytes: &[u8]) -> u64 {
    bytes.iter().fold(0xCBF2_9CE4_8422_2325, |sum, &byte| {
        (sum ^ u64::from(byte)).wrapping_mul(0x0100_0000_01B3)
    })
}

/// The numbers that bindings/rust/tests/face/pictures.rs has of the example at two sizes: records,
/// cells, checksum, and what it is at once; no coordinate is cut.
#[test]
fn the_examples_checksums_are_zenos() {
    let sizes = [
        (1.0, 8_263, 0x0AD1_0571_B216_AC2D, (0, 0)),
        (2.0, 16_494, 0x6962_F6BC_4857_D771, (13, 1_239)),
    ];
    for (scale, cells, sum, at_once) in sizes {
        let (width, height) = (640 * scale as usize, 240 * scale as usize);
        let label = Drawing {
            list: include_bytes!("../../examples/label.mzp").to_vec(),
            transform: Transform::scale(scale, scale),
            offset: Point::new(0.0, 0.0),
            up: false,
            width,
            height,
            pitch: width,
            first: 0,
            end: height,
            mask: vec![0; width * height],
            ..slanted(Fill::NonZero, height + 4 * 16_384)
        };
        let drawn = outcome_in(&label, Way::InBands(height / 2));
        assert_eq!(counts(&drawn), (0, 1_251, cells, 0));
        assert_eq!(checksum(&drawn.mask), sum);
        let drawn = outcome(&label);
        assert_eq!((drawn.number, drawn.index), at_once);
    }
}
