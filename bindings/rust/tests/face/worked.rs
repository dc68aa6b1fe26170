//! The worked label of bindings/worked/README.md, all of whose numbers differ, by every function
//! that draws, against masks that zeno drew.
//!
//! tests/worked/ holds the same label with all its 17 rows: drawn by zeno's code too, with 115
//! cells; its rows 3 to 13 are those of bindings/worked/.

use std::iter::repeat_n;
use std::ops::Range;

use crate::{at, counts, on_grid, told, with_pool};
use mosszephyr::{
    bands_words, draw, draw_band, draw_in_bands, Drawn, Fill, Label, Origin, Point, Transform,
    Workspace,
};

const LIST: &[u8] = include_bytes!("../../../worked/slanted.mzp");
const BAND: Range<usize> = 3..14;
const WORDS: usize = 123;
/// What the mask holds before.
const OLD: u8 = 0xA5;

/// A fill with the masks of the band and of the whole label.
struct Stored {
    fill: Fill,
    band: &'static [u8],
    whole: &'static [u8],
}

const STORED: [Stored; 2] = [
    Stored {
        fill: Fill::EvenOdd,
        band: include_bytes!("../../../worked/slanted_even_odd.mask"),
        whole: include_bytes!("../worked/slanted_whole_even_odd.mask"),
    },
    Stored {
        fill: Fill::NonZero,
        band: include_bytes!("../../../worked/slanted_nonzero.mask"),
        whole: include_bytes!("../worked/slanted_whole_nonzero.mask"),
    },
];

fn slanted(fill: Fill) -> Label {
    Label {
        transform: Transform::new(1.25, 0.375, -0.5, 0.875, 6.5, 1.75),
        offset: Point::new(1.125, -2.25),
        fill,
        origin: Origin::BottomLeft,
        pitch: 29,
        ..Label::new(24, 17)
    }
}

const OF_BAND: Drawn = on_grid(12, 93);
const OF_WHOLE: Drawn = on_grid(12, 115);

/// Up, the band's rows are rows 3 to 13 of the picture too: as many are left out below as above.
#[test]
fn stored_masks_agree() {
    for stored in STORED {
        let from = 29 * BAND.start;
        assert_eq!(stored.whole[from..from + stored.band.len()], *stored.band);
    }
    assert_ne!(STORED[0].band, STORED[1].band);
}

#[test]
fn draw_band_draws_the_stored_mask() {
    for stored in STORED {
        let (mut mask, mut words) = (vec![OLD; stored.band.len()], vec![7; 1000]);
        let drawn = draw_band(LIST, &slanted(stored.fill), BAND, &mut mask, &mut words);
        assert_eq!(drawn, Ok(OF_BAND));
        assert_eq!(mask, stored.band);
    }
}

/// The workspace is so small that steps of 3 and of 1 are drawn and no others are.
#[test]
fn draw_in_bands_draws_the_stored_mask_in_steps_of_three() {
    for stored in STORED {
        let label = slanted(stored.fill);
        for step in [0, 1, 3] {
            let (mut mask, mut words) = (vec![OLD; stored.band.len()], vec![7; WORDS]);
            let drawn = draw_in_bands(LIST, &label, BAND, step, &mut mask, &mut words);
            assert_eq!((drawn, &mask[..]), (Ok(OF_BAND), stored.band), "{step}");
        }
    }
}

/// Moved by less than 1/256 all 13 x, all 13 y, or both are cut to where they were.
#[test]
fn the_stored_masks_are_drawn_off_the_grid() {
    for stored in STORED {
        for (x, y, cut) in [(1.0, 0.0, 13), (0.0, 3.0, 13), (2.0, 1.0, 26)] {
            let label = slanted(stored.fill);
            let label = Label {
                offset: Point::new(label.offset.x + x / 1024.0, label.offset.y + y / 1024.0),
                ..label
            };
            let (mut mask, mut words) = (vec![OLD; stored.band.len()], vec![7; WORDS]);
            let drawn = draw_in_bands(LIST, &label, BAND, 3, &mut mask, &mut words);
            assert_eq!(drawn, Ok(Drawn { cut, ..OF_BAND }));
            assert_eq!(mask, stored.band);
            let mut mask = vec![OLD; stored.whole.len()];
            let drawn = Workspace::new().draw(LIST, &label, &mut mask);
            assert_eq!(drawn, Ok(Drawn { cut, ..OF_WHOLE }));
            assert_eq!(mask, stored.whole);
        }
    }
}

/// Into how many places each record is the first to store, by zeno: of the band and of all rows.
const PLACES: [(Range<usize>, Drawn, [usize; 12]); 2] = [
    (BAND, OF_BAND, [0, 15, 5, 11, 0, 16, 9, 7, 18, 1, 11, 0]),
    (0..17, OF_WHOLE, [0, 23, 8, 12, 0, 23, 11, 8, 18, 1, 11, 0]),
];

/// At once, with each pool that is too small, and with the one that is just enough.
#[test]
fn the_record_without_room_is_zenos() {
    let label = slanted(Fill::NonZero);
    for (band, all, places) in PLACES {
        let each = (0..12).flat_map(|record| repeat_n(record, places[record]));
        for (pool, record) in each.enumerate() {
            let refusal = with_pool(LIST, &label, band.clone(), pool).unwrap_err();
            let expected = (13, Some(record));
            assert_eq!((refusal.number(), refusal.record()), expected, "{pool}");
        }
        assert_eq!(with_pool(LIST, &label, band, all.cells), Ok(all));
    }
}

/// Other steps with the record, and its byte, at which zeno stores a place too many: by 2 in the
/// second band, by all others in the first.
#[test]
fn other_steps_run_out_of_room() {
    for (steps, record, byte) in [
        (2..=2, 10, 136),
        (4..=5, 8, 112),
        (6..=7, 7, 100),
        (8..=10, 5, 68),
        (11..=30, 3, 52),
        (usize::MAX..=usize::MAX, 3, 52),
    ] {
        for step in steps {
            for fill in [Fill::EvenOdd, Fill::NonZero] {
                let (mut mask, mut words) = ([OLD; 314], [7; WORDS]);
                let label = slanted(fill);
                let refused = draw_in_bands(LIST, &label, BAND, step, &mut mask, &mut words);
                let refusal = told(refused.unwrap_err());
                assert_eq!(refusal, at(13, record, byte), "{step}");
                assert_eq!((mask, words), ([OLD; 314], [0; WORDS]));
            }
        }
    }
}

/// The fullest band of three rows has 30 places.
#[test]
fn bands_words_counts_the_workspace() {
    assert_eq!(bands_words(BAND.len(), 3, 30), Some(WORDS));
    let (mut mask, mut words) = ([OLD; 314], [7; WORDS - 1]);
    let label = slanted(Fill::EvenOdd);
    let refused = draw_in_bands(LIST, &label, BAND, 3, &mut mask, &mut words);
    assert_eq!(told(refused.unwrap_err()), at(13, 8, 112));
}

/// A picture's bytes between the rows are 0.
#[test]
fn draw_draws_the_stored_picture() {
    for stored in STORED {
        let picture = draw(LIST, &slanted(stored.fill)).unwrap();
        assert_eq!(counts(&picture), OF_WHOLE);
        let sides = (picture.width(), picture.height(), picture.pitch());
        assert_eq!(sides, (24, 17, 29));
        for (y, row) in stored.whole.chunks(29).enumerate() {
            assert_eq!(picture.row(y), &row[..24], "row {y}");
        }
        let gaps = picture.mask().chunks_exact(29).flat_map(|row| &row[24..]);
        assert!(gaps.copied().all(|byte| byte == 0));
    }
}

#[test]
fn a_workspace_draws_the_stored_picture() {
    let mut workspace = Workspace::new();
    for stored in STORED {
        let mut mask = vec![OLD; stored.whole.len()];
        let drawn = workspace.draw(LIST, &slanted(stored.fill), &mut mask);
        assert_eq!((drawn, &mask[..]), (Ok(OF_WHOLE), stored.whole));
    }
}

/// Bands of every height, from the picture's top on.
#[test]
fn bands_are_the_stored_picture_cut() {
    let mut workspace = Workspace::new();
    for stored in STORED {
        for height in 1..=17 {
            let mut buffer = vec![OLD; 29 * (height - 1) + 24];
            let label = slanted(stored.fill);
            let mut bands = workspace.bands(LIST, &label, &mut buffer).unwrap();
            let mut first = 0;
            while let Some(band) = bands.next() {
                let end = 17.min(first + height);
                assert_eq!((band.rows(), band.pitch()), (first..end, 29));
                let rows = &stored.whole[29 * first..29 * (end - 1) + 24];
                assert_eq!(band.mask(), rows, "rows {first} to {end} by {height}");
                assert_eq!(band.row(end - 1 - first), &rows[rows.len() - 24..]);
                first = end;
            }
            assert_eq!(first, 17);
        }
    }
}
