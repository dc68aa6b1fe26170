//! Whole labels: pictures and their rows, a workspace for many, and labels with more places than a
//! workspace has room for.

use crate::{at, closed, comb, counts, drawn, k1, on_grid, round_figure, told};
use mosszephyr::{
    draw, draw_band, draw_in_bands, workspace_words, Drawn, Label, Origin, Path, Refusal,
    Transform, Workspace, MOST_CELLS,
};

const EXAMPLE: &[u8] = include_bytes!("../../../../examples/label.mzp");

/// A triangle whose rows all differ.
fn triangle() -> Path {
    closed(&[(0.0, 0.0), (3.0, 3.0), (0.0, 3.0)])
}

#[test]
fn rows_are_the_masks_from_the_top() {
    let label = Label {
        pitch: 5,
        ..Label::new(4, 3)
    };
    let picture = draw(triangle(), &label).unwrap();
    assert_eq!((picture.width(), picture.height()), (4, 3));
    assert_eq!((picture.pitch(), picture.mask().len()), (5, 14));
    let expected: [&[u8]; 3] = [&[128, 0, 0, 0], &[255, 128, 0, 0], &[255, 255, 128, 0]];
    assert!(picture.rows().eq(expected));
    assert!(picture.rows().rev().eq(expected.into_iter().rev()));
    assert_eq!(picture.rows().len(), 3);
    assert_eq!((picture.row(1), picture.row(2)), (expected[1], expected[2]));
    assert_eq!(picture.mask()[..10], [128, 0, 0, 0, 0, 255, 128, 0, 0, 0]);
    assert_eq!(picture.clone().into_mask(), picture.mask());
}

#[test]
fn rows_end_with_the_picture() {
    let pictures = [drawn(&k1(), 4, 3), drawn(&k1(), 0, 3), drawn(&k1(), 4, 0)];
    for picture in pictures {
        for y in [picture.height(), usize::MAX] {
            let row = std::panic::catch_unwind(|| picture.row(y).len());
            assert!(row.is_err(), "{picture:?} has no row {y}");
        }
        assert_eq!(picture.rows().count(), picture.height());
    }
}

#[test]
fn any_bytes_are_drawn() {
    let label = Label::new(4, 3);
    let path = k1();
    let picture = draw(&path, &label);
    assert!(picture.is_ok());
    assert_eq!(draw(path.as_bytes(), &label), picture);
    assert_eq!(draw(path.as_bytes(), &label), picture);
    assert_eq!(draw(path, &label), picture);
}

#[test]
fn a_picture_is_told_in_a_line() {
    let shown = "Picture { width: 4, height: 3, pitch: 4, records: 5, cells: 2, cut: 0, .. }";
    assert_eq!(format!("{:?}", drawn(&k1(), 4, 3)), shown);
}

/// FNV-1a, 64 bits.
fn checksum(bytes: &[u8]) -> u64 {
    bytes.iter().fold(0xCBF2_9CE4_8422_2325, |sum, &byte| {
        (sum ^ u64::from(byte)).wrapping_mul(0x0100_0000_01B3)
    })
}

/// Checksums and cells are those of zeno's code, and so is the record that stores a place too many.
#[test]
fn the_example_is_drawn_at_any_size() {
    let small = draw(EXAMPLE, &Label::new(640, 240)).unwrap();
    assert_eq!(checksum(small.mask()), 0x0AD1_0571_B216_AC2D);
    assert_eq!(counts(&small), on_grid(1_251, 8_263));

    let label = Label {
        transform: Transform::scale(2.0, 2.0),
        ..Label::new(1280, 480)
    };
    let refusal = at_once(EXAMPLE, &label).unwrap_err();
    assert_eq!(told(refusal), at(13, 1_239, 19_564));
    let large = draw(EXAMPLE, &label).unwrap();
    assert_eq!(checksum(large.mask()), 0x6962_F6BC_4857_D771);
    assert_eq!(counts(&large), on_grid(1_251, 16_494));
}

/// A label drawn at once with as much room as there is.
fn at_once(list: &[u8], label: &Label) -> Result<Drawn, Refusal> {
    let mut mask = vec![0; label.width * label.height];
    let mut words = vec![0; workspace_words(label.height, MOST_CELLS).unwrap()];
    draw_band(list, label, 0..label.height, &mut mask, &mut words)
}

/// A label row by row, each drawn at once: its mask, and its cells.
fn row_by_row(list: &Path, label: &Label) -> (Vec<u8>, usize) {
    let mut mask = vec![0; label.width * label.height];
    let mut words = vec![0; workspace_words(1, label.width + 1).unwrap()];
    let mut cells = 0;
    for (y, bytes) in mask.chunks_mut(label.width).enumerate() {
        let row = match label.origin {
            Origin::TopLeft => y,
            Origin::BottomLeft => label.height - 1 - y,
        };
        cells += draw_band(list, label, row..row + 1, bytes, &mut words)
            .unwrap()
            .cells;
    }
    (mask, cells)
}

/// As many places as there can be: with 128 rows of 129 it is 13, with 127 it is not. Each line stores
/// one in each row, and the pool holds those of so many lines.
#[test]
fn rows_full_of_places_are_drawn() {
    for (width, height, origin, lines) in [
        (128, 128, Origin::TopLeft, 128),
        (256, 130, Origin::BottomLeft, 126),
        (4096, 8, Origin::TopLeft, 2_048),
    ] {
        let path = comb(width, height);
        let label = Label {
            origin,
            ..Label::new(width.into(), height.into())
        };
        let refusal = at_once(path.as_bytes(), &label).unwrap_err();
        assert_eq!(told(refusal), at(13, 1 + lines, 12 * (1 + lines)));
        let (mask, cells) = row_by_row(&path, &label);
        assert_eq!(cells, (label.width + 1) * label.height);

        let picture = draw(&path, &label).unwrap();
        assert_eq!((picture.cells(), picture.mask()), (cells, &mask[..]));
        let mut lent = vec![7; mask.len()];
        let drawn = Workspace::new().draw(&path, &label, &mut lent).unwrap();
        assert_eq!((drawn.cells, lent), (cells, mask));
    }
}

/// 4,097 places in each row: three rows have room, and four have not.
#[test]
fn the_fullest_rows_fit_by_three() {
    let (path, label) = (comb(4096, 8), Label::new(4096, 8));
    let mut mask = vec![7; 4096 * 8];
    let mut words = vec![9; workspace_words(8, MOST_CELLS).unwrap()];
    let mut by = |step| draw_in_bands(&path, &label, 0..8, step, &mut mask, &mut words);
    assert_eq!(told(by(4).unwrap_err()), at(13, 4_097, 12 * 4_097));
    assert_eq!(by(3), Ok(on_grid(4098, 4097 * 8)));
}

/// One workspace for labels of any size, refused ones among them, one after the other.
#[test]
fn a_workspace_serves_many_labels() {
    let mut workspace = Workspace::default();
    let comb = comb(300, 60);
    let mut after_close = k1();
    after_close.line_to((2.0, 2.0));
    let labels = [
        (&comb, 300, 60),
        (&k1(), 4, 3),
        (&round_figure(), 40, 30),
        (&Path::new(), 4096, 4096),
        (&comb, 300, 4096),
        (&k1(), 4097, 1),
        (&k1(), 1, 4097),
        (&Path::from_bytes([1]), 4, 3),
        (&after_close, 4, 3),
        (&k1(), 4096, 3),
        (&k1(), 0, 3),
        (&k1(), 4, 0),
    ];
    for (path, width, height) in labels {
        let label = Label::new(width, height);
        let mut mask = vec![7; width * height];
        let drawn = workspace.draw(path, &label, &mut mask);
        match draw(path, &label) {
            Ok(picture) => {
                assert_eq!(drawn, Ok(counts(&picture)));
                assert_eq!(mask, picture.mask());
            }
            refused => {
                assert_eq!(drawn.err(), refused.err());
                assert!(mask.iter().all(|&byte| byte == 7));
            }
        }
    }
}

#[test]
fn a_workspace_judges_the_mask() {
    let label = Label {
        pitch: 6,
        ..Label::new(4, 3)
    };
    let mut workspace = Workspace::new();
    let endless = Label::new(usize::MAX, usize::MAX);
    let refused = workspace.draw(k1(), &endless, &mut []);
    assert_eq!(refused, Err(Refusal::Size));
    let refused = workspace.draw(k1(), &label, &mut [7; 15]);
    assert_eq!(refused, Err(Refusal::Mask));
    let mut mask = [7; 16];
    assert!(workspace.draw(k1(), &label, &mut mask).is_ok());
    assert_eq!(mask, [0, 0, 0, 0, 7, 7, 0, 255, 255, 0, 7, 7, 0, 0, 0, 0]);
}
