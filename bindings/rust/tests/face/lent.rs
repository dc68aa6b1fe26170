//! What the lent memory holds before changes nothing; what is written to it is what the rules say.

use crate::{counts, k1, round_figure};
use mosszephyr::{draw, draw_band, Label, Origin, MOST_CELLS};

/// Workspaces as other programs may leave them: full, counting, like links.
fn dirty_words(count: usize) -> [Vec<u32>; 4] {
    let numbered = || 0..count as u32;
    [
        vec![u32::MAX; count],
        vec![1; count],
        numbered().collect(),
        numbered().map(|n| n.wrapping_mul(0x9E37_79B9)).collect(),
    ]
}

#[test]
fn dirty_workspace_changes_nothing() {
    let label = Label::new(40, 30);
    let clean = draw(round_figure(), &label).unwrap();
    for mut words in dirty_words(30 + 4 * 41 * 30 + 3) {
        let mut mask = vec![0xEE; 40 * 30];
        let drawn = draw_band(round_figure(), &label, 0..30, &mut mask, &mut words);
        assert_eq!((drawn, &mask[..]), (Ok(counts(&clean)), clean.mask()));
        assert!(words.iter().all(|&word| word == 0));
    }
}

/// Words that no pool uses are wiped too.
#[test]
fn words_behind_the_pool_are_wiped() {
    let mut words = vec![9; 3 + 4 * (MOST_CELLS + 5) + 2];
    let mut mask = [0; 12];
    draw_band(k1(), &Label::new(4, 3), 0..3, &mut mask, &mut words).unwrap();
    assert!(words.iter().all(|&word| word == 0));
}

/// Bytes between the rows and behind the last one stay.
#[test]
fn only_width_bytes_of_each_row_are_written() {
    let label = Label {
        pitch: 6,
        ..Label::new(4, 3)
    };
    let mut mask = [7; 20];
    draw_band(k1(), &label, 0..3, &mut mask, &mut [0; 19]).unwrap();
    let rows: Vec<&[u8]> = mask.chunks(6).collect();
    assert_eq!(rows[0], [0, 0, 0, 0, 7, 7]);
    assert_eq!(rows[1], [0, 255, 255, 0, 7, 7]);
    assert_eq!(rows[2], [0, 0, 0, 0, 7, 7]);
    assert_eq!(rows[3], [7, 7]);
}

/// Path row 1 of [1, 3) is the mask's last row when y points up.
#[test]
fn rows_stand_from_the_bottom_when_up() {
    let label = Label {
        origin: Origin::BottomLeft,
        ..Label::new(4, 3)
    };
    let mut mask = [7; 8];
    draw_band(k1(), &label, 1..3, &mut mask, &mut [0; 10]).unwrap();
    assert_eq!(mask, [0, 0, 0, 0, 0, 255, 255, 0]);
}

/// One path, many threads, each with memory of its own.
#[test]
fn threads_draw_at_once() {
    let path = round_figure();
    let label = Label::new(40, 30);
    let alone = draw(&path, &label);
    std::thread::scope(|scope| {
        let draws: Vec<_> = (0..8)
            .map(|_| scope.spawn(|| draw(&path, &label)))
            .collect();
        for one in draws {
            assert_eq!(one.join().unwrap(), alone);
        }
    });
}
