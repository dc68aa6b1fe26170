//! Drawing a label, whole or in bands.

use std::ops::Range;

use crate::{face, Origin, Point, Refusal, Transform};

/// The largest width and height, in pixels.
pub const MOST_SIDE: usize = 4_096;
/// The largest pitch, in bytes.
pub const MOST_PITCH: usize = 65_536;
/// The longest path list, in bytes.
pub const MOST_LIST: usize = 65_536;
/// The most places (column, row) that a workspace has room for, however long it is.
pub const MOST_CELLS: usize = 16_384;

/// Which parts of a path are inside.
#[derive(Clone, Copy, Debug, Default, PartialEq, Eq, Hash)]
pub enum Fill {
    /// What the path winds round at least once, counting the ways against each other.
    #[default]
    NonZero,
    /// What the path winds round an odd number of times.
    EvenOdd,
}

/// How a path is drawn.
///
/// ```
/// use mosszephyr::{Fill, Label};
///
/// let label = Label { fill: Fill::EvenOdd, ..Label::new(640, 240) };
/// assert_eq!((label.width, label.height, label.pitch), (640, 240, 640));
/// ```
#[derive(Clone, Copy, Debug, PartialEq)]
pub struct Label {
    /// The whole label's width in pixels, at most [`MOST_SIDE`].
    pub width: usize,
    /// The whole label's height in pixels, at most [`MOST_SIDE`].
    pub height: usize,
    /// Bytes from one mask row to the next: at least the width, at most [`MOST_PITCH`].
    pub pitch: usize,
    /// Applied to every point.
    pub transform: Transform,
    /// Added to every transformed point.
    pub offset: Point,
    /// The fill rule.
    pub fill: Fill,
    /// Whether the path's row 0 is the mask's first row or its last.
    pub origin: Origin,
}

impl Label {
    /// A label of this size: rows without gaps, points as they are, nonzero, y down.
    #[must_use]
    pub fn new(width: usize, height: usize) -> Label {
        face::label(width, height)
    }
}

/// What an accepted drawing counts.
///
/// A label is drawn on a grid of 1/256 of a pixel. A coordinate, transformed and moved by the offset,
/// is cut where it times 256 is no whole number. An edge at 2.9999, meant for 3, then falls short of
/// that and shows soft:
///
/// ```
/// use mosszephyr::{draw, Label, Path};
///
/// let mut path = Path::new();
/// path.move_to((1.0, 1.0)).line_to((2.9999, 1.0)).line_to((2.9999, 2.0)).line_to((1.0, 2.0));
/// let picture = draw(&path, &Label::new(4, 3))?;
/// assert_eq!(picture.row(1), [0, 255, 254, 0]);
/// assert_eq!((picture.cut(), path.coordinates()), (2, 8));
/// # Ok::<(), mosszephyr::Refusal>(())
/// ```
#[derive(Clone, Copy, Debug, PartialEq, Eq, Hash)]
pub struct Drawn {
    /// How many records the path has.
    pub records: usize,
    /// How many distinct places (column, row) the drawing stored.
    pub cells: usize,
    /// How many coordinates of the path were cut: x and y apart, control points too, and a point as
    /// often as the path has it. It is the whole path's, whatever rows are drawn, and so the same for
    /// every band of a label, also for one of no rows. 0 says that the step to the grid changed
    /// nothing.
    pub cut: usize,
}

/// How many bytes a mask needs for `rows` rows: pitch · (rows − 1) + width, and 0 for no rows.
/// Nothing where that is too large a number.
///
/// ```
/// use mosszephyr::mask_bytes;
///
/// assert_eq!(mask_bytes(4, 3, 8), Some(20));
/// assert_eq!(mask_bytes(4, 0, 8), Some(0));
/// assert_eq!(mask_bytes(4, 3, usize::MAX), None);
/// ```
#[must_use]
pub const fn mask_bytes(width: usize, rows: usize, pitch: usize) -> Option<usize> {
    if rows == 0 {
        return Some(0);
    }
    match pitch.checked_mul(rows - 1) {
        Some(before_last) => before_last.checked_add(width),
        None => None,
    }
}

/// How many words [`draw_band`] needs for `rows` rows and `cells` places: rows + 4 · cells. Nothing
/// where that is too large a number.
///
/// A drawing stores at most (width + 1) · rows places, and has room for at most [`MOST_CELLS`].
///
/// ```
/// use mosszephyr::workspace_words;
///
/// assert_eq!(workspace_words(3, 2), Some(11));
/// assert_eq!(workspace_words(0, usize::MAX), None);
/// ```
#[must_use]
pub const fn workspace_words(rows: usize, cells: usize) -> Option<usize> {
    match cells.checked_mul(4) {
        Some(pool) => pool.checked_add(rows),
        None => None,
    }
}

/// How many words [`draw_in_bands`] needs for `rows` rows, `step` of them a band, and `cells` places
/// in the fullest band: a word for each row of a band and four for each place, but at least as many
/// as there are rows in all. Nothing where that is too large a number.
///
/// ```
/// use mosszephyr::bands_words;
///
/// assert_eq!(bands_words(30, 10, 7), Some(38));
/// assert_eq!(bands_words(30, 0, 7), Some(30), "a step of 0 counts as 1");
/// assert_eq!(bands_words(30, 99, 7), Some(58));
/// ```
#[must_use]
pub const fn bands_words(rows: usize, step: usize, cells: usize) -> Option<usize> {
    let step = if step == 0 { 1 } else { step };
    let band = if step < rows { step } else { rows };
    match workspace_words(band, cells) {
        Some(words) if words < rows => Some(rows),
        words => words,
    }
}

/// Draws the rows `band` of a label into a lent mask, with a lent workspace. They are the path's rows:
/// for [`Origin::BottomLeft`] row 0 is the picture's last.
///
/// The mask is the band's: its first byte belongs to the band's first row, or for
/// [`Origin::BottomLeft`] to its last. It needs [`mask_bytes`] bytes for the band's rows. The
/// workspace needs a word for each row, and four for each place that the drawing stores
/// ([`workspace_words`]); what both hold before changes no answer and no painted byte.
///
/// An accepted drawing writes `width` bytes in each row and no others, and leaves all words 0. A
/// refusal leaves the mask as it was. Refusal 13 leaves all words 0, the others leave them as they
/// were.
///
/// # Errors
///
/// 1 to 13 and 18. 13 and its record are by these rows alone: what the path stores in others has no
/// say.
///
/// ```
/// use mosszephyr::{draw_band, mask_bytes, workspace_words, Label, Path};
///
/// let mut path = Path::new();
/// path.move_to((1.0, 1.0)).line_to((3.0, 1.0)).line_to((3.0, 3.0)).line_to((1.0, 3.0));
/// let label = Label::new(4, 4);
/// let mut mask = vec![0; mask_bytes(4, 1, label.pitch).unwrap()];
/// let mut words = vec![0; workspace_words(1, 5).unwrap()];
/// draw_band(&path, &label, 2..3, &mut mask, &mut words)?;
/// assert_eq!(mask, [0, 255, 255, 0]);
/// # Ok::<(), mosszephyr::Refusal>(())
/// ```
pub fn draw_band(
    list: impl AsRef<[u8]>,
    label: &Label,
    band: Range<usize>,
    mask: &mut [u8],
    words: &mut [u32],
) -> Result<Drawn, Refusal> {
    face::draw(list.as_ref(), label, band, mask, words)
}

/// Draws the rows `band` of a label as [`draw_band`] does, in bands of `step` rows from its first on,
/// the last with what is left; a step of 0 counts as 1. A workspace with too little room for all
/// rows can have enough for each band, which has all words but one for each of its own rows.
///
/// Mask and words are lent for all rows, as to [`draw_band`], and left as by it; [`bands_words`]
/// counts the words. What [`draw_band`] accepts gives the same here, with any step. The path is read
/// anew for each band, so few rows cost time.
///
/// # Errors
///
/// 1 to 12 and 18 as [`draw_band`] has them, and 13 where one of the bands stores more places than it
/// has room for; the mask is then as it was. It is the 13 that [`draw_band`], lent these words, gives
/// for that band by itself; of several such bands the first counts, in rising rows, even if another
/// is full at an earlier record.
///
/// ```
/// use mosszephyr::{bands_words, draw_band, draw_in_bands, Drawn, Label, Path, Refusal};
///
/// let mut path = Path::new();
/// path.move_to((1.0, 0.0)).line_to((3.0, 0.0)).line_to((3.0, 3.0)).line_to((1.0, 3.0));
/// let label = Label::new(4, 3);
/// let (mut mask, mut words) = ([7; 12], vec![0; bands_words(3, 1, 2).unwrap()]);
/// let refusal = draw_band(&path, &label, 0..3, &mut mask, &mut words).unwrap_err();
/// assert_eq!((refusal.number(), refusal.record(), mask), (13, Some(2), [7; 12]));
/// let drawn = draw_in_bands(&path, &label, 0..3, 1, &mut mask, &mut words)?;
/// assert_eq!(drawn, Drawn { records: 4, cells: 6, cut: 0 });
/// assert_eq!(mask, [0, 255, 255, 0, 0, 255, 255, 0, 0, 255, 255, 0]);
/// # Ok::<(), Refusal>(())
/// ```
pub fn draw_in_bands(
    list: impl AsRef<[u8]>,
    label: &Label,
    band: Range<usize>,
    step: usize,
    mask: &mut [u8],
    words: &mut [u32],
) -> Result<Drawn, Refusal> {
    face::draw_in_bands(list.as_ref(), label, band, step, mask, words)
}

#[cfg(test)]
mod tests {
    use super::*;

    #[test]
    fn counts_never_overflow() {
        let most = usize::MAX;
        assert_eq!(workspace_words(most, 0), Some(most));
        assert_eq!(workspace_words(most, 1), None);
        assert_eq!(workspace_words(0, most / 4 + 1), None);
        assert_eq!(mask_bytes(most, 1, most), Some(most));
        assert_eq!(mask_bytes(1, 2, most), None);
        assert_eq!(bands_words(most, most, 0), Some(most));
        assert_eq!(bands_words(most, most, 1), None);
        assert_eq!(bands_words(0, 1, most), None);
    }

    #[test]
    fn bands_words_are_the_larger_of_two_counts() {
        assert_eq!(
            bands_words(4, 2, 4),
            Some(18),
            "a band of 2 rows with 4 places"
        );
        assert_eq!(bands_words(100, 2, 4), Some(100), "5 asks for all rows");
        assert_eq!(
            bands_words(4, 9, 4),
            Some(20),
            "no band has more rows than there are"
        );
        assert_eq!(bands_words(4, 0, 4), Some(17), "a step of 0 counts as 1");
        assert_eq!(bands_words(0, 0, 4), Some(16), "no rows need no word");
    }
}
