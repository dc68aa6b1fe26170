//! A whole label drawn into memory of its own.

use std::fmt;

use crate::workspace::{draw_fitting, words_for};
use crate::{face, mask_bytes, Drawn, Label, Refusal};

/// A whole label, drawn.
#[derive(Clone, PartialEq, Eq, Hash)]
#[must_use]
pub struct Picture {
    width: usize,
    height: usize,
    pitch: usize,
    mask: Vec<u8>,
    drawn: Drawn,
}

impl Picture {
    /// The label's width, in pixels.
    #[must_use]
    pub const fn width(&self) -> usize {
        self.width
    }

    /// The label's height, in pixels.
    #[must_use]
    pub const fn height(&self) -> usize {
        self.height
    }

    /// Bytes from one row of the mask to the next.
    #[must_use]
    pub const fn pitch(&self) -> usize {
        self.pitch
    }

    /// A byte a pixel, 0 for no ink to 255 for full: `height` rows of `width` bytes, each `pitch`
    /// bytes behind the one before. Bytes between them are 0.
    #[must_use]
    pub fn mask(&self) -> &[u8] {
        &self.mask
    }

    /// The mask, handed over uncopied.
    #[must_use]
    pub fn into_mask(self) -> Vec<u8> {
        self.mask
    }

    /// The bytes of one row, as many as the picture is wide; row 0 is at the top.
    ///
    /// # Panics
    ///
    /// Where the picture has no such row, as a slice does.
    #[must_use]
    #[track_caller]
    pub fn row(&self, y: usize) -> &[u8] {
        row_of(&self.mask, (self.width, self.height, self.pitch), y)
    }

    /// The rows from the top on.
    pub fn rows(&self) -> impl DoubleEndedIterator<Item = &[u8]> + ExactSizeIterator {
        (0..self.height).map(|y| self.row(y))
    }

    /// How many records the path has.
    #[must_use]
    pub const fn records(&self) -> usize {
        self.drawn.records
    }

    /// How many distinct places (column, row) the drawing stored.
    #[must_use]
    pub const fn cells(&self) -> usize {
        self.drawn.cells
    }

    /// How many coordinates of the path were cut: see [`Drawn`].
    #[must_use]
    pub const fn cut(&self) -> usize {
        self.drawn.cut
    }
}

/// Row y of a mask of this width, so many rows, and this pitch.
#[track_caller]
pub(crate) fn row_of(mask: &[u8], (width, rows, pitch): (usize, usize, usize), y: usize) -> &[u8] {
    assert!(y < rows, "row {y} of a mask with {rows} rows");
    &mask[pitch * y..][..width]
}

/// All but the bytes of the mask.
impl fmt::Debug for Picture {
    fn fmt(&self, f: &mut fmt::Formatter<'_>) -> fmt::Result {
        f.debug_struct("Picture")
            .field("width", &self.width)
            .field("height", &self.height)
            .field("pitch", &self.pitch)
            .field("records", &self.records())
            .field("cells", &self.cells())
            .field("cut", &self.cut())
            .finish_non_exhaustive()
    }
}

/// Draws a whole label into a mask of its own.
///
/// It is drawn at once where it stores no more than [`MOST_CELLS`](crate::MOST_CELLS) places, and
/// else in bands that do. Nothing is allocated for a label that is too large. The list is the bytes
/// themselves and not a file's name, though a `str` has bytes too.
///
/// # Errors
///
/// 1, 3, 6 to 12 and 18.
///
/// ```
/// use mosszephyr::{draw, Label, Path, Refusal};
///
/// let picture = draw(Path::new(), &Label::new(2, 2))?;
/// assert_eq!(picture.mask(), [0; 4]);
/// let refused = draw(Path::new(), &Label::new(4097, 1));
/// assert_eq!(refused, Err(Refusal::Size));
/// # Ok::<(), Refusal>(())
/// ```
pub fn draw(list: impl AsRef<[u8]>, label: &Label) -> Result<Picture, Refusal> {
    judge_sizes(label)?;
    let bytes = mask_bytes(label.width, label.height, label.pitch);
    let mut mask = vec![0; bytes.expect("a label whose sizes pass is small")];
    let mut words = vec![0; words_for(label.width, label.height)];
    let band = 0..label.height;
    let drawn = draw_fitting(list.as_ref(), label, band, &mut mask, &mut words)?;
    Ok(Picture {
        width: label.width,
        height: label.height,
        pitch: label.pitch,
        mask,
        drawn,
    })
}

/// Refusals 1, 3 and 6, asked of the library with an empty path and no rows, for which it is lent
/// nothing. What passes is small enough to be allocated.
fn judge_sizes(label: &Label) -> Result<(), Refusal> {
    face::draw(&[], label, 0..0, &mut [], &mut []).map(drop)
}
