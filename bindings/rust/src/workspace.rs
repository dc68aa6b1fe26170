//! Memory to draw in, taken once for many labels, and labels lent band by band.

use std::fmt;
use std::ops::Range;

use crate::picture::row_of;
use crate::{face, mask_bytes, workspace_words, Drawn, Label, Origin, Refusal};
use crate::{MOST_CELLS, MOST_SIDE};

/// Memory to draw any label in, taken once: 272 KiB.
///
/// Drawing with it allocates nothing and never lacks room. What one label leaves in it says nothing
/// to the next.
///
/// ```
/// use mosszephyr::{Label, Path, Workspace};
///
/// let mut path = Path::new();
/// path.move_to((1.0, 0.0)).line_to((3.0, 0.0)).line_to((3.0, 2.0)).line_to((1.0, 2.0));
/// let label = Label::new(4, 2);
/// let mut workspace = Workspace::new();
/// let mut mask = [7; 8];
/// workspace.draw(&path, &label, &mut mask)?;
/// assert_eq!(mask, [0, 255, 255, 0, 0, 255, 255, 0]);
/// # Ok::<(), mosszephyr::Refusal>(())
/// ```
pub struct Workspace {
    words: Vec<u32>,
}

impl Workspace {
    /// Takes the memory.
    #[must_use]
    pub fn new() -> Workspace {
        Workspace {
            words: vec![0; words_for(MOST_SIDE, MOST_SIDE)],
        }
    }

    /// Draws a whole label into a lent mask, which needs [`mask_bytes`] bytes for its rows; of each
    /// row `width` bytes are written and no others. A refusal leaves the mask as it was.
    ///
    /// It is drawn at once where it stores no more than [`MOST_CELLS`] places, and else in bands
    /// that do.
    ///
    /// # Errors
    ///
    /// 1, 3, 4, 6 to 12 and 18.
    pub fn draw(
        &mut self,
        list: impl AsRef<[u8]>,
        label: &Label,
        mask: &mut [u8],
    ) -> Result<Drawn, Refusal> {
        let words = self.words(label.width, label.height);
        draw_fitting(list.as_ref(), label, 0..label.height, mask, words)
    }

    /// A label's bands one after the other, as a printer takes them: each with as many rows as the
    /// buffer holds, the last with what is left.
    ///
    /// The whole list is judged here, before there is a band: a label that is refused shows no row.
    ///
    /// # Errors
    ///
    /// 1, 3, 6 to 12 and 18, and 4 where the buffer holds no row of a label that has some.
    ///
    /// ```
    /// use mosszephyr::{Label, Path, Workspace};
    ///
    /// let mut path = Path::new();
    /// path.move_to((1.0, 1.0)).line_to((3.0, 1.0)).line_to((3.0, 4.0)).line_to((1.0, 4.0));
    /// let (mut workspace, mut buffer) = (Workspace::new(), [0; 8]);
    /// let mut bands = workspace.bands(&path, &Label::new(4, 5), &mut buffer)?;
    /// let mut printed = Vec::new();
    /// while let Some(band) = bands.next() {
    ///     printed.push((band.rows(), band.row(0)[1]));
    /// }
    /// assert_eq!(printed, [(0..2, 0), (2..4, 255), (4..5, 0)]);
    /// # Ok::<(), mosszephyr::Refusal>(())
    /// ```
    pub fn bands<'a>(
        &'a mut self,
        list: &'a (impl AsRef<[u8]> + ?Sized),
        label: &Label,
        buffer: &'a mut [u8],
    ) -> Result<Bands<'a>, Refusal> {
        let list = list.as_ref();
        let cut = judge(list, label, buffer)?;
        Ok(Bands {
            list,
            label: *label,
            cut,
            step: rows_held(label, buffer.len()),
            next: 0,
            buffer,
            workspace: self,
        })
    }

    /// As many words as so many rows need: the fewer, the sooner they are wiped.
    fn words(&mut self, width: usize, rows: usize) -> &mut [u32] {
        let count = words_for(width, rows).min(self.words.len());
        &mut self.words[..count]
    }
}

impl Default for Workspace {
    fn default() -> Workspace {
        Workspace::new()
    }
}

impl fmt::Debug for Workspace {
    fn fmt(&self, f: &mut fmt::Formatter<'_>) -> fmt::Result {
        f.debug_struct("Workspace").finish_non_exhaustive()
    }
}

/// A label's bands, drawn one after the other into one buffer: see [`Workspace::bands`]. No
/// `Iterator` can lend a buffer of its own, so it is `while let Some(band) = bands.next()`.
#[must_use = "no band is drawn before it is asked for"]
pub struct Bands<'a> {
    list: &'a [u8],
    label: Label,
    cut: usize,
    /// Rows of a band.
    step: usize,
    /// The first row that is not drawn yet, from the picture's top.
    next: usize,
    buffer: &'a mut [u8],
    workspace: &'a mut Workspace,
}

impl Bands<'_> {
    /// How many coordinates of the path are cut, before a row is printed: see [`Drawn`].
    #[must_use]
    pub const fn cut(&self) -> usize {
        self.cut
    }

    /// Draws the next band and lends it, from the picture's top on; nothing behind the last.
    ///
    /// # Panics
    ///
    /// Never with a library that keeps its promises. Should it refuse a band of a label that it
    /// accepted, this panics with its words: half a label is not handed on as a whole one.
    #[allow(clippy::should_implement_trait)]
    pub fn next(&mut self) -> Option<Band<'_>> {
        if self.next == self.label.height {
            return None;
        }
        let rows = self.next..self.label.height.min(self.next + self.step);
        let Label { width, pitch, .. } = self.label;
        let bytes = mask_bytes(width, rows.len(), pitch).expect("the buffer holds these rows");
        let mask = &mut self.buffer[..bytes];
        let words = self.workspace.words(width, rows.len());
        let band = path_rows(&self.label, &rows);
        // 1, 3, 6 to 12 and 18 are judged of the same list and label as by `Workspace::bands`; the
        // band lies within the label (2), the buffer holds its rows (4), and the words are enough for
        // any rows (5, 13).
        if let Err(refusal) = draw_fitting(self.list, &self.label, band, mask, words) {
            unreachable!("a band of a label that was accepted: {refusal}");
        }
        self.next = rows.end;
        Some(Band {
            rows,
            width,
            pitch,
            mask,
        })
    }
}

impl fmt::Debug for Bands<'_> {
    fn fmt(&self, f: &mut fmt::Formatter<'_>) -> fmt::Result {
        f.debug_struct("Bands")
            .field("label", &self.label)
            .field("step", &self.step)
            .field("next", &self.next)
            .finish_non_exhaustive()
    }
}

/// One band of a label, in the buffer that was lent for it.
#[must_use]
pub struct Band<'a> {
    rows: Range<usize>,
    width: usize,
    pitch: usize,
    mask: &'a [u8],
}

impl<'a> Band<'a> {
    /// Which rows of the whole picture these are, counted from its top.
    #[must_use]
    pub fn rows(&self) -> Range<usize> {
        self.rows.clone()
    }

    /// A byte a pixel, 0 for no ink to 255 for full: the label's width in each row, each `pitch`
    /// bytes behind the one before. Bytes between the rows are as they were in the buffer.
    #[must_use]
    pub fn mask(&self) -> &'a [u8] {
        self.mask
    }

    /// The bytes of one row, as many as the label is wide; row 0 is the band's first.
    ///
    /// # Panics
    ///
    /// Where the band has no such row, as a slice does.
    #[must_use]
    #[track_caller]
    pub fn row(&self, index: usize) -> &'a [u8] {
        row_of(self.mask, (self.width, self.rows.len(), self.pitch), index)
    }

    /// Bytes from one row of the mask to the next.
    #[must_use]
    pub const fn pitch(&self) -> usize {
        self.pitch
    }
}

impl fmt::Debug for Band<'_> {
    fn fmt(&self, f: &mut fmt::Formatter<'_>) -> fmt::Result {
        f.debug_struct("Band")
            .field("rows", &self.rows)
            .field("pitch", &self.pitch)
            .finish_non_exhaustive()
    }
}

/// As many words as any label of this width and so many rows is lent: a word for each row, and the
/// pool for the places that it may store, column −1 included, as far as there is room for them.
pub(crate) fn words_for(width: usize, rows: usize) -> usize {
    let places = width.saturating_add(1).saturating_mul(rows);
    workspace_words(rows, places.min(MOST_CELLS)).unwrap_or(usize::MAX)
}

/// Draws rows of a label with [`words_for`] them: at once or, where they store too many places, in
/// bands that are half as high until they do not.
///
/// So many rows as have [`MOST_CELLS`] pixels with a column more always fit, since a row stores at
/// most one place more than it is wide. Where it was 13 at once, the pool is as large as any.
pub(crate) fn draw_fitting(
    list: &[u8],
    label: &Label,
    band: Range<usize>,
    mask: &mut [u8],
    words: &mut [u32],
) -> Result<Drawn, Refusal> {
    let at_once = face::draw(list, label, band.clone(), mask, words);
    if !lacks_room(&at_once) {
        return at_once;
    }
    let least = MOST_CELLS / (label.width + 1);
    let mut step = band.len();
    loop {
        step = step.div_ceil(2).max(least);
        let drawn = face::draw_in_bands(list, label, band.clone(), step, mask, words);
        if !lacks_room(&drawn) || step == least {
            return drawn;
        }
    }
}

fn lacks_room(drawn: &Result<Drawn, Refusal>) -> bool {
    matches!(drawn, Err(Refusal::Room { .. }))
}

/// Refusals 1, 3, 4, 6 to 12 and 18 of a label that is to be drawn into a buffer of some of its rows,
/// or how many coordinates are cut.
///
/// Asked with no rows, which are never 13; and with the first where the buffer does not hold it, so
/// that 4 has its place among the others.
fn judge(list: &[u8], label: &Label, buffer: &mut [u8]) -> Result<usize, Refusal> {
    let rows = usize::from(label.height > 0 && buffer.len() < label.width);
    let drawn = face::draw(list, label, 0..rows, buffer, &mut [0; 1][..rows])?;
    Ok(drawn.cut)
}

/// How many rows of an accepted label a buffer holds, up to all of them.
fn rows_held(label: &Label, bytes: usize) -> usize {
    let behind_the_first = bytes.saturating_sub(label.width);
    let rows = match behind_the_first.checked_div(label.pitch) {
        Some(more) => more.saturating_add(1),
        None => label.height,
    };
    rows.min(label.height)
}

/// The rows of the path that these rows of the picture show.
fn path_rows(label: &Label, rows: &Range<usize>) -> Range<usize> {
    match label.origin {
        Origin::TopLeft => rows.clone(),
        Origin::BottomLeft => label.height - rows.end..label.height - rows.start,
    }
}

#[cfg(test)]
mod tests {
    use super::*;

    #[test]
    fn a_workspace_takes_272_kib() {
        let taken = size_of_val(&Workspace::new().words[..]);
        assert_eq!(taken, 272 * 1024);
    }
}
