//! What a call must answer and leave behind: refusals and how many coordinates are cut by the reading,
//! everything else by zeno.

use std::ops::Range;

use crate::drawing::{Drawing, Way};
use crate::oracle::{
    self, Bounds, CellAt, Command, Given, Inked, Label, Origin, Placement, Transform, Vector,
};
use crate::reading::{self, Refusal};

/// A whole label drawn by zeno.
#[derive(Clone, Debug, PartialEq)]
pub struct Whole {
    /// Height rows of pitch bytes, the last cut behind width; zero where nothing is painted.
    pub mask: Vec<u8>,
    pub records: usize,
    /// Rows rising, columns rising in a row.
    pub cells: Vec<CellAt>,
}

/// Everything that a drawing answers and the state that it leaves.
#[derive(Clone, Debug, PartialEq)]
pub struct Outcome {
    /// 0 where the drawing is accepted.
    pub number: u8,
    pub index: usize,
    pub records: usize,
    pub cells: usize,
    /// How many coordinates of the list are cut, whatever the band is.
    pub cut: usize,
    pub mask: Vec<u8>,
    pub words: Vec<u32>,
}

/// The whole label of a call, whatever its band and its pool are; all but 13 may refuse it.
pub fn whole(drawing: &Drawing) -> Result<Whole, Refusal> {
    let path = reading::judge(drawing)?;
    let label = label_of(drawing, &path, drawing.up, drawing.pitch);
    let (mask, cells) = oracle::painted_cells(&label).expect("an accepted label is within reach");
    Ok(Whole {
        mask,
        records: path.len(),
        cells,
    })
}

/// What is stored for the whole label of a call, in zeno's order; all but 13 may refuse it.
pub fn given(drawing: &Drawing) -> Result<Vec<Given>, Refusal> {
    let path = reading::judge(drawing)?;
    let label = label_of(drawing, &path, false, drawing.width);
    Ok(oracle::given(&label).expect("an accepted label is within reach"))
}

/// The pairs alone.
pub fn pairs(drawing: &Drawing) -> Result<Vec<CellAt>, Refusal> {
    let given = given(drawing)?;
    Ok(given.into_iter().map(|given| given.pair).collect())
}

/// What a call draws: the whole label, and of its cells the band's.
pub struct Drawn {
    /// Height rows of width bytes, not up.
    pub whole: Vec<u8>,
    pub records: usize,
    /// Rows counted from the band's first.
    pub cells: Vec<CellAt>,
    /// How many coordinates of the list are cut.
    pub cut: usize,
}

/// Draws a call at once, all refusals judged.
pub fn drawn(drawing: &Drawing) -> Result<Drawn, Refusal> {
    drawn_in(drawing, Way::AtOnce)
}

/// Draws a call, all refusals judged, 13 for each band of its way. A call's rows are cut from zeno's
/// whole label: a band stores what the label stores in the band's rows, record by record (the tests
/// of `alone` hold zeno to that).
pub fn drawn_in(drawing: &Drawing, way: Way) -> Result<Drawn, Refusal> {
    let path = reading::judge(drawing)?;
    let Inked { mask, cells, since } = inked(drawing, &path);
    let own = places_in(&cells, drawing.first..drawing.end);
    let since = &since[own.clone()];
    let cells = counted_from(drawing.first, &cells[own]);
    for band in way.bands(drawing.rows()) {
        let rows = band.len();
        let since = &since[places_in(&cells, band)];
        reading::judge_room(since, drawing.words.len(), rows)?;
    }
    Ok(Drawn {
        whole: mask,
        records: path.len(),
        cells,
        cut: cuts(&path, drawing.transform, drawing.offset),
    })
}

/// zeno's label of a call with this path in the place of its own, whose points must pass: height rows
/// of width bytes, not up, and every cell.
pub fn painted(drawing: &Drawing, path: &[Command]) -> (Vec<u8>, Vec<CellAt>) {
    let Inked { mask, cells, .. } = inked(drawing, path);
    (mask, cells)
}

fn inked(drawing: &Drawing, path: &[Command]) -> Inked {
    let label = label_of(drawing, path, false, drawing.width);
    oracle::inked(&label).expect("an accepted label is within reach")
}

/// Which of the cells, rows rising, lie in these rows.
pub fn places_in(cells: &[CellAt], rows: Range<usize>) -> Range<usize> {
    let before = |row: usize| cells.partition_point(|cell| (cell.row as usize) < row);
    before(rows.start)..before(rows.end)
}

/// The same cells, rows counted from this one.
fn counted_from(first: usize, cells: &[CellAt]) -> Vec<CellAt> {
    let counted = |cell: &CellAt| CellAt {
        row: cell.row - first as i32,
        ..*cell
    };
    cells.iter().map(counted).collect()
}

/// The outcome of a call. The words are zero after 0 and 13, and as they were after another number.
pub fn outcome(drawing: &Drawing) -> Outcome {
    outcome_in(drawing, Way::AtOnce)
}

/// The outcome of a call that is drawn this way.
pub fn outcome_in(drawing: &Drawing, way: Way) -> Outcome {
    let wiped = || vec![0; drawing.words.len()];
    match drawn_in(drawing, way) {
        Ok(drawn) => Outcome {
            number: 0,
            index: 0,
            records: drawn.records,
            cells: drawn.cells.len(),
            cut: drawn.cut,
            mask: band_mask(drawing, &drawn.whole),
            words: wiped(),
        },
        Err(refusal) if refusal.number == 13 => refused(drawing, refusal, wiped()),
        Err(refusal) => refused(drawing, refusal, drawing.words.clone()),
    }
}

/// The box of a list.
pub fn bounds(list: &[u8], transform: Transform) -> Result<Bounds, Refusal> {
    let path = reading::judge_bounds(list, &transform)?;
    Ok(oracle::bounds(&path, transform))
}

/// What an accepted placement answers.
#[derive(Clone, Copy, Debug, Default)]
pub struct PlacedList {
    /// The new offset.
    pub offset: Vector,
    pub place: Placement,
    /// How many coordinates of the list are cut.
    pub cut: usize,
}

/// The placement of a list.
pub fn placement(
    list: &[u8],
    transform: Transform,
    offset: Vector,
    origin: Origin,
) -> Result<PlacedList, Refusal> {
    let path = reading::judge_placement(list, &transform, offset)?;
    let bounds = oracle::bounds(&path, transform);
    let (new_offset, place) = Placement::compute(origin, offset, &bounds);
    Ok(PlacedList {
        offset: new_offset,
        place,
        cut: cuts(&path, transform, offset),
    })
}

/// How many coordinates of a path whose points pass are cut: by the reading, of zeno's points.
pub fn cuts(path: &[Command], transform: Transform, offset: Vector) -> usize {
    reading::cuts(oracle::points(path, transform, offset))
}

fn label_of<'a>(drawing: &Drawing, path: &'a [Command], up: bool, pitch: usize) -> Label<'a> {
    Label {
        path,
        transform: drawing.transform,
        offset: drawing.offset,
        fill: drawing.fill,
        up,
        width: drawing.width,
        height: drawing.height,
        pitch,
    }
}

fn refused(drawing: &Drawing, refusal: Refusal, words: Vec<u32>) -> Outcome {
    Outcome {
        number: refusal.number,
        index: refusal.index,
        records: 0,
        cells: 0,
        cut: 0,
        mask: drawing.mask.clone(),
        words,
    }
}

/// The lent mask with the band's rows painted into it: width bytes in each and no others.
fn band_mask(drawing: &Drawing, whole: &[u8]) -> Vec<u8> {
    let mut mask = drawing.mask.clone();
    let width = drawing.width;
    for row in drawing.first..drawing.end {
        let from_top = if drawing.up {
            drawing.end - 1 - row
        } else {
            row - drawing.first
        };
        let at = from_top * drawing.pitch;
        mask[at..at + width].copy_from_slice(&whole[row * width..(row + 1) * width]);
    }
    mask
}
