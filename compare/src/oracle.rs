//! What zeno answers, as safe functions. Its transforms are called through their own functions
//! (`translation`, `scale`, `then_translate`, `transform_point`, `transform_vector`; `then`,
//! `then_scale`, `pre_scale` and `pre_translate` for the port's by `combining`), its placements through
//! `Placement::compute`, a box of points through `Bounds::from_points`; the rasterizer needs the care
//! that stands here.

use std::rc::Rc;
use std::slice;

use crate::list;
use crate::zeno::path_data;
use crate::zeno::raster::{Cell, FixedPoint, RasterStorage, Rasterizer};

pub use crate::zeno::command::Command;
pub use crate::zeno::geometry::{Bounds, Origin, Placement, Point, Transform, Vector};
pub use crate::zeno::raster::HeapStorage;
pub use crate::zeno::style::Fill;

/// A whole label for zeno to draw.
#[derive(Clone, Copy, Debug)]
pub struct Label<'a> {
    pub path: &'a [Command],
    pub transform: Transform,
    pub offset: Vector,
    pub fill: Fill,
    pub up: bool,
    pub width: usize,
    pub height: usize,
    pub pitch: usize,
}

/// A label drawn over `HeapStorage` into a zeroed mask.
#[derive(Clone, Debug, PartialEq)]
pub struct Painted {
    /// `pitch` bytes a row, the last row cut behind `width`.
    pub mask: Vec<u8>,
    /// How many cells the storage holds.
    pub cells: usize,
}

/// One stored place with its sums.
#[derive(Clone, Copy, Debug, PartialEq)]
pub struct CellAt {
    pub row: i32,
    /// From -1, which stands for every column left of the label.
    pub column: i32,
    pub cover: i32,
    pub area: i32,
}

/// A pair as it is stored, and the command that stores it.
#[derive(Clone, Copy, Debug, PartialEq)]
pub struct Given {
    pub pair: CellAt,
    /// Counted from 0; what zeno stores behind the last command is by the number of commands.
    pub by: usize,
    /// How many cells zeno's storage holds with it.
    pub held: usize,
}

/// A label with every stored cell.
#[derive(Clone, Debug, PartialEq)]
pub struct Inked {
    /// As `Painted` has it.
    pub mask: Vec<u8>,
    /// Rows rising and columns rising in a row.
    pub cells: Vec<CellAt>,
    /// For each cell the command that stored into it first.
    pub since: Vec<usize>,
}

/// One run of `rasterize_write`, empty ones included.
#[derive(Clone, Copy, Debug, PartialEq)]
pub struct Run {
    pub row: usize,
    pub column: usize,
    pub count: usize,
    pub value: u8,
}

/// The side of the largest label that is asked of zeno: twice the port's.
pub const SIDE: usize = 8192;

/// How far a point may lie from zero, in 1/256 of a pixel: twice the point rule's limit, less one.
/// Beyond it zeno's products may leave 32 bits and its walk need not end; where the float does not
/// fit an i32, `to_fixed` is undefined.
pub const REACH: f32 = 2_097_151.0;

/// The mask and the number of cells, or nothing where zeno may not be asked.
pub fn painted(label: &Label) -> Option<Painted> {
    let mut storage = HeapStorage::default();
    let mask = rasterize(label, &mut storage)?;
    Some(Painted {
        mask,
        cells: storage.cells().len(),
    })
}

/// The mask and every stored cell with the command that stored into it first, or nothing where zeno
/// may not be asked.
pub fn inked(label: &Label) -> Option<Inked> {
    let (mask, storage) = noted(label)?;
    let (cells, since) = storage.summed();
    Some(Inked { mask, cells, since })
}

/// The mask and every stored cell alone.
pub fn painted_cells(label: &Label) -> Option<(Vec<u8>, Vec<CellAt>)> {
    inked(label).map(|inked| (inked.mask, inked.cells))
}

/// The pairs that are stored for a label, in zeno's order, or nothing where zeno may not be asked.
pub fn given(label: &Label) -> Option<Vec<Given>> {
    noted(label).map(|(_, storage)| storage.given)
}

/// What is stored after these pairs, of rows below `rows`: every cell, rows rising and columns
/// rising in a row.
pub fn stored(rows: usize, pairs: &[CellAt]) -> Vec<CellAt> {
    let mut storage = Noted::default();
    store(rows, pairs, &mut storage);
    storage.summed().0
}

/// Empties a storage for so many rows and gives it these pairs. It holds any column.
pub fn store(rows: usize, pairs: &[CellAt], storage: &mut impl RasterStorage) {
    storage.reset(FixedPoint::new(0, 0), FixedPoint::new(0, rows as i32));
    for pair in pairs {
        storage.set(pair.column, pair.row, pair.area, pair.cover);
    }
}

/// The runs of `rasterize_write` in the order in which it hands them out, or nothing where zeno may
/// not be asked. Rows are the path's own, whatever `up` and `pitch` are.
pub fn runs(label: &Label) -> Option<Vec<Run>> {
    if !may_be_asked(label) {
        return None;
    }
    let mut storage = HeapStorage::default();
    let mut runs = Vec::new();
    Rasterizer::new(&mut storage).rasterize_write(
        label.offset,
        label.width as u32,
        label.height as u32,
        &mut |sink| path_data::apply(label.path, label.transform, sink),
        label.fill,
        1,
        false,
        &mut |row, column, count, value| {
            runs.push(Run {
                row,
                column,
                count,
                value,
            })
        },
    );
    Some(runs)
}

/// The box of a path's transformed points, control points included.
pub fn bounds(path: &[Command], transform: Transform) -> Bounds {
    path_data::bounds(path, transform)
}

/// A path's points, control points included, as the rasterizer cuts them to fixed numbers: transformed
/// and then moved.
pub fn points(
    path: &[Command],
    transform: Transform,
    offset: Vector,
) -> impl Iterator<Item = Point> + '_ {
    let points = path.iter().flat_map(|command| list::parts(command).1);
    points.map(move |point| transform.transform_point(point) + offset)
}

/// Whether zeno ends and stays defined: sizes of at most `SIDE`, a pitch of at least the width, and
/// every point within `REACH`.
pub fn may_be_asked(label: &Label) -> bool {
    let sizes = label.width <= SIDE && label.height <= SIDE && label.pitch >= label.width;
    let near = |part: f32| (part * 256.0).abs() < REACH + 1.0;
    let mut points = points(label.path, label.transform, label.offset);
    sizes && points.all(|point| near(point.x) && near(point.y))
}

fn rasterize(label: &Label, storage: &mut impl RasterStorage) -> Option<Vec<u8>> {
    let askable = Askable::new(*label)?;
    let mut mask = blank(label);
    askable.paint(storage, &mut mask, || {});
    Some(mask)
}

/// A mask of zeros for a label.
fn blank(label: &Label) -> Vec<u8> {
    let rows_before_last = label.height.checked_sub(1);
    let length = rows_before_last.map_or(0, |rows| label.pitch * rows + label.width);
    vec![0; length]
}

/// The mask, and a storage that has noted which command gave what.
fn noted(label: &Label) -> Option<(Vec<u8>, Noted)> {
    let askable = Askable::new(*label)?;
    let mut mask = blank(label);
    let mut storage = Noted::default();
    let done = Rc::clone(&storage.done);
    askable.rasterize(&mut storage, &mut mask, |sink| {
        for command in label.path {
            path_data::apply(slice::from_ref(command), label.transform, sink);
            done.set(done.get() + 1);
        }
    });
    Some((mask, storage))
}

/// A label that zeno may be asked for, found so once, to be drawn any number of times.
pub struct Askable<'a>(Label<'a>);

impl<'a> Askable<'a> {
    pub fn new(label: Label<'a>) -> Option<Askable<'a>> {
        may_be_asked(&label).then_some(Askable(label))
    }

    /// Draws into a mask of zeros. `when_drawn` is called between the path and the sweep.
    pub fn paint<S: RasterStorage>(
        &self,
        storage: &mut S,
        mask: &mut [u8],
        mut when_drawn: impl FnMut(),
    ) {
        let label = &self.0;
        self.rasterize(storage, mask, |sink| {
            path_data::apply(label.path, label.transform, sink);
            when_drawn();
        });
    }

    /// The same, the path applied by `apply`.
    fn rasterize<S: RasterStorage>(
        &self,
        storage: &mut S,
        mask: &mut [u8],
        mut apply: impl FnMut(&mut Rasterizer<'_, S>),
    ) {
        let label = &self.0;
        Rasterizer::new(storage).rasterize(
            label.offset,
            label.width as u32,
            label.height as u32,
            &mut apply,
            label.fill,
            mask,
            label.pitch,
            label.up,
        );
    }
}

/// `HeapStorage` with a note of every pair that it is given.
///
/// The fields of zeno's `Cell` are private to raster.rs, which must stay as it is, so the cells are
/// read where they go in: at the storage trait, which raster.rs draws through. The sums are made
/// here as `HeapStorage::set` makes them; the tests paint masks from them and hold these to zeno's.
#[derive(Default)]
struct Noted {
    heap: HeapStorage,
    given: Vec<Given>,
    /// How many commands have been applied; who applies them counts.
    done: Rc<std::cell::Cell<usize>>,
}

impl RasterStorage for Noted {
    fn reset(&mut self, min: FixedPoint, max: FixedPoint) {
        self.given.clear();
        self.heap.reset(min, max);
    }

    fn cells(&self) -> &[Cell] {
        self.heap.cells()
    }

    fn indices(&self) -> &[i32] {
        self.heap.indices()
    }

    fn set(&mut self, x: i32, y: i32, area: i32, cover: i32) {
        self.heap.set(x, y, area, cover);
        self.given.push(Given {
            pair: CellAt {
                row: y,
                column: x,
                cover,
                area,
            },
            by: self.done.get(),
            held: self.heap.cells().len(),
        });
    }
}

impl Noted {
    /// The distinct places in order, each with its wrapping sums, and who stored into each first.
    fn summed(mut self) -> (Vec<CellAt>, Vec<usize>) {
        // Stable, so that a place's pairs stay in zeno's order.
        self.given
            .sort_by_key(|given| (given.pair.row, given.pair.column));
        let count = self.heap.cells().len();
        let mut cells: Vec<CellAt> = Vec::with_capacity(count);
        let mut since = Vec::with_capacity(count);
        for Given { pair, by, .. } in &self.given {
            match cells.last_mut() {
                Some(cell) if (cell.row, cell.column) == (pair.row, pair.column) => {
                    cell.cover = cell.cover.wrapping_add(pair.cover);
                    cell.area = cell.area.wrapping_add(pair.area);
                }
                _ => {
                    cells.push(*pair);
                    since.push(*by);
                }
            }
        }
        assert_eq!(cells.len(), count, "zeno's own count");
        (cells, since)
    }
}
