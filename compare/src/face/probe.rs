//! What is compared beside the C face: the cells of a drawing before they are swept, a pool store by
//! store, a box of points, and a box placed.

use super::label::{Drawn, MzLabel};
use super::MzPoint;
use compare::drawing::Drawing;
use compare::oracle::{Bounds, Origin, Placement, Point};

#[repr(C)]
#[derive(Clone, Copy)]
struct MzBox {
    min_x: f32,
    min_y: f32,
    max_x: f32,
    max_y: f32,
}

#[repr(C)]
#[derive(Clone, Copy)]
struct MzPlaced {
    placed: bool,
    offset_x: f32,
    offset_y: f32,
    left: i32,
    top: i32,
    width: u32,
    height: u32,
}

#[link(name = "probe", kind = "static")]
extern "C" {
    fn mz_probe_cells(
        list: *const u8,
        list_len: usize,
        label: MzLabel,
        words: *mut u32,
        words_len: usize,
    ) -> Drawn;
    fn mz_probe_stores(
        pairs: *const u32,
        pairs_len: usize,
        rows: usize,
        words: *mut u32,
        words_len: usize,
    ) -> u64;
    fn mz_probe_box(points: *const f32, len: usize) -> MzBox;
    fn mz_probe_place(b: MzBox, offset: MzPoint, bottom_left: bool) -> MzPlaced;
}

/// What the port answers for a placement. Where it places nothing, the rest is to be 0.
pub struct Placed {
    pub placed: bool,
    pub offset: Point,
    pub place: Placement,
}

/// Draws a call's cells into this workspace and leaves them there.
pub fn cells(call: &Drawing, list: &[u8], words: &mut [u32]) -> Drawn {
    // SAFETY: each pointer and length are those of one slice, of which the list is only read.
    unsafe {
        mz_probe_cells(
            list.as_ptr(),
            list.len(),
            call.into(),
            words.as_mut_ptr(),
            words.len(),
        )
    }
}

/// Stores pairs, four numbers each, into a pool of so many rows and leaves the cells there; answers
/// how many there are.
pub fn stores(pairs: &[u32], rows: usize, words: &mut [u32]) -> u64 {
    // SAFETY: each pointer and length are those of one slice, of which the pairs are only read.
    unsafe {
        mz_probe_stores(
            pairs.as_ptr(),
            pairs.len(),
            rows,
            words.as_mut_ptr(),
            words.len(),
        )
    }
}

/// The box of points given as x, y, x, y and so on.
pub fn box_of(numbers: &[f32]) -> Bounds {
    // SAFETY: the pointer and the length are those of one slice, which is only read.
    unsafe { mz_probe_box(numbers.as_ptr(), numbers.len()) }.into()
}

pub fn place(b: Bounds, offset: Point, origin: Origin) -> Placed {
    let bottom_left = origin == Origin::BottomLeft;
    // SAFETY: plain numbers.
    let p = unsafe { mz_probe_place(b.into(), offset.into(), bottom_left) };
    Placed {
        placed: p.placed,
        offset: Point::new(p.offset_x, p.offset_y),
        place: Placement {
            left: p.left,
            top: p.top,
            width: p.width,
            height: p.height,
        },
    }
}

impl From<Point> for MzPoint {
    fn from(p: Point) -> MzPoint {
        MzPoint { x: p.x, y: p.y }
    }
}

impl From<Bounds> for MzBox {
    fn from(b: Bounds) -> MzBox {
        MzBox {
            min_x: b.min.x,
            min_y: b.min.y,
            max_x: b.max.x,
            max_y: b.max.y,
        }
    }
}

impl From<MzBox> for Bounds {
    fn from(b: MzBox) -> Bounds {
        Bounds::new(Point::new(b.min_x, b.min_y), Point::new(b.max_x, b.max_y))
    }
}
