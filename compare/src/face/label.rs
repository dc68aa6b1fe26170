//! The port's drawings, bounds and placements of lists. Slices pass as a pointer and a length.

use super::MzTransform;
use compare::drawing::Drawing;
use compare::driver::PlacedList;
use compare::oracle::{Bounds, Fill, Origin, Placement, Point};
use compare::placing::Placing;

/// What a drawing answers.
#[repr(C)]
#[derive(Clone, Copy, Debug, Default, PartialEq, Eq)]
pub struct Drawn {
    pub number: u32,
    pub index: u32,
    pub records: u32,
    pub cells: u32,
    pub cut: u32,
}

#[repr(C)]
#[derive(Clone, Copy)]
struct MzBounds {
    number: u32,
    index: u32,
    min_x: f32,
    min_y: f32,
    max_x: f32,
    max_y: f32,
}

#[repr(C)]
#[derive(Clone, Copy)]
struct MzPlacement {
    number: u32,
    index: u32,
    offset_x: f32,
    offset_y: f32,
    left: i32,
    top: i32,
    width: u32,
    height: u32,
    cut: u32,
}

/// A call's numbers, as the C face takes them.
#[repr(C)]
#[derive(Clone, Copy)]
pub struct MzLabel {
    transform: MzTransform,
    offset_x: f32,
    offset_y: f32,
    even_odd: bool,
    up: bool,
    width: usize,
    height: usize,
    pitch: usize,
    first: usize,
    end: usize,
}

extern "C" {
    fn mz_draw(
        list: *const u8,
        list_len: usize,
        label: MzLabel,
        mask: *mut u8,
        mask_len: usize,
        words: *mut u32,
        words_len: usize,
    ) -> Drawn;
    fn mz_draw_in_bands(
        list: *const u8,
        list_len: usize,
        label: MzLabel,
        step: usize,
        mask: *mut u8,
        mask_len: usize,
        words: *mut u32,
        words_len: usize,
    ) -> Drawn;
    fn mz_bounds(list: *const u8, list_len: usize, transform: MzTransform) -> MzBounds;
    fn mz_placement(
        list: *const u8,
        list_len: usize,
        transform: MzTransform,
        offset_x: f32,
        offset_y: f32,
        bottom_left: bool,
    ) -> MzPlacement;
}

/// Number and index of an answer, and what it says besides.
pub struct Answer<T> {
    pub number: u32,
    pub index: u32,
    pub rest: T,
}

/// Draws a call with this list, mask and workspace in the place of its own.
pub fn draw(call: &Drawing, list: &[u8], mask: &mut [u8], words: &mut [u32]) -> Drawn {
    // SAFETY: each pointer and length are those of one slice, of which the list is only read.
    unsafe {
        mz_draw(
            list.as_ptr(),
            list.len(),
            call.into(),
            mask.as_mut_ptr(),
            mask.len(),
            words.as_mut_ptr(),
            words.len(),
        )
    }
}

/// The same in bands of `step` rows.
pub fn draw_in_bands(
    call: &Drawing,
    step: usize,
    list: &[u8],
    mask: &mut [u8],
    words: &mut [u32],
) -> Drawn {
    // SAFETY: as for `draw`.
    unsafe {
        mz_draw_in_bands(
            list.as_ptr(),
            list.len(),
            call.into(),
            step,
            mask.as_mut_ptr(),
            mask.len(),
            words.as_mut_ptr(),
            words.len(),
        )
    }
}

/// The box of a call with this list in the place of its own.
pub fn bounds(call: &Placing, list: &[u8]) -> Answer<Bounds> {
    // SAFETY: the pointer and the length are those of one slice, which is only read.
    let b = unsafe { mz_bounds(list.as_ptr(), list.len(), call.transform.into()) };
    Answer {
        number: b.number,
        index: b.index,
        rest: Bounds::new(Point::new(b.min_x, b.min_y), Point::new(b.max_x, b.max_y)),
    }
}

/// The placement of a call with this list in the place of its own.
pub fn placement(call: &Placing, list: &[u8]) -> Answer<PlacedList> {
    // SAFETY: as for `bounds`.
    let p = unsafe {
        mz_placement(
            list.as_ptr(),
            list.len(),
            call.transform.into(),
            call.offset.x,
            call.offset.y,
            call.origin == Origin::BottomLeft,
        )
    };
    let place = Placement {
        left: p.left,
        top: p.top,
        width: p.width,
        height: p.height,
    };
    Answer {
        number: p.number,
        index: p.index,
        rest: PlacedList {
            offset: Point::new(p.offset_x, p.offset_y),
            place,
            cut: p.cut as usize,
        },
    }
}

impl From<&Drawing> for MzLabel {
    fn from(call: &Drawing) -> MzLabel {
        MzLabel {
            transform: call.transform.into(),
            offset_x: call.offset.x,
            offset_y: call.offset.y,
            even_odd: call.fill == Fill::EvenOdd,
            up: call.up,
            width: call.width,
            height: call.height,
            pitch: call.pitch,
            first: call.first,
            end: call.end,
        }
    }
}
