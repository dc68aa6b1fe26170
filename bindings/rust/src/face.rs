//! The C face of the library as safe functions: all of the crate's unsafe code.
//!
//! | what the C face asks of its caller | why it holds here |
//! |---|---|
//! | pointers valid for their lengths, words aligned to 4 | each pair is one slice's |
//! | list, mask and words do not overlap, nothing else writes them | a `&` and two `&mut` |
//! | lengths within PTRDIFF_MAX bytes | no slice is longer than `isize::MAX` bytes |
//! | a bool holds 0 or 1 | as every `bool`; those of `mz_label`'s answer are the library's own |
//! | the structs are those of mosszephyr.h | `repr(C)`, the same fields in the same order; sizes and offsets are asserted below |
//!
//! Every number may be anything: the library judges them.

#![allow(unsafe_code)]

use std::mem::{offset_of, size_of};
use std::ops::Range;

use crate::{Bounds, Drawn, Fill, Label, Origin, Placement, Point, Refusal, Transform};

#[repr(C)]
struct MzLabel {
    transform: Transform,
    offset_x: f32,
    offset_y: f32,
    even_odd: bool,
    up: bool,
    width: usize,
    height: usize,
    pitch: usize,
    first: usize,
    end: usize,
}

#[repr(C)]
struct MzDrawn {
    number: u32,
    index: u32,
    records: u32,
    cells: u32,
    cut: u32,
}

#[repr(C)]
struct MzBounds {
    number: u32,
    index: u32,
    min_x: f32,
    min_y: f32,
    max_x: f32,
    max_y: f32,
}

#[repr(C)]
struct MzPlacement {
    number: u32,
    index: u32,
    offset_x: f32,
    offset_y: f32,
    left: i32,
    top: i32,
    width: u32,
    height: u32,
    cut: u32,
}

/// A struct has its size and its fields their offsets, as mosszephyr.h asserts them.
macro_rules! laid_out {
    ($name:ident, $size:literal, $($field:ident $offset:literal),+) => {
        const _: () = {
            assert!(size_of::<$name>() == $size);
            $(assert!(offset_of!($name, $field) == $offset);)+
        };
    };
}

laid_out!(Point, 8, x 0, y 4);
laid_out!(Transform, 24, xx 0, xy 4, yx 8, yy 12, x 16, y 20);
laid_out!(MzLabel, 80, transform 0, offset_x 24, offset_y 28, even_odd 32, up 33,
    width 40, height 48, pitch 56, first 64, end 72);
laid_out!(MzDrawn, 20, number 0, index 4, records 8, cells 12, cut 16);
laid_out!(MzBounds, 24, number 0, index 4, min_x 8, min_y 12, max_x 16, max_y 20);
laid_out!(MzPlacement, 36, number 0, index 4, offset_x 8, offset_y 12, left 16, top 20,
    width 24, height 28, cut 32);

#[link(name = "mosszephyr", kind = "static")]
extern "C" {
    fn mz_draw(
        list: *const u8,
        list_len: usize,
        label: MzLabel,
        mask: *mut u8,
        mask_len: usize,
        words: *mut u32,
        words_len: usize,
    ) -> MzDrawn;

    fn mz_draw_in_bands(
        list: *const u8,
        list_len: usize,
        label: MzLabel,
        step: usize,
        mask: *mut u8,
        mask_len: usize,
        words: *mut u32,
        words_len: usize,
    ) -> MzDrawn;

    fn mz_bounds(list: *const u8, list_len: usize, transform: Transform) -> MzBounds;

    fn mz_placement(
        list: *const u8,
        list_len: usize,
        transform: Transform,
        offset_x: f32,
        offset_y: f32,
        bottom_left: bool,
    ) -> MzPlacement;

    fn mz_label(width: usize, height: usize) -> MzLabel;

    fn mz_identity() -> Transform;
    fn mz_translation(x: f32, y: f32) -> Transform;
    fn mz_scale(x: f32, y: f32) -> Transform;
    fn mz_then(t: Transform, next: Transform) -> Transform;
    fn mz_then_scale(t: Transform, x: f32, y: f32) -> Transform;
    fn mz_then_translate(t: Transform, x: f32, y: f32) -> Transform;
    fn mz_pre_scale(t: Transform, x: f32, y: f32) -> Transform;
    fn mz_pre_translate(t: Transform, x: f32, y: f32) -> Transform;
    fn mz_transform_point(t: Transform, x: f32, y: f32) -> Point;
    fn mz_transform_vector(t: Transform, x: f32, y: f32) -> Point;
}

pub fn draw(
    list: &[u8],
    label: &Label,
    band: Range<usize>,
    mask: &mut [u8],
    words: &mut [u32],
) -> Result<Drawn, Refusal> {
    // SAFETY: each pointer and length is that of one slice, lent for the call: see the table above.
    let drawn = unsafe {
        mz_draw(
            list.as_ptr(),
            list.len(),
            told(label, band),
            mask.as_mut_ptr(),
            mask.len(),
            words.as_mut_ptr(),
            words.len(),
        )
    };
    counts(drawn, list)
}

pub fn draw_in_bands(
    list: &[u8],
    label: &Label,
    band: Range<usize>,
    step: usize,
    mask: &mut [u8],
    words: &mut [u32],
) -> Result<Drawn, Refusal> {
    // SAFETY: as for `draw`.
    let drawn = unsafe {
        mz_draw_in_bands(
            list.as_ptr(),
            list.len(),
            told(label, band),
            step,
            mask.as_mut_ptr(),
            mask.len(),
            words.as_mut_ptr(),
            words.len(),
        )
    };
    counts(drawn, list)
}

pub fn bounds(list: &[u8], transform: Transform) -> Result<Bounds, Refusal> {
    // SAFETY: the pointer and the length are those of one slice, which is only read.
    let found = unsafe { mz_bounds(list.as_ptr(), list.len(), transform) };
    accepted(found.number, found.index, list)?;
    Ok(Bounds {
        min: Point::new(found.min_x, found.min_y),
        max: Point::new(found.max_x, found.max_y),
    })
}

pub fn placement(
    list: &[u8],
    transform: Transform,
    offset: Point,
    origin: Origin,
) -> Result<Placement, Refusal> {
    // SAFETY: the pointer and the length are those of one slice, which is only read.
    let placed = unsafe {
        mz_placement(
            list.as_ptr(),
            list.len(),
            transform,
            offset.x,
            offset.y,
            origin == Origin::BottomLeft,
        )
    };
    accepted(placed.number, placed.index, list)?;
    Ok(Placement {
        offset: Point::new(placed.offset_x, placed.offset_y),
        left: placed.left,
        top: placed.top,
        width: placed.width as usize,
        height: placed.height as usize,
        cut: placed.cut as usize,
    })
}

pub fn label(width: usize, height: usize) -> Label {
    // SAFETY: only numbers are handed over.
    let begun = unsafe { mz_label(width, height) };
    Label {
        width: begun.width,
        height: begun.height,
        pitch: begun.pitch,
        transform: begun.transform,
        offset: Point::new(begun.offset_x, begun.offset_y),
        fill: if begun.even_odd {
            Fill::EvenOdd
        } else {
            Fill::NonZero
        },
        origin: if begun.up {
            Origin::BottomLeft
        } else {
            Origin::TopLeft
        },
    }
}

/// A transform's function of the library as a safe one.
macro_rules! numbers_alone {
    ($($name:ident = $of:ident($($part:ident: $kind:ty),*) -> $answer:ty;)+) => {
        $(pub fn $name($($part: $kind),*) -> $answer {
            // SAFETY: only numbers are handed over, and every number may be.
            unsafe { $of($($part),*) }
        })+
    };
}

numbers_alone! {
    identity = mz_identity() -> Transform;
    translation = mz_translation(x: f32, y: f32) -> Transform;
    scale = mz_scale(x: f32, y: f32) -> Transform;
    then = mz_then(t: Transform, next: Transform) -> Transform;
    then_scale = mz_then_scale(t: Transform, x: f32, y: f32) -> Transform;
    then_translate = mz_then_translate(t: Transform, x: f32, y: f32) -> Transform;
    pre_scale = mz_pre_scale(t: Transform, x: f32, y: f32) -> Transform;
    pre_translate = mz_pre_translate(t: Transform, x: f32, y: f32) -> Transform;
    transform_point = mz_transform_point(t: Transform, x: f32, y: f32) -> Point;
    transform_vector = mz_transform_vector(t: Transform, x: f32, y: f32) -> Point;
}

/// A band of a label as the C face takes it.
fn told(label: &Label, band: Range<usize>) -> MzLabel {
    MzLabel {
        transform: label.transform,
        offset_x: label.offset.x,
        offset_y: label.offset.y,
        even_odd: label.fill == Fill::EvenOdd,
        up: label.origin == Origin::BottomLeft,
        width: label.width,
        height: label.height,
        pitch: label.pitch,
        first: band.start,
        end: band.end,
    }
}

fn counts(drawn: MzDrawn, list: &[u8]) -> Result<Drawn, Refusal> {
    accepted(drawn.number, drawn.index, list)?;
    Ok(Drawn {
        records: drawn.records as usize,
        cells: drawn.cells as usize,
        cut: drawn.cut as usize,
    })
}

/// 0 is an accepted call, any other number a refusal.
fn accepted(number: u32, index: u32, list: &[u8]) -> Result<(), Refusal> {
    match number {
        0 => Ok(()),
        number => Err(Refusal::new(number, index as usize, list)),
    }
}
