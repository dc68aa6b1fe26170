//! docs/RULES.md, "From cells to a byte".

use crate::oracle::{CellAt, Fill};

/// The byte of v / 512, rounded down. Nonzero: mirrored below 0, where −1 gives 0, 255 at most;
/// even-odd: up from 0 to 255 and back, again and again.
pub fn byte_of(v: i32, fill: Fill) -> u8 {
    let v = i64::from(v).div_euclid(512);
    let byte = match fill {
        Fill::NonZero if v < 0 => (-v - 1).min(255),
        Fill::NonZero => v.min(255),
        Fill::EvenOdd => match v.rem_euclid(512) {
            rest @ 0..=255 => rest,
            rest => 511 - rest,
        },
    };
    byte as u8
}

/// The mask of a whole label, pitch its width and up false, from its cells: v is
/// 512·cover − area, wrapping, with the cover of the row's cells as far as x and the area at x.
pub fn mask_of(cells: &[CellAt], fill: Fill, width: usize, height: usize) -> Vec<u8> {
    let mut mask = Vec::with_capacity(width * height);
    let mut rest = cells;
    for row in 0..height as i32 {
        let (here, later) = rest.split_at(rest.partition_point(|cell| cell.row <= row));
        rest = later;
        for x in 0..width as i32 {
            let up_to_x = here.iter().filter(|cell| cell.column <= x);
            let cover = up_to_x.fold(0i32, |sum, cell| sum.wrapping_add(cell.cover));
            let at_x = here.iter().find(|cell| cell.column == x);
            let area = at_x.map_or(0, |cell| cell.area);
            mask.push(byte_of(cover.wrapping_mul(512).wrapping_sub(area), fill));
        }
    }
    mask
}
