//! The parts of the comparison that need no archive of the port: zeno as an oracle, numbers and
//! paths drawn from a seed, and an independent reading of the rules.
//!
//! | module | what it holds |
//! |---|---|
//! | `zeno` | zeno's three files, unchanged, and what they import |
//! | `oracle` | safe functions over zeno: masks, cells and the commands that store them, runs, bounds, placements |
//! | `combining` | one transform followed by another, as zeno has it through a swap; where it is exact; a table written by hand |
//! | `numbers` | the dice, and numbers of every character |
//! | `order` | the orders in which a row's places are filled |
//! | `grid` | paths on the grid of 1/256 and beside it, and what moves them onto it or off it |
//! | `list` | path lists: written as bytes, told in words, made simpler |
//! | `paths` | paths of every character, exhaustive small ones, text, real outlines, large ones, bars, hatchings, rows filled in order, damaged lists |
//! | `drawing` | one call of a drawing; calls drawn from the dice, at boundaries, at limits, without room, in bands, of rows filled in order, beside the grid, wild ones |
//! | `placing` | one call of bounds or of a placement, and such calls drawn from the dice |
//! | `stores` | one call of the pool, store by store; calls in every order, of drawings, at the cap, wild ones |
//! | `boundaries` | every boundary and refusal of docs/RULES.md and coordinates cut as a table written by hand |
//! | `reading` | the rules' refusals, cut coordinates, boxes, placements and pixels, read independently |
//! | `driver` | what a call must leave behind, by the reading and zeno together |
//! | `alone` | bands drawn by zeno alone, and the record at which one lacks room |
//! | `pool` | the cells in the words of a workspace |
//! | `lent` | what is lent to the port, between marks |
//! | `fixture` | stored answers for another program to replay |
//! | `shrink` | a smaller form of a case that differs |
//! | `flags` | a command's flags |

// Decimals are written as docs/RULES.md has them, exactly.
#![allow(clippy::excessive_precision)]

pub mod alone;
pub mod boundaries;
pub mod combining;
pub mod drawing;
pub mod driver;
pub mod fixture;
pub mod flags;
pub mod grid;
pub mod lent;
pub mod list;
pub mod numbers;
pub mod oracle;
pub mod order;
pub mod paths;
pub mod placing;
pub mod pool;
pub mod reading;
pub mod shrink;
pub mod stores;
pub mod zeno;

#[cfg(test)]
mod agreement;
#[cfg(test)]
mod labels;
#[cfg(test)]
mod slanted;

/// From zeno's src/lib.rs, where it stands for the `Vec` of alloc.
mod lib {
    pub use std::vec::Vec;
}

// From zeno's src/lib.rs, with its feature `std` on and `libm` off.
macro_rules! define_f32_ext {
    ($($fpname:ident($($argname:ident: $argty:ty),*) -> $ret:ty;)*) => {
        /// An extension trait defining floating point operations.
        #[allow(dead_code)]
        trait F32Ext {
            $(
            fn $fpname(self, $($argname:$argty),*) -> $ret;
            )*
        }

        impl F32Ext for f32 {
            $(
            fn $fpname(self, $($argname:$argty),*) -> $ret {
                // This intrinsic is natively defined in libstd.
                f32::$fpname(self, $($argname),*)
            }
            )*
        }
    }
}

define_f32_ext! {
    abs() -> f32;
    acos() -> f32;
    atan2(x:f32) -> f32;
    ceil() -> f32;
    cos() -> f32;
    floor() -> f32;
    sin_cos() -> (f32, f32);
    sqrt() -> f32;
    powf(x:f32) -> f32;
    powi(x:i32) -> f32;
    tan() -> f32;
}
