//! The rules (docs/RULES.md) read once more, in plain Rust and independently of every other
//! program: what is refused with which number and index, which coordinates are cut, which box points
//! have, which byte a pixel gets. It shares the types of `oracle` and none of its arithmetic.

mod boxes;
mod cuts;
mod pixels;
mod records;
mod refusals;

pub use boxes::{box_of, place_is_refused, within_axis};
pub use cuts::{cuts, is_cut};
pub use pixels::{byte_of, mask_of};
pub use records::{record_at, record_starts, Record, LENGTHS};
pub use refusals::{
    judge, judge_bounds, judge_placement, judge_room, passes_point_rule, pool, Accepted, Refusal,
    REACH, SIDE,
};
