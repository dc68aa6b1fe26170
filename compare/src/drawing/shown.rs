//! A call in words.

use super::Drawing;
use crate::list;
use crate::numbers;
use crate::oracle::{Fill, Point, Transform};

impl Drawing {
    pub fn shown(&self) -> String {
        let rule = rule_shown(self.fill);
        let way = if self.up { "up" } else { "down" };
        format!(
            "{}{}  {rule}, {way}, width {}, height {}, pitch {}, band [{}, {})\n  \
             mask of {} bytes before: {}\n  workspace of {} words before: {}\n",
            list::shown(&self.list),
            floats_shown(&self.transform, self.offset),
            self.width,
            self.height,
            self.pitch,
            self.first,
            self.end,
            self.mask.len(),
            held(&self.mask),
            self.words.len(),
            held(&self.words),
        )
    }
}

pub fn rule_shown(fill: Fill) -> &'static str {
    match fill {
        Fill::NonZero => "nonzero",
        Fill::EvenOdd => "even-odd",
    }
}

/// The transform and the offset with their bits.
pub fn floats_shown(t: &Transform, offset: Point) -> String {
    let shown = numbers::shown;
    format!(
        "  transform xx {} xy {} yx {} yy {} x {} y {}\n  offset {} {}\n",
        shown(t.xx),
        shown(t.xy),
        shown(t.yx),
        shown(t.yy),
        shown(t.x),
        shown(t.y),
        shown(offset.x),
        shown(offset.y),
    )
}

/// What lent entries hold: the first few.
fn held<T: PartialEq + Default + std::fmt::Debug>(entries: &[T]) -> String {
    const FIRST: usize = 16;
    if entries.iter().all(|entry| *entry == T::default()) {
        return "zeros".to_string();
    }
    let more = if entries.len() > FIRST { " .." } else { "" };
    format!("{:?}{more}", &entries[..entries.len().min(FIRST)])
}
