//! The table of transforms combined by hand, each row once.

use super::maps::ENTRIES;
use super::{agree, Kind, Verdict};
use crate::face;
use compare::combining::{Row, Side};
use compare::numbers::Dice;
use compare::shrink::Candidates;

pub struct ByHand(pub Vec<Row>);

const PORT: Side = Side {
    then: face::then,
    then_scale: face::then_scale,
    then_translate: face::then_translate,
    pre_scale: face::pre_scale,
    pre_translate: face::pre_translate,
    transform_point: face::transform_point,
};

impl Kind for ByHand {
    type Case = Row;

    fn name(&self) -> String {
        "transforms combined by hand".to_string()
    }

    fn draw(&self, number: u64, _: &mut Dice) -> Row {
        self.0[number as usize]
    }

    fn judge(&self, case: &Row) -> Verdict {
        let ours = (case.asked)(&PORT);
        let names = match case.told.len() {
            6 => &ENTRIES[..],
            _ => &["x", "y"],
        };
        agree("by hand", names, &ours, case.told)?;
        Ok("as written down".into())
    }

    /// None: each is written down as small as it is.
    fn simpler<'a>(&self, _: &'a Row) -> Candidates<'a, Row> {
        Box::new(std::iter::empty())
    }

    fn show(&self, case: &Row) -> String {
        format!("  {}\n", case.what)
    }
}
