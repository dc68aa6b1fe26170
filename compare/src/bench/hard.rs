//! Labels on which zeno is hard to beat.

use super::passes::Pass;
use super::samples::{self, HARD};
use super::tables;
use super::timed::Timed;

/// One in so many labels is timed: zeno walks a long row from its start for every store.
const SHARE: u64 = 20;

pub fn beside_zeno(labels: u64, rounds: u64) -> Result<(), String> {
    let labels = labels.div_ceil(SHARE);
    let groups = samples::groups(&HARD, |_| true);
    let passes = [Pass::Whole, Pass::Cleared];
    let timed = Timed::all(&groups, &passes, labels as usize, rounds)?;
    println!("Where zeno is hard to beat.\n");
    tables::as_used(&timed, labels, rounds);
    tables::clearing_apart(&timed);
    Ok(())
}
