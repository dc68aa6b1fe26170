//! The short bench: one line for each kind of label.

use super::passes::Pass;
use super::samples::{self, GROUPS};
use super::tables::{ms, ratio, row};
use super::timed::Timed;

/// Times every kind but the largest labels.
pub fn in_a_table(labels: u64, rounds: u64) -> Result<(), String> {
    let groups = samples::groups(&GROUPS, |name| name != "largest");
    let all = Timed::all(&groups, &[Pass::Whole], labels as usize, rounds)?;
    println!(
        "Milliseconds a label, {labels} labels a round, the best of {rounds} rounds. zeno clears"
    );
    println!("its mask inside the timing; the last ratio is to the same rounds without that.\n");
    println!("| labels | zeno, clearing its mask | port | ratio | without clearing |");
    println!("|---|---|---|---|---|");
    for timed in &all {
        let port = timed.port(Pass::Whole).best();
        let (zeno, uncleared) = (timed.zeno().best(), timed.zeno_uncleared().best());
        let ratios = [zeno, uncleared].map(|zeno| ratio(port, zeno));
        row(
            &timed.group.name,
            &[&[ms(zeno), ms(port)], &ratios[..]].concat(),
        );
    }
    Ok(())
}
