//! The port against zeno over `HeapStorage`: the same labels, one process, both in release.
//!
//! Zeno takes commands and a mask of zeros, and keeps its storage from label to label: as it is used,
//! the mask is cleared for each label. The port reads and judges a list of bytes, writes every byte
//! of the label and leaves its workspace wiped: it needs nothing cleared.
//!
//! Labels are of the kinds that are printed, of those on which zeno is hard to beat, and of those that
//! grow by one thing at a time. Beside them, long rows are filled store by store, in one order or
//! another, and long lists are judged and not drawn.

mod brief;
mod growth;
mod hard;
mod judging;
mod passes;
mod rows;
mod samples;
mod tables;
mod timed;

use crate::runs::Stopped;
use compare::flags::Flags;
use passes::Pass;
use samples::Group;
use timed::Timed;

pub const USAGE: &str = "compare bench [--labels N] [--rounds N] [--only \
     text|outlines|hatchings|curves|lines|largest|hard|growth|rows|judging]\n       \
     compare bench --brief [--labels N] [--rounds N]";

/// Times so many labels a round in so many rounds, and prints what it found.
type Part = fn(u64, u64) -> Result<(), String>;

/// What is timed beside the groups of labels, in the order of its running.
const PARTS: [(&str, Part); 4] = [
    ("hard", hard::beside_zeno),
    ("growth", growth::by_one_thing),
    ("rows", rows::in_every_order),
    ("judging", judging::of_long_lists),
];

pub fn bench(words: &[String]) -> Result<(), Stopped> {
    let known = ["--labels", "--rounds", "--only"];
    let flags = Flags::read_with(words, &known, &["--brief"]).map_err(Stopped::Asked)?;
    let is_brief = flags.has("--brief");
    let (labels, rounds) = if is_brief { (100, 3) } else { (5000, 5) };
    let number = |flag, otherwise| flags.number(flag, otherwise).map_err(Stopped::Asked);
    let labels = number("--labels", labels)?;
    let rounds = number("--rounds", rounds)?.max(1);
    match flags.word("--only") {
        Some(_) if is_brief => {
            let what = "bench takes one of --brief and --only";
            Err(Stopped::Asked(what.to_string()))
        }
        None if is_brief => brief::in_a_table(labels, rounds).map_err(Stopped::Different),
        only => in_parts(only, labels, rounds),
    }
}

/// Every part, or the one that is asked for.
fn in_parts(only: Option<&str>, labels: u64, rounds: u64) -> Result<(), Stopped> {
    let is_asked = |name: &str| only.is_none_or(|only| only == name);
    let groups = samples::groups(&samples::GROUPS, is_asked);
    let parts: Vec<Part> = PARTS
        .iter()
        .filter(|(name, _)| is_asked(name))
        .map(|&(_, part)| part)
        .collect();
    if groups.is_empty() && parts.is_empty() {
        let what = "bench --only takes one of text, outlines, hatchings, curves, lines, largest, \
                    hard, growth, rows, judging";
        return Err(Stopped::Asked(what.to_string()));
    }
    if !groups.is_empty() {
        of_labels(&groups, labels, rounds).map_err(Stopped::Different)?;
    }
    let between_parts = if only.is_none() { "\n" } else { "" };
    for part in parts {
        print!("{between_parts}");
        part(labels, rounds).map_err(Stopped::Different)?;
    }
    Ok(())
}

/// What is asked of the port for the tables of labels, each once in a round.
const PASSES: [Pass; 9] = [
    Pass::Whole,
    Pass::Cleared,
    Pass::Roomy,
    Pass::Judging,
    Pass::Unswept,
    Pass::Wiping,
    Pass::InBands(256),
    Pass::InBands(64),
    Pass::InBands(16),
];

fn of_labels(groups: &[Group], labels: u64, rounds: u64) -> Result<(), String> {
    let timed = Timed::all(groups, &PASSES, labels as usize, rounds)?;
    tables::as_used(&timed, labels, rounds);
    tables::clearing_apart(&timed);
    tables::workspaces(&timed);
    tables::shares(&timed);
    tables::in_bands(&timed);
    Ok(())
}
