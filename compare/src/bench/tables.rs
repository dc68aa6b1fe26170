//! The tables about labels. Times are milliseconds a label.

use super::passes::{Pass, ZenoPass};
use super::timed::{Rounds, Timed};

/// A table's row: what it is about and these cells.
pub fn row(name: &str, cells: &[String]) {
    println!("| {name} | {} |", cells.join(" | "));
}

pub fn ms(time: f64) -> String {
    format!("{time:.4}")
}

pub fn ratio(time: f64, other: f64) -> String {
    format!("{:.2}", time / other)
}

fn spread(times: &Rounds) -> String {
    format!("{:.0} %", times.spread())
}

/// Zeno clears its mask inside the timing, the port clears nothing.
pub fn as_used(all: &[Timed], labels: u64, rounds: u64) {
    println!("As each side is used, milliseconds a label, {labels} labels a round, the best of");
    println!("{rounds} rounds, and by how many hundredths the slowest round is above it.\n");
    println!(
        "| labels | cells | words | zeno, clearing its mask | spread | port | spread | ratio |"
    );
    println!("|---|---|---|---|---|---|---|---|");
    for timed in all {
        let (zeno, port) = (timed.zeno(), timed.port(Pass::Whole));
        let cells = [
            timed.group.mean_cells().to_string(),
            timed.group.mean_words().to_string(),
            ms(zeno.best()),
            spread(&zeno),
            ms(port.best()),
            spread(port),
            ratio(port.best(), zeno.best()),
        ];
        row(&timed.group.name, &cells);
    }
}

/// The same drawings where neither side clears a mask, and where both do.
pub fn clearing_apart(all: &[Timed]) {
    println!(
        "\nThe same drawings with the clearing of a mask on neither side and on both. Without:"
    );
    println!(
        "zeno's path and sweep of the same rounds, and the port as above. With: zeno as above, and"
    );
    println!(
        "the port behind a clearing that it has no need of, inside the timing; then the port as"
    );
    println!("above plus zeno's clearing of the same round.\n");
    print!("| labels | zeno without | port without | ratio | zeno with | port with | ratio ");
    println!("| port plus zeno's clearing | ratio |");
    println!("|---|---|---|---|---|---|---|---|---|");
    for timed in all {
        let (without, with) = (timed.zeno_uncleared().best(), timed.zeno().best());
        let [port, cleared] = [Pass::Whole, Pass::Cleared].map(|pass| timed.port(pass).best());
        let sum = timed.port_and_clearing().best();
        let cells = [
            ms(without),
            ms(port),
            ratio(port, without),
            ms(with),
            ms(cleared),
            ratio(cleared, with),
            ms(sum),
            ratio(sum, with),
        ];
        row(&timed.group.name, &cells);
    }
}

/// The port with a workspace that just fits and with more room than it needs.
pub fn workspaces(all: &[Timed]) {
    println!(
        "\nThe port's workspace: one that just fits the label, as above, and one with the largest"
    );
    println!(
        "pool, 16,384 places. The ratios are of the second: to the first, to zeno as it is used,"
    );
    println!("and to zeno without its clearing.\n");
    print!("| labels | fitting | spread | 16,384 places | spread ");
    println!("| to fitting | to zeno | to zeno without |");
    println!("|---|---|---|---|---|---|---|---|");
    for timed in all {
        let (fitting, roomy) = (timed.port(Pass::Whole), timed.port(Pass::Roomy));
        let others = [fitting, &timed.zeno(), &timed.zeno_uncleared()];
        let times = [fitting, roomy].map(|times| [ms(times.best()), spread(times)]);
        let ratios = others.map(|other| ratio(roomy.best(), other.best()));
        row(&timed.group.name, &[&times.concat()[..], &ratios].concat());
    }
}

/// Where the time goes, as far as calls can tell.
pub fn shares(all: &[Timed]) {
    println!("\nWhere the time of the first table goes. Judging: the same list with a byte too");
    println!("many, refused after its last record. Wiping: an empty list and no width. Path: a");
    println!(
        "place too few, refused at the record of the last, less judging and wiping. Sweep: the rest.\n"
    );
    println!(
        "| labels | zeno's clearing | path | sweep | port's judging | path | sweep | wiping |"
    );
    println!("|---|---|---|---|---|---|---|---|");
    for timed in all {
        let ZenoPass {
            clearing,
            path: zeno_path,
            sweep: zeno_sweep,
        } = timed.zeno_parts();
        let of_port = [Pass::Whole, Pass::Judging, Pass::Unswept, Pass::Wiping];
        let [whole, judging, unswept, wiping] = of_port.map(|pass| timed.port(pass).best());
        let path = (unswept - judging - wiping).max(0.0);
        let sweep = (whole - unswept).max(0.0);
        let times = [
            clearing, zeno_path, zeno_sweep, judging, path, sweep, wiping,
        ];
        row(&timed.group.name, &times.map(ms));
    }
}

/// The port in bands, each of which reads the list anew, twice.
pub fn in_bands(all: &[Timed]) {
    println!("\nThe port in bands of so many rows, milliseconds a label, a tenth of the labels.\n");
    println!("| labels | bands of 256 | bands of 64 | bands of 16 |");
    println!("|---|---|---|---|");
    for timed in all {
        let times = [256, 64, 16].map(|step| timed.port(Pass::InBands(step)).best());
        row(&timed.group.name, &times.map(ms));
    }
}
