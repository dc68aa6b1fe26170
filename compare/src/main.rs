//! Gives the same inputs to zeno and to the port and compares every answer.
//!
//!     compare [--seed S] [--scale N] [--share N] [--only KIND]
//!     compare bench [--labels N] [--rounds N] [--only PART]
//!     compare bench --brief [--labels N] [--rounds N]
//!     compare fixture OUT
//!     compare fuzz --seconds N [--seed S]
//!     compare cells
//!
//! Without words it is the run of the gate: fixed seed, fixed counts. `--scale` multiplies the counts
//! that are not exhaustive (`--only drawings --scale 20` draws five million labels), `--share` takes
//! one case in so many of these, the first ones, and `--only` a group or words of a kind's name. It
//! prints how many cases of which kind were compared, and stops with status 1 at the first
//! difference, which it tells in the smallest form that it finds.
//!
//! `bench` times both sides, in full or in one short table, and stops with status 1 only where they
//! differ; its parts are text, outlines, hatchings, curves, lines, largest, hard, growth, rows and
//! judging. `fixture` writes answers for another program to replay, zeno's and, for
//! refusals and coordinates cut, the reading's, `fuzz` throws damaged and random calls at the port with
//! marks around all that it lends, `cells` prints zeno's cells of the worked examples in the rules.

mod bench;
mod face;
mod fuzz;
mod kinds;
mod runs;
mod worked;

use std::process::ExitCode;

use compare::fixture::fixture;
use runs::Stopped;

fn main() -> ExitCode {
    let words: Vec<String> = std::env::args().skip(1).collect();
    let done = match words.first().map(String::as_str) {
        Some("bench") => bench::bench(&words[1..]),
        Some("fixture") => write_fixture(&words[1..]),
        Some("fuzz") => fuzz::fuzz(&words[1..]),
        Some("cells") => {
            worked::print_cells();
            Ok(())
        }
        _ => runs::compared(&words),
    };
    match done {
        Ok(()) => ExitCode::SUCCESS,
        Err(Stopped::Different(what)) => {
            println!("{what}");
            ExitCode::FAILURE
        }
        Err(Stopped::Asked(what)) => {
            let usages = [
                runs::USAGE,
                bench::USAGE,
                "compare fixture OUT",
                fuzz::USAGE,
                worked::USAGE,
            ];
            eprintln!("compare: {what}\nusage: {}", usages.join("\n       "));
            ExitCode::from(2)
        }
    }
}

fn write_fixture(words: &[String]) -> Result<(), Stopped> {
    let [path] = words else {
        return Err(Stopped::Asked("fixture needs a file to write".to_string()));
    };
    let fixture = fixture();
    let failed = |error| Stopped::Asked(format!("{path}: {error}"));
    std::fs::write(path, &fixture.bytes).map_err(failed)?;
    println!(
        "{path}: {} drawings, {} placements, {} bytes",
        fixture.drawings,
        fixture.placements,
        fixture.bytes.len()
    );
    Ok(())
}
