//! The comparison itself: which kinds are run, and how many cases of each.

use std::time::Instant;

use crate::kinds::{bands::Bands, boxes::Boxes, lists::Lists, maps, placements::Placements};
use crate::kinds::{
    by_hand, cells, cuts, drawings, filled, in_bands, lost_moves, moved_twice, no_room, run,
    stores, unslanted, Kind,
};
use by_hand::ByHand;
use compare::boundaries;
use compare::combining;
use compare::drawing::{
    at_a_boundary, at_the_cap, at_the_limits, cuts_at_once, cuts_in_a_band, cuts_in_bands,
    cuts_of_each_float, cuts_on_a_label, every_order, every_short_list, in_bands_at_the_cap,
    in_bands_of_full_rows, long_rows_filled, no_room_at_once, no_room_for_a_band, no_room_in_bands,
    orders_in_all, ordinary, rows_filled, short_lists_in_all, with_just_room, with_room_for_bands,
};
use compare::flags::Flags;
use compare::grid::floats_in_all;
use compare::oracle::{Fill, Origin};
use compare::paths::Character;
use compare::placing::{placing_beside_the_grid, placing_of_each_float};
use compare::stores::{
    every_sequence, long_rows_stored, of_a_drawing, rows_stored, sequences_in_all,
    stored_at_the_cap, wild_stores,
};
use cuts::{Cuts, PlacedCuts};
use drawings::{Boundaries, Drawings, SmallDrawings};
use filled::Filled;
use in_bands::InBands;
use lost_moves::LostMoves;
use moved_twice::MovedTwice;
use no_room::NoRoom;
use stores::Stores;
use unslanted::Unslanted;

pub const USAGE: &str = "compare [--seed S] [--scale N] [--share N] [--only KIND]";

const SEED: u64 = 20_260_101;

/// A run as it was asked for, the group it is in, and what it has counted.
struct Run<'a> {
    seed: u64,
    /// Cases of each drawn kind: times the scale, and of these one in `share`.
    scale: u64,
    share: u64,
    only: Option<&'a str>,
    group: &'static str,
    total: u64,
}

type Group = fn(&mut Run) -> Result<(), String>;

/// The groups by name, in the order of their running; the last take longest.
const GROUPS: [(&str, Group); 12] = [
    ("maps", maps),
    ("boxes", boxes),
    ("placements", placements),
    ("lists", lists),
    ("cuts", cuts),
    ("rows", rows),
    ("stores", stores),
    ("drawings", drawings),
    ("room", room),
    ("refusals", refusals),
    ("bands", bands),
    ("cells", cells),
];

/// What stops a run: words it does not understand, or a difference.
pub enum Stopped {
    Asked(String),
    Different(String),
}

/// Runs every kind, or those that are asked for, and prints what was compared.
pub fn compared(words: &[String]) -> Result<(), Stopped> {
    let named = ["--seed", "--scale", "--share", "--only"];
    let flags = Flags::read(words, &named).map_err(Stopped::Asked)?;
    let mut run = Run {
        seed: flags.number("--seed", SEED).map_err(Stopped::Asked)?,
        scale: flags.number("--scale", 1).map_err(Stopped::Asked)?,
        share: flags.number("--share", 1).map_err(Stopped::Asked)?.max(1),
        only: flags.word("--only"),
        group: "",
        total: 0,
    };
    let start = Instant::now();
    for (name, group) in GROUPS {
        run.group = name;
        group(&mut run).map_err(Stopped::Different)?;
    }
    if run.total == 0 {
        let names = GROUPS.map(|(name, _)| name).join(", ");
        let what = format!("--only takes one of {names}, or words of a kind's name");
        return Err(Stopped::Asked(what));
    }
    let seconds = start.elapsed().as_secs_f64();
    println!(
        "{:>12}  cases in all, no difference, {seconds:.1} s",
        run.total
    );
    Ok(())
}

impl Run<'_> {
    /// Whether a kind of this name is to be run: its group or words of its name were asked for.
    fn is_asked(&self, name: &str) -> bool {
        let is_group = |word: &str| GROUPS.iter().any(|(group, _)| *group == word);
        match self.only {
            None => true,
            Some(only) if is_group(only) => only == self.group,
            Some(only) => name.contains(only),
        }
    }

    /// Runs so many cases of a kind that is drawn by dice, times the scale and by the share.
    fn scaled(&mut self, kind: &impl Kind, count: u64) -> Result<(), String> {
        self.counted(kind, (count * self.scale).div_ceil(self.share))
    }

    /// Runs so many cases of a kind and prints its counts, what is in them behind.
    fn counted<K: Kind>(&mut self, kind: &K, count: u64) -> Result<(), String> {
        let name = kind.name();
        if !self.is_asked(&name) {
            return Ok(());
        }
        let start = Instant::now();
        let tally = run(kind, self.seed, count)?;
        let cases = tally.cases();
        let seconds = start.elapsed().as_secs_f64();
        println!("{cases:>12}  {name}: {}; {seconds:.1} s", tally.told::<K>());
        self.total += cases;
        Ok(())
    }
}

fn maps(run: &mut Run) -> Result<(), String> {
    run.counted(&maps::IDENTITY, 1)?;
    for map in &maps::TRANSFORMS {
        run.scaled(map, 1_000_000)?;
    }
    for map in &maps::COMBINING {
        run.scaled(map, 2_750_000)?;
    }
    for map in &maps::POINTS {
        run.scaled(map, 1_000_000)?;
    }
    run.scaled(&Unslanted, 1_000_000)?;
    run.scaled(&MovedTwice, 1_000_000)?;
    let table = ByHand(combining::table());
    run.counted(&table, table.0.len() as u64)
}

fn boxes(run: &mut Run) -> Result<(), String> {
    run.scaled(&Boxes::Finite, 1_000_000)?;
    run.scaled(&Boxes::Any, 1_000_000)
}

fn placements(run: &mut Run) -> Result<(), String> {
    run.scaled(&Placements(Origin::TopLeft), 1_000_000)?;
    run.scaled(&Placements(Origin::BottomLeft), 1_000_000)
}

fn lists(run: &mut Run) -> Result<(), String> {
    run.scaled(&Lists::Bounds, 1_000_000)?;
    run.scaled(&Lists::Placement, 1_000_000)
}

/// How many coordinates are cut.
fn cuts(run: &mut Run) -> Result<(), String> {
    let floats = 40 * floats_in_all();
    let placed = [
        (
            "cuts: floats of every kind, placed",
            placing_of_each_float as fn(u64, &mut _) -> _,
            floats,
        ),
        ("cuts: placements", placing_beside_the_grid, 1_000_000),
    ];
    for (name, make, count) in placed {
        run.scaled(&PlacedCuts { name, make }, count)?;
    }
    let drawn = [
        (
            "cuts: floats of every kind, drawn",
            cuts_of_each_float as fn(u64, &mut _) -> _,
            floats,
        ),
        ("cuts: at once", cuts_at_once, 600_000),
        ("cuts: for a band alone", cuts_in_a_band, 600_000),
        ("cuts: in bands by one call", cuts_in_bands, 400_000),
    ];
    for (name, make, count) in drawn {
        run.scaled(&Cuts { name, make }, count)?;
    }
    let bands = Bands {
        name: "cuts: the same in every band",
        make: cuts_on_a_label,
    };
    run.scaled(&bands, 200_000)
}

fn cells(run: &mut Run) -> Result<(), String> {
    for (width, height) in [(2, 2), (1, 1), (3, 1), (0, 3)] {
        run.counted(&cells::SmallCells(width, height), SmallDrawings::count())?;
    }
    for character in Character::ALL {
        run.scaled(&cells::Cells(character), 40_000)?;
    }
    Ok(())
}

/// Labels whose rows are filled in every order, the pool just full or lacking a place.
fn rows(run: &mut Run) -> Result<(), String> {
    let all = Filled {
        name: "rows: all orders of six columns, each again",
        make: every_order,
    };
    run.counted(&all, orders_in_all())?;
    let short = Filled {
        name: "rows: filled in order, with just room or just not",
        make: rows_filled,
    };
    run.scaled(&short, 30_000)?;
    let long = Filled {
        name: "rows: up to 2,725 places filled in order, with just room or just not",
        make: long_rows_filled,
    };
    run.scaled(&long, 160)
}

/// Pairs given to the pool one behind the other, with no drawing.
fn stores(run: &mut Run) -> Result<(), String> {
    let all = Stores {
        name: "stores: all sequences of seven in six columns",
        make: every_sequence,
    };
    run.counted(&all, sequences_in_all())?;
    let kinds = [
        (
            "stores: rows filled in order",
            rows_stored as fn(u64, &mut _) -> _,
            200_000,
        ),
        (
            "stores: rows of up to 8,192 places filled in order",
            long_rows_stored,
            160,
        ),
        ("stores: those of drawings", of_a_drawing, 40_000),
        (
            "stores: about the cap of 16,384 places",
            stored_at_the_cap,
            120,
        ),
        ("stores: wild ones", wild_stores, 200_000),
    ];
    for (name, make, count) in kinds {
        run.scaled(&Stores { name, make }, count)?;
    }
    Ok(())
}

fn drawings(run: &mut Run) -> Result<(), String> {
    run.counted(&SmallDrawings, SmallDrawings::count())?;
    let labels = Drawings {
        name: "drawings of every character",
        make: ordinary,
    };
    run.scaled(&labels, 250_000)?;
    let addresses = Drawings {
        name: "drawings of addresses",
        make: drawings::of_an_address,
    };
    run.scaled(&addresses, 500)?;
    run.scaled(&LostMoves, 40_000)
}

/// Which record is named where there is no room, under either rule.
fn room(run: &mut Run) -> Result<(), String> {
    let kinds = [
        (
            "no room: at once",
            no_room_at_once as fn(u64, &mut _) -> _,
            200_000,
        ),
        ("no room: for a band alone", no_room_for_a_band, 150_000),
        ("no room: in bands by one call", no_room_in_bands, 200_000),
    ];
    for fill in [Fill::NonZero, Fill::EvenOdd] {
        let all = NoRoom {
            name: "no room, or just room: all lists of six records over three points",
            fill,
            make: every_short_list,
        };
        run.counted(&all, short_lists_in_all())?;
        for (name, make, count) in kinds {
            run.scaled(&NoRoom { name, fill, make }, count)?;
        }
    }
    Ok(())
}

fn refusals(run: &mut Run) -> Result<(), String> {
    let table = Boundaries(boundaries::table());
    run.counted(&table, table.0.len() as u64)?;
    let kinds = [
        (
            "drawings beside a boundary",
            at_a_boundary as fn(&mut _) -> _,
            150_000,
        ),
        ("drawings with sizes at their limits", at_the_limits, 31_000),
        (
            "drawings with just room, or just not",
            with_just_room,
            100_000,
        ),
        ("drawings about the cap of 16,384 places", at_the_cap, 200),
    ];
    for (name, make, count) in kinds {
        run.scaled(&Drawings { name, make }, count)?;
    }
    Ok(())
}

fn bands(run: &mut Run) -> Result<(), String> {
    let whole = Bands {
        name: "bands of whole labels",
        make: ordinary,
    };
    run.scaled(&whole, 120_000)?;
    let kinds = [
        (
            "labels drawn in bands by one call, with just room or just not",
            with_room_for_bands as fn(&mut _) -> _,
            121_000,
        ),
        (
            "labels drawn in bands by one call, beside a boundary",
            in_bands::beside_a_boundary,
            60_000,
        ),
        (
            "labels drawn in bands by one call, about the cap of 16,384 places",
            in_bands_at_the_cap,
            200,
        ),
        (
            "labels drawn in bands by one call, rows of 4,097 places",
            in_bands_of_full_rows,
            40,
        ),
    ];
    for (name, make, count) in kinds {
        run.scaled(&InBands { name, make }, count)?;
    }
    Ok(())
}
