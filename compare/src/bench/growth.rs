//! How the time grows, by one thing at a time.

use super::passes::Pass;
use super::samples::Group;
use super::tables::{ms, ratio, row};
use super::timed::Timed;
use compare::numbers::Dice;
use compare::oracle::Command;
use compare::order::Order;
use compare::paths::{even_bars, leaning_bar, letters_within, ADDRESS};

/// How many different labels a step has.
const SAMPLES: usize = 10;

/// One thing that grows while all else stays, as far as it can.
struct Growth {
    what: &'static str,
    /// What a step counts, and the steps.
    unit: &'static str,
    steps: &'static [usize],
    /// One in so many labels is timed: zeno walks a long row from its start for every store.
    share: u64,
    /// Width and height of a step's labels, and how one is drawn.
    size: fn(usize) -> (usize, usize),
    path: fn(usize, &mut Dice) -> Vec<Command>,
}

const GROWTHS: [Growth; 4] = [
    Growth {
        what: "Cells in a row: upright bars over 16 rows, the same ink cut into more, 2048×16.",
        unit: "bars",
        steps: &[32, 64, 128, 256, 512],
        share: 50,
        size: |_| (2048, 16),
        path: |bars, dice| even_bars(bars, (2048, 16), Order::Rising, dice),
    },
    Growth {
        what: "Rows: a slanted bar, a pixel across in 16 rows, on higher labels, 320 wide.",
        unit: "rows",
        steps: &[128, 256, 512, 1024, 2048, 4096],
        share: 10,
        size: |rows| (320, rows),
        path: leaning_bar,
    },
    Growth {
        what: "Width: a few letters, which take 1,024 bytes at most, on wider labels, 1,024 high.",
        unit: "columns",
        steps: &[256, 512, 1024, 2048, 4096],
        share: 10,
        size: |width| (width, 1024),
        path: |_, dice| letters_within(1024, dice),
    },
    Growth {
        what: "Length of the list: the same letters in the same places, again and again, 400×120.",
        unit: "bytes at most",
        steps: &[4096, 8192, 16_384, 32_768, 65_536],
        share: 10,
        size: |_| ADDRESS,
        path: |bytes, dice| letters_within(4096, dice).repeat(bytes / 4096),
    },
];

impl Growth {
    /// The labels of a step. Every step throws the same dice.
    fn group(&self, step: usize) -> Group {
        let mut dice = Dice::named(1, self.unit);
        let path = |_| (self.path)(step, &mut dice);
        let paths: Vec<_> = (0..SAMPLES).map(path).collect();
        Group::new(&step.to_string(), (self.size)(step), paths)
    }

    fn timed(&self, labels: u64, rounds: u64) -> Result<(), String> {
        let labels = labels.div_ceil(self.share);
        let groups: Vec<Group> = self.steps.iter().map(|&step| self.group(step)).collect();
        let all = Timed::all(&groups, &[Pass::Whole], labels as usize, rounds)?;
        println!("\n{} {labels} labels a round.\n", self.what);
        let unit = self.unit;
        print!("| {unit} | cells | bytes | zeno | to the step before ");
        println!("| port | to the step before | ratio | without clearing |");
        println!("|---|---|---|---|---|---|---|---|---|");
        let before = [None].into_iter().chain(all.iter().map(Some));
        for (timed, before) in all.iter().zip(before) {
            step_row(timed, before);
        }
        Ok(())
    }
}

fn step_row(timed: &Timed, before: Option<&Timed>) {
    let zeno = |timed: &Timed| timed.zeno().best();
    let port = |timed: &Timed| timed.port(Pass::Whole).best();
    let grown = |time: &dyn Fn(&Timed) -> f64| {
        before.map_or(String::new(), |before| ratio(time(timed), time(before)))
    };
    let cells = [
        timed.group.mean_cells().to_string(),
        timed.group.mean_bytes().to_string(),
        ms(zeno(timed)),
        grown(&zeno),
        ms(port(timed)),
        grown(&port),
        ratio(port(timed), zeno(timed)),
        ratio(port(timed), timed.zeno_uncleared().best()),
    ];
    row(&timed.group.name, &cells);
}

/// Times each thing that grows, step by step.
pub fn by_one_thing(labels: u64, rounds: u64) -> Result<(), String> {
    println!("How the time grows, by one thing at a time: milliseconds a label, the best of");
    println!(
        "{rounds} rounds. zeno clears its mask inside the timing; the last ratio is to the same"
    );
    println!("rounds without that.");
    for growth in &GROWTHS {
        growth.timed(labels, rounds)?;
    }
    Ok(())
}
