//! The labels that are timed.

use compare::drawing::Drawing;
use compare::driver;
use compare::list;
use compare::numbers::Dice;
use compare::oracle::{Askable, Command, Label};
use compare::order::Order;
use compare::paths::{
    address, even_bars, hatchings, large_curves, outlines, rulings, steep_bar, thin_bar, ADDRESS,
    HATCHED,
};

/// A label as both sides take it.
pub struct Sample {
    /// With nothing lent.
    pub call: Drawing,
    pub path: Vec<Command>,
    pub cells: usize,
    /// The mask, as the reading and zeno have it.
    pub mask: Vec<u8>,
}

/// Labels of one kind and size.
pub struct Group {
    pub name: String,
    pub width: usize,
    pub height: usize,
    pub samples: Vec<Sample>,
}

/// What a group is asked for by, its name, its width and height, how many different labels it has, and
/// how one is made.
type Recipe = (
    &'static str,
    &'static str,
    (usize, usize),
    usize,
    fn(&mut Dice) -> Vec<Command>,
);

pub const GROUPS: [Recipe; 7] = [
    ("text", "small text, 400×120", ADDRESS, 100, address),
    (
        "outlines",
        "text in real outlines, 400×120",
        ADDRESS,
        100,
        |dice| outlines(ADDRESS, dice),
    ),
    (
        "hatchings",
        "hatchings and barcodes, 400×120",
        HATCHED,
        20,
        hatchings,
    ),
    (
        "curves",
        "large curves, 2048×2048",
        (2048, 2048),
        20,
        |dice| large_curves(2048, (700, 900), dice),
    ),
    (
        "lines",
        "long thin lines, 2048×2048",
        (2048, 2048),
        20,
        |dice| as_many_as_fit(2048, || thin_bar(2048, dice)),
    ),
    // Curves no larger than the pool holds.
    (
        "largest",
        "largest curves, 4096×4096",
        (4096, 4096),
        20,
        |dice| large_curves(4096, (1200, 1300), dice),
    ),
    (
        "largest",
        "longest thin lines, 4096×4096",
        (4096, 4096),
        20,
        |dice| as_many_as_fit(4096, || thin_bar(4096, dice)),
    ),
];

/// Labels on which zeno is hard to beat.
pub const HARD: [Recipe; 4] = [
    ("hard", "rulings, 2048×2048", (2048, 2048), 20, |dice| {
        rulings(2048, dice)
    }),
    ("hard", "steep lines, 2048×2048", (2048, 2048), 20, |dice| {
        as_many_as_fit(2048, || steep_bar(2048, dice))
    }),
    (
        "hard",
        "512 bars in rising order, 2048×8",
        (2048, 8),
        20,
        |dice| even_bars(512, (2048, 8), Order::Rising, dice),
    ),
    (
        "hard",
        "512 bars in random order, 2048×8",
        (2048, 8),
        20,
        |dice| even_bars(512, (2048, 8), Order::Random, dice),
    ),
];

/// The groups that are asked for.
pub fn groups(recipes: &[Recipe], is_asked: impl Fn(&str) -> bool) -> Vec<Group> {
    let asked = recipes.iter().filter(|recipe| is_asked(recipe.0));
    asked.map(group).collect()
}

fn group(&(_, name, size, count, make): &Recipe) -> Group {
    let mut dice = Dice::named(1, name);
    let paths = (0..count).map(|_| make(&mut dice)).collect();
    Group::new(name, size, paths)
}

fn sample(path: Vec<Command>, width: usize, height: usize) -> Sample {
    let mut call = Drawing::plain(&path, width, height);
    let outcome = driver::outcome(&call);
    assert_eq!(outcome.number, 0, "a label that is timed is accepted");
    call.mask = Vec::new();
    call.words = Vec::new();
    Sample {
        call,
        path,
        cells: outcome.cells,
        mask: outcome.mask,
    }
}

/// As many bars on a square label as its pool holds, one at least.
fn as_many_as_fit(side: usize, mut bar: impl FnMut() -> Vec<Command>) -> Vec<Command> {
    let fits = |path: &[Command]| driver::outcome(&Drawing::plain(path, side, side)).number == 0;
    let mut path = Vec::new();
    loop {
        let mut more = path.clone();
        more.extend(bar());
        if fits(&more) {
            path = more;
        } else if !path.is_empty() {
            return path;
        }
    }
}

impl Group {
    pub fn new(name: &str, (width, height): (usize, usize), paths: Vec<Vec<Command>>) -> Group {
        let paths = paths.into_iter();
        Group {
            name: name.to_string(),
            width,
            height,
            samples: paths.map(|path| sample(path, width, height)).collect(),
        }
    }

    pub fn mean_cells(&self) -> usize {
        self.mean(|sample| sample.cells)
    }

    pub fn mean_bytes(&self) -> usize {
        self.mean(|sample| sample.call.list.len())
    }

    fn mean(&self, number: fn(&Sample) -> usize) -> usize {
        self.samples.iter().map(number).sum::<usize>() / self.samples.len()
    }

    /// The words of a workspace that fits.
    pub fn mean_words(&self) -> usize {
        self.height + 4 * self.mean_cells()
    }

    pub fn most_words(&self) -> usize {
        self.height + 4 * 16_384
    }
}

impl Sample {
    pub fn words(&self) -> usize {
        self.call.height + 4 * self.cells
    }

    /// The label for zeno.
    pub fn askable(&self) -> Askable<'_> {
        let call = &self.call;
        let label = Label {
            path: &self.path,
            transform: call.transform,
            offset: call.offset,
            fill: call.fill,
            up: call.up,
            width: call.width,
            height: call.height,
            pitch: call.pitch,
        };
        Askable::new(label).expect("a label that is timed is within reach")
    }

    /// The list with a byte too many: judged whole, then refused.
    pub fn one_byte_more(&self) -> Vec<u8> {
        let mut list = list::written(&self.path);
        list.push(0);
        list
    }
}
