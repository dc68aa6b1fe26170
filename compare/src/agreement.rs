//! The prepared pieces held against each other and zeno over many labels: the cells that the oracle
//! gathers, its runs, bands cut from whole labels, and what refusals leave.

use crate::drawing::{at_a_boundary, ordinary, Drawing};
use crate::driver;
use crate::numbers::Dice;
use crate::oracle::{self, Command, Fill, HeapStorage, Label, Point, Transform};
use crate::paths::SMALL;
use crate::pool::PER_ROW;
use crate::reading;
use crate::stores::{rows_stored, Stored};
use crate::zeno::raster::{Cell, FixedPoint, RasterStorage, Rasterizer};

fn assert_cells_paint_the_mask(label: &Label) {
    let (mask, cells) = oracle::painted_cells(label).unwrap();
    let painted = oracle::painted(label).unwrap();
    assert_eq!((&painted.mask, painted.cells), (&mask, cells.len()));
    let plain = Label {
        up: false,
        pitch: label.width,
        ..*label
    };
    let by_the_rule = reading::mask_of(&cells, label.fill, label.width, label.height);
    assert_eq!(
        oracle::painted(&plain).unwrap().mask,
        by_the_rule,
        "{label:?}"
    );
    assert_runs_paint_the_mask(&plain, &by_the_rule);
}

fn assert_runs_paint_the_mask(plain: &Label, mask: &[u8]) {
    let mut by_runs = vec![0; mask.len()];
    for run in oracle::runs(plain).unwrap() {
        let start = run.row * plain.width + run.column;
        by_runs[start..start + run.count].fill(run.value);
    }
    assert_eq!(by_runs, mask, "{plain:?}");
}

/// The cells that the oracle gathers are zeno's: painted by the rules they give zeno's
/// mask, and zeno's runs give it too. Over every seventh small path, both rules.
#[test]
fn small_labels_paint_the_same_by_cells_and_by_zeno() {
    for small in &SMALL {
        for index in (0..small.count()).step_by(7) {
            let path = small.path(index);
            for fill in [Fill::NonZero, Fill::EvenOdd] {
                assert_cells_paint_the_mask(&Label {
                    path: &path,
                    transform: Transform::IDENTITY,
                    offset: Point::ZERO,
                    fill,
                    up: false,
                    width: 2,
                    height: 2,
                    pitch: 2,
                });
            }
        }
    }
}

fn label_of<'a>(drawing: &Drawing, path: &'a [Command]) -> Label<'a> {
    Label {
        path,
        transform: drawing.transform,
        offset: drawing.offset,
        fill: drawing.fill,
        up: drawing.up,
        width: drawing.width,
        height: drawing.height,
        pitch: drawing.pitch,
    }
}

#[test]
fn random_labels_paint_the_same_by_cells_and_by_zeno() {
    let mut dice = Dice::new(8);
    for _ in 0..6000 {
        let drawing = ordinary(&mut dice);
        let Ok(path) = reading::judge(&drawing) else {
            continue;
        };
        assert_cells_paint_the_mask(&label_of(&drawing, &path));
    }
}

/// Whatever room there is, the record that stores into one place too many is the one in whose drawing
/// zeno's storage comes to hold one cell too many.
#[test]
fn records_are_counted_as_zeno_counts_cells() {
    const MOST: usize = 200;
    let mut dice = Dice::new(47);
    let mut refused = 0;
    for _ in 0..6000 {
        let drawing = ordinary(&mut dice);
        let Ok(path) = reading::judge(&drawing) else {
            continue;
        };
        let label = label_of(&drawing, &path);
        let since = oracle::inked(&label).unwrap().since;
        let given = oracle::given(&label).unwrap();
        for room in 0..=since.len().min(MOST) {
            let too_many = given.iter().find(|given| given.held > room);
            let by_zeno = too_many.map(|given| (13, given.by));
            let judged = reading::judge_room(&since, label.height + 4 * room, label.height);
            let by_the_rule = judged.err().map(|refusal| (refusal.number, refusal.index));
            assert_eq!(by_the_rule, by_zeno, "{}", drawing.shown());
            refused += usize::from(by_zeno.is_some());
        }
    }
    assert!(refused > 50_000, "{refused}");
}

/// A storage that keeps what it was given before a drawing, so that zeno sweeps that.
struct Kept(HeapStorage);

impl RasterStorage for Kept {
    fn reset(&mut self, _: FixedPoint, _: FixedPoint) {}

    fn cells(&self) -> &[Cell] {
        self.0.cells()
    }

    fn indices(&self) -> &[i32] {
        self.0.indices()
    }

    fn set(&mut self, x: i32, y: i32, area: i32, cover: i32) {
        self.0.set(x, y, area, cover);
    }
}

/// The cells that the oracle says are stored, in whatever order the pairs come, are zeno's: painted
/// by the rules they give the mask that zeno sweeps from its storage.
#[test]
fn stores_paint_the_same_by_cells_and_by_zeno() {
    let mut dice = Dice::new(39);
    let width = PER_ROW - 1;
    for _ in 0..300 {
        let stores = rows_stored(0, &mut dice);
        let Stored::Cells(cells) = stores.stored() else {
            continue;
        };
        let mut storage = Kept(HeapStorage::default());
        oracle::store(stores.rows, &stores.given(), &mut storage.0);
        let mut mask = vec![0; width * stores.rows];
        Rasterizer::new(&mut storage).rasterize(
            Point::ZERO,
            width as u32,
            stores.rows as u32,
            &mut |_| {},
            Fill::EvenOdd,
            &mut mask,
            width,
            false,
        );
        let by_the_rule = reading::mask_of(&cells, Fill::EvenOdd, width, stores.rows);
        assert!(mask == by_the_rule, "{}", stores.shown());
    }
}

/// A whole label as one band is zeno's own mask, with zeno's own `up` and pitch, laid over the lent
/// bytes.
#[test]
fn a_band_of_every_row_is_the_whole_label() {
    let mut dice = Dice::new(9);
    let mut drawn = 0;
    for _ in 0..4000 {
        let mut drawing = ordinary(&mut dice);
        (drawing.first, drawing.end) = (0, drawing.height);
        let places = drawing.every_place();
        drawing.lend(0, places);
        drawing.mask.fill(0);
        let outcome = driver::outcome(&drawing);
        match driver::whole(&drawing) {
            Ok(whole) if outcome.number == 0 => {
                assert_eq!(outcome.mask, whole.mask);
                assert_eq!(
                    (outcome.records, outcome.cells),
                    (whole.records, whole.cells.len())
                );
                drawn += 1;
            }
            Ok(_) => assert_eq!(outcome.number, 13),
            Err(refusal) => assert_eq!(
                (outcome.number, outcome.index),
                (refusal.number, refusal.index)
            ),
        }
    }
    assert!(drawn > 2000, "{drawn}");
}

/// Refusals leave the mask, and all but 13 leave the words; 0 and 13 wipe them.
#[test]
fn outcomes_leave_what_they_must() {
    let mut dice = Dice::new(10);
    for _ in 0..6000 {
        let drawing = at_a_boundary(&mut dice);
        let outcome = driver::outcome(&drawing);
        match outcome.number {
            0 => assert_eq!(outcome.mask.len(), drawing.mask.len()),
            _ => assert_eq!(outcome.mask, drawing.mask),
        }
        match outcome.number {
            0 | 13 => assert!(outcome.words.iter().all(|&word| word == 0)),
            _ => assert_eq!(outcome.words, drawing.words),
        }
        assert_eq!(outcome.words.len(), drawing.words.len());
    }
}
