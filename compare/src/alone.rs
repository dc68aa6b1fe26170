//! Bands drawn by zeno alone, each as a label of its own. zeno's labels begin at row 0, so the path is
//! moved up by the rows before the band: in zeno's fixed numbers, of which a move by whole rows
//! changes nothing but the row.

use std::ops::Range;

use crate::drawing::{Drawing, Way};
use crate::oracle::{self, Command, Given, Label, Point, Transform, Vector};
use crate::reading;

/// What 13 is answered for.
#[derive(Clone, Copy, Debug, PartialEq)]
pub struct Full {
    /// The first band without room, counted from 0.
    pub band: usize,
    /// The record in whose drawing zeno's storage came to hold more cells than the band's pool.
    pub record: usize,
    /// The command of that record, none at the list's end.
    pub command: Option<Command>,
}

impl Full {
    /// At what kind of record, and whether for a later band than the first.
    pub fn told(self) -> &'static str {
        let is_first = self.band == 0;
        match self.command {
            Some(Command::MoveTo(_)) if is_first => "refused 13 at a MoveTo",
            Some(Command::LineTo(_)) if is_first => "refused 13 at a LineTo",
            Some(Command::QuadTo(..)) if is_first => "refused 13 at a QuadTo",
            Some(Command::CurveTo(..)) if is_first => "refused 13 at a CurveTo",
            Some(Command::Close) if is_first => "refused 13 at a Close",
            None if is_first => "refused 13 at the end",
            Some(Command::MoveTo(_)) => "refused 13 at a MoveTo for a later band",
            Some(Command::LineTo(_)) => "refused 13 at a LineTo for a later band",
            Some(Command::QuadTo(..)) => "refused 13 at a QuadTo for a later band",
            Some(Command::CurveTo(..)) => "refused 13 at a CurveTo for a later band",
            Some(Command::Close) => "refused 13 at a Close for a later band",
            None => "refused 13 at the end for a later band",
        }
    }
}

/// The first band of a call that lacks room, if there is one. 1 to 12 and 18 must let the call pass.
pub fn first_full(drawing: &Drawing, way: Way) -> Option<Full> {
    let path = reading::judge(drawing).expect("a call that lacks nothing but room");
    let mut bands = way.bands(drawing.rows()).enumerate();
    bands.find_map(|(band, rows)| {
        let room = reading::pool(drawing.words.len(), rows.len());
        let given = given(drawing, &path, rows);
        let record = given.iter().find(|given| given.held > room)?.by;
        Some(Full {
            band,
            record,
            command: path.get(record).copied(),
        })
    })
}

/// What zeno stores for these rows, counted from the call's first.
fn given(drawing: &Drawing, path: &[Command], rows: Range<usize>) -> Vec<Given> {
    let before = drawing.first + rows.start;
    let path = moved_up(path, &drawing.transform, drawing.offset, before);
    let label = Label {
        path: &path,
        transform: Transform::IDENTITY,
        offset: Vector::ZERO,
        fill: drawing.fill,
        up: false,
        width: drawing.width,
        height: rows.len(),
        pitch: drawing.width,
    };
    oracle::given(&label).expect("an accepted label's rows are within reach")
}

/// A path as zeno cuts its points to fixed numbers, so many rows further up.
fn moved_up(path: &[Command], t: &Transform, offset: Vector, rows: usize) -> Vec<Command> {
    let up = |p: Point| {
        let p = p + offset;
        // Below 2^21 256ths either way: exact as f32, so that zeno cuts nothing more off.
        let fixed = |part: f32| (part * 256.0) as i32;
        let y = fixed(p.y) - 256 * rows as i32;
        Point::new(fixed(p.x) as f32 / 256.0, y as f32 / 256.0)
    };
    let moved = |command: &Command| match command.transform(t) {
        Command::MoveTo(p) => Command::MoveTo(up(p)),
        Command::LineTo(p) => Command::LineTo(up(p)),
        Command::QuadTo(c, p) => Command::QuadTo(up(c), up(p)),
        Command::CurveTo(c1, c2, p) => Command::CurveTo(up(c1), up(c2), up(p)),
        Command::Close => Command::Close,
    };
    path.iter().map(moved).collect()
}

#[cfg(test)]
mod tests {
    use super::*;
    use crate::boundaries::{closed, k1};
    use crate::drawing::ordinary;
    use crate::driver;
    use crate::numbers::Dice;
    use crate::oracle::CellAt;

    /// Pairs and the records that store them, those of these rows alone and counted from the first.
    fn in_rows(given: &[Given], rows: Range<usize>) -> Vec<(CellAt, usize)> {
        let (first, end) = (rows.start as i32, rows.end as i32);
        let own = given.iter().filter(|g| (first..end).contains(&g.pair.row));
        let counted = own.map(|g| {
            let row = g.pair.row - first;
            (CellAt { row, ..g.pair }, g.by)
        });
        counted.collect()
    }

    /// A band stores what the label stores in its rows: the same pairs in the same order, each by the
    /// same record. So it is right to cut a band from the label.
    #[test]
    fn a_band_stores_the_labels_pairs_of_its_rows() {
        let mut dice = Dice::new(43);
        let (mut compared, mut shorter) = (0, 0);
        for _ in 0..20_000 {
            let drawing = ordinary(&mut dice);
            let (Ok(path), Ok(whole)) = (reading::judge(&drawing), driver::given(&drawing)) else {
                continue;
            };
            let first = dice.below(drawing.height + 1);
            let end = first + dice.below(drawing.height + 1 - first);
            let band = drawing.band(first, end);
            let alone = given(&band, &path, 0..end - first);
            assert_eq!(
                in_rows(&alone, 0..end - first),
                in_rows(&whole, first..end),
                "{}",
                band.shown()
            );
            compared += alone.len();
            shorter += usize::from(!alone.is_empty() && alone.len() < whole.len());
        }
        assert!(compared > 50_000 && shorter > 2000, "{compared} {shorter}");
    }

    /// A figure whose lower row is stored into first, on 2 by 2; two places in each row.
    fn upwards(words: usize) -> Drawing {
        let corners = [(0.5, 1.5), (1.5, 1.25), (1.5, 0.25), (0.5, 0.5)];
        let mut drawing = Drawing::plain(&closed(&corners), 2, 2);
        drawing.words.truncate(words);
        drawing
    }

    /// The band and the record, which cutting the label must name too.
    fn full(drawing: &Drawing, way: Way) -> Option<(usize, usize)> {
        let full = first_full(drawing, way);
        let outcome = driver::outcome_in(drawing, way);
        let cut = (outcome.number == 13).then_some(outcome.index);
        assert_eq!(full.map(|full| full.record), cut);
        full.map(|full| (full.band, full.record))
    }

    /// The label's first record that stores is another than that of its upper row alone.
    #[test]
    fn a_bands_record_is_its_own() {
        let record = |first, end| {
            let mut band = upwards(2);
            (band.first, band.end) = (first, end);
            full(&band, Way::AtOnce).map(|(_, record)| record)
        };
        assert_eq!(record(0, 2), Some(1));
        assert_eq!(record(0, 1), Some(3));
        assert_eq!(record(1, 2), Some(1));
    }

    /// In bands of one row both lack room, the lower one at an earlier record: the upper one counts.
    #[test]
    fn of_several_full_bands_the_first_counts() {
        let in_bands = |words| full(&upwards(words), Way::InBands(1));
        assert_eq!(in_bands(2), Some((0, 3)));
        assert_eq!(in_bands(5), Some((0, 4)));
        assert_eq!(in_bands(9), None);
        let mut lower = upwards(5);
        lower.first = 1;
        assert_eq!(full(&lower, Way::AtOnce), Some((0, 2)));
    }

    /// K1 on the second row, in bands of one row: the band before it has room for its nothing.
    #[test]
    fn a_later_band_may_be_the_first_that_is_full() {
        let mut label = k1();
        label.words.truncate(4);
        assert_eq!(full(&label, Way::InBands(1)), Some((1, 2)));
        label.words.resize(8, 0);
        assert_eq!(full(&label, Way::InBands(1)), Some((1, 5)));
    }
}
