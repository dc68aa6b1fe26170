//! Calls that lack room: by any number of places, at once, for a band alone, and in bands; and every
//! short list over a few points with every pool.

use std::ops::Range;

use super::{odd_offset, odd_transform, old, soil, Drawing, Way};
use crate::driver;
use crate::numbers::Dice;
use crate::oracle::{Command, Point};
use crate::order::Order;
use crate::paths::{glyph, Character, Figure, SMALL};
use crate::reading;

/// A label whose pool has fewer places than it needs.
pub fn no_room_at_once(_: u64, dice: &mut Dice) -> (Drawing, Way) {
    lacking(dice, |_, _| Way::AtOnce)
}

/// The same for a band of a label, which may have all its rows.
pub fn no_room_for_a_band(_: u64, dice: &mut Dice) -> (Drawing, Way) {
    lacking(dice, |drawing, dice| {
        drawing.first = dice.below(drawing.height);
        drawing.end = drawing.first + 1 + dice.below(drawing.height - drawing.first);
        Way::AtOnce
    })
}

/// A label drawn in bands, of which one at least lacks room.
pub fn no_room_in_bands(_: u64, dice: &mut Dice) -> (Drawing, Way) {
    lacking(dice, |_, dice| Way::InBands(1 + dice.below(3)))
}

/// Labels are drawn until one may lack room.
fn lacking(dice: &mut Dice, way: fn(&mut Drawing, &mut Dice) -> Way) -> (Drawing, Way) {
    loop {
        let mut drawing = any_label(dice);
        let way = way(&mut drawing, dice);
        if lend_too_little(&mut drawing, way, dice) {
            soil(&mut drawing, dice);
            return (drawing, way);
        }
    }
}

/// Lends words with which one of the bands lacks room: its pool has any number of places from none to
/// one less than it needs, or half of the time from as many as the bands before it need. Says whether
/// there are such words: with one for each row, which there must be, a pool may have places.
fn lend_too_little(drawing: &mut Drawing, way: Way, dice: &mut Dice) -> bool {
    drawing.lend(0, drawing.every_place());
    let Ok(drawn) = driver::drawn(drawing) else {
        return false;
    };
    let bands: Vec<Range<usize>> = way.bands(drawing.rows()).collect();
    let needed = |band: &Range<usize>| driver::places_in(&drawn.cells, band.clone()).len();
    let needs: Vec<usize> = bands.iter().map(needed).collect();
    let (which, least) = chosen(&needs, dice);
    let (rows, need) = (bands[which].len(), needs[which]);
    if need == 0 {
        return false;
    }
    let words = rows + 4 * (least + dice.below(need - least)) + dice.below(4);
    drawing.words = old::words(words.max(drawing.rows()));
    reading::pool(drawing.words.len(), rows) < need
}

/// Any band and a pool of nothing; or half of the time, where there is one, a later band that needs
/// more places than each before it, and a pool that those fit.
fn chosen(needs: &[usize], dice: &mut Dice) -> (usize, usize) {
    let before = |band: usize| needs[..band].iter().copied().max().unwrap_or(0);
    let needs_more = |band: &usize| needs[*band] > before(*band);
    let later: Vec<usize> = (1..needs.len()).filter(needs_more).collect();
    if later.is_empty() || dice.one_in(2) {
        return (dice.below(needs.len()), 0);
    }
    let band = dice.pick(&later);
    (band, before(band))
}

/// A small label with a row at least.
fn any_label(dice: &mut Dice) -> Drawing {
    let most = dice.pick(&[4, 8, 8, 16]);
    let (width, height) = (dice.below(most + 1), 1 + dice.below(most));
    let mut drawing = Drawing::plain(&any_path(width, height, dice), width, height);
    drawing.up = dice.one_in(2);
    drawing.pitch = width + dice.pick(&[0, 0, 1, 3]);
    if dice.one_in(4) {
        drawing.transform = odd_transform(dice);
    }
    if dice.one_in(4) {
        drawing.offset = odd_offset(dice);
    }
    drawing
}

/// Characters whose paths stay near the label: the others take long to draw.
const NEAR: [Character; 8] = [
    Character::Edges,
    Character::Corners,
    Character::Diagonals,
    Character::Left,
    Character::BehindClose,
    Character::Subpaths,
    Character::Cancelling,
    Character::Anything,
];

fn any_path(width: usize, height: usize, dice: &mut Dice) -> Vec<Command> {
    match dice.below(40) {
        0 => dice.pick(&Character::ALL).path(width, height, dice),
        1..=4 => {
            let small = dice.pick(&SMALL);
            small.path(dice.below(small.count()))
        }
        5..=9 => glyph(height as f32, dice),
        10..=14 => {
            let visits = dice.pick(&Order::ALL).visits(width + 1, 2, dice);
            dice.pick(&Figure::ALL).path(&visits, height, dice)
        }
        _ => dice.pick(&NEAR).path(width, height, dice),
    }
}

/// A label of 2 by 2 and points in three of its places, one of them in column -1; lines between
/// them meet five places.
const SIDE: usize = 2;
const POINTS: [Point; 3] = [
    Point { x: 0.5, y: 0.25 },
    Point { x: 1.25, y: 0.75 },
    Point { x: -0.5, y: 1.5 },
];

/// Records behind the first, which is a MoveTo.
const BEHIND: usize = 5;
/// What a record behind the first may be: a MoveTo or a LineTo to one of the points, or a Close.
const CHOICES: usize = 2 * POINTS.len() + 1;
const POOLS: usize = 5;
const WAYS: usize = 3;

/// Every list of so many records over the points, with every pool from none to four places: at once,
/// for the lower row alone, in bands of one row. Those that draw directly behind a Close are among
/// them.
pub fn short_lists_in_all() -> u64 {
    (WAYS * POOLS * POINTS.len() * CHOICES.pow(BEHIND as u32)) as u64
}

/// The call of this number.
pub fn every_short_list(number: u64, dice: &mut Dice) -> (Drawing, Way) {
    let mut left = number as usize;
    let mut digit = |base: usize| {
        let digit = left % base;
        left /= base;
        digit
    };
    let (way, pool) = (digit(WAYS), digit(POOLS));
    let mut path = vec![Command::MoveTo(POINTS[digit(POINTS.len())])];
    path.extend((0..BEHIND).map(|_| match digit(CHOICES) {
        choice @ 0..=2 => Command::MoveTo(POINTS[choice]),
        choice @ 3..=5 => Command::LineTo(POINTS[choice - 3]),
        _ => Command::Close,
    }));
    let mut drawing = Drawing::plain(&path, SIDE, SIDE);
    let (first, way, rows) = [
        (0, Way::AtOnce, SIDE),
        (1, Way::AtOnce, 1),
        (0, Way::InBands(1), 1),
    ][way];
    drawing.first = first;
    let words = rows + 4 * pool;
    drawing.words = old::words(words.max(drawing.rows()));
    soil(&mut drawing, dice);
    (drawing, way)
}

#[cfg(test)]
mod tests {
    use super::*;
    use crate::alone::{self, Full};
    use std::collections::{HashMap, HashSet};

    /// How often each heading is met. The record is the same by zeno's whole label and by its bands
    /// alone.
    fn headings(
        make: fn(u64, &mut Dice) -> (Drawing, Way),
        count: u64,
    ) -> HashMap<&'static str, usize> {
        let mut dice = Dice::new(44);
        let mut seen = HashMap::new();
        for number in 0..count {
            let (drawing, way) = make(number, &mut dice);
            let outcome = driver::outcome_in(&drawing, way);
            let heading = match outcome.number {
                18 => "refused 18",
                number => {
                    let full = alone::first_full(&drawing, way);
                    let cut = (number == 13).then_some(outcome.index);
                    assert_eq!(full.map(|full| full.record), cut, "{}", drawing.shown());
                    full.map_or("accepted", Full::told)
                }
            };
            *seen.entry(heading).or_default() += 1;
        }
        seen
    }

    const AT: [&str; 6] = [
        "refused 13 at a MoveTo",
        "refused 13 at a LineTo",
        "refused 13 at a QuadTo",
        "refused 13 at a CurveTo",
        "refused 13 at a Close",
        "refused 13 at the end",
    ];

    /// Every call is refused, at every kind of record and at the end, and in bands for the first band
    /// and for later ones.
    #[test]
    fn every_kind_of_record_lacks_room() {
        for make in [no_room_at_once, no_room_for_a_band] {
            let seen = headings(make, 8000);
            assert_eq!(seen.len(), AT.len(), "{seen:?}");
            assert!(AT.iter().all(|at| seen[at] > 100), "{seen:?}");
        }
        let seen = headings(no_room_in_bands, 16_000);
        assert_eq!(seen.len(), 2 * AT.len(), "{seen:?}");
        for at in AT {
            let later = format!("{at} for a later band");
            assert!(seen[at] > 100 && seen[&*later] > 10, "{seen:?}");
        }
    }

    /// Pools lack any number of places; one in ten at least has none, and as many lack just one.
    #[test]
    fn pools_are_of_every_size() {
        let mut dice = Dice::new(45);
        let mut lacking: HashSet<usize> = HashSet::new();
        let (mut none, mut one) = (0, 0);
        for _ in 0..4000 {
            let (drawing, _) = no_room_at_once(0, &mut dice);
            let room = reading::pool(drawing.words.len(), drawing.rows());
            let cells = driver::outcome(&drawing.band(0, drawing.height)).cells;
            lacking.insert(cells - room);
            none += usize::from(room == 0);
            one += usize::from(cells - room == 1);
        }
        assert!((1..=20).all(|places| lacking.contains(&places)));
        assert!(none > 400 && one > 400, "{none} {one}");
    }

    /// Lists that lack room at every kind of record that they have, and at the end, in the first band
    /// and in the second.
    #[test]
    fn short_lists_lack_room_everywhere() {
        let in_all = short_lists_in_all();
        let seen = headings(
            |number, dice| every_short_list(7 * number, dice),
            in_all / 7,
        );
        let of_bands = [
            "refused 13 at a LineTo for a later band",
            "refused 13 at the end for a later band",
        ];
        let others = ["accepted", "refused 18"];
        let at = AT
            .iter()
            .filter(|at| !at.contains("QuadTo") && !at.contains("CurveTo"));
        for heading in at.chain(&of_bands).chain(&others) {
            assert!(seen.get(heading) > Some(&100), "{heading}: {seen:?}");
        }
    }

    /// The lines between the points meet one place more than the largest pool has.
    #[test]
    fn every_pool_lacks_a_place_of_the_points() {
        let path = [0, 1, 2, 0].map(|which| Command::LineTo(POINTS[which]));
        let path = [&[Command::MoveTo(POINTS[0])], &path[..]].concat();
        let drawn = driver::drawn(&Drawing::plain(&path, SIDE, SIDE));
        assert_eq!(drawn.map(|drawn| drawn.cells.len()), Ok(POOLS));
    }

    #[test]
    fn every_number_has_its_own_call() {
        let mut dice = Dice::new(46);
        let mut call = |number| {
            let (drawing, way) = every_short_list(number, &mut dice);
            let lent = (drawing.words.len(), drawing.first);
            (drawing.list, lent, format!("{way:?}"))
        };
        let numbers = (0..short_lists_in_all()).step_by(5);
        let calls: HashSet<_> = numbers.clone().map(&mut call).collect();
        assert_eq!(calls.len(), numbers.count());
    }
}
