//! Bounds and placements of lists: refusals and how many coordinates are cut as the reading has them,
//! everything else zeno's bit for bit.

use super::calls::{heading_of, keeps};
use super::{agree, Kind, Verdict};
use crate::face::{self, Answer};
use compare::driver::{self, PlacedList};
use compare::lent::{Around, Lent, BYTE_MARK};
use compare::numbers::Dice;
use compare::oracle::{Bounds, Placement};
use compare::placing::{any_placing, Placing};
use compare::reading::Refusal;
use compare::shrink::Candidates;

/// Which of the two is asked for.
pub enum Lists {
    Bounds,
    Placement,
}

impl Kind for Lists {
    type Case = Placing;

    fn name(&self) -> String {
        match self {
            Lists::Bounds => "bounds of lists".to_string(),
            Lists::Placement => "placements of lists".to_string(),
        }
    }

    fn draw(&self, _: u64, dice: &mut Dice) -> Placing {
        any_placing(dice)
    }

    fn judge(&self, case: &Placing) -> Verdict {
        let number = match self {
            Lists::Bounds => judged_bounds(case)?,
            Lists::Placement => judged_placement(case)?.0,
        };
        Ok(heading_of(number).into())
    }

    fn simpler<'a>(&self, case: &'a Placing) -> Candidates<'a, Placing> {
        case.simpler()
    }

    fn show(&self, case: &Placing) -> String {
        case.shown()
    }
}

/// What the port answers for a call whose list stands between marks.
fn asked<T>(case: &Placing, ask: fn(&Placing, &[u8]) -> T) -> Result<T, String> {
    let list = Lent::new(&case.list, BYTE_MARK, Around::Marks);
    let answer = ask(case, list.part());
    keeps(&list, "the list")?;
    Ok(answer)
}

fn judged_bounds(case: &Placing) -> Result<u8, String> {
    let ours = asked(case, face::bounds)?;
    let (theirs, number) = answered(driver::bounds(&case.list, case.transform));
    agree_on_numbers(&ours, number)?;
    agree(
        "zeno",
        &["min.x", "min.y", "max.x", "max.y"],
        &parts(&ours.rest),
        &parts(&theirs),
    )?;
    Ok(number.number)
}

/// Answers the number and how many coordinates are cut.
pub fn judged_placement(case: &Placing) -> Result<(u8, usize), String> {
    let ours = asked(case, face::placement)?;
    let placed = driver::placement(&case.list, case.transform, case.offset, case.origin);
    let (theirs, number) = answered(placed);
    agree_on_numbers(&ours, number)?;
    agree_on_placements(&ours.rest, &theirs)?;
    Ok((number.number, theirs.cut))
}

/// The answer and its number; where it is refused all the rest is 0.
fn answered<T: Default>(answer: Result<T, Refusal>) -> (T, Refusal) {
    let accepted = Refusal {
        number: 0,
        index: 0,
    };
    match answer {
        Ok(answer) => (answer, accepted),
        Err(refusal) => (T::default(), refusal),
    }
}

fn agree_on_numbers<T>(ours: &Answer<T>, theirs: Refusal) -> Result<(), String> {
    let ours = (ours.number, ours.index as usize);
    let theirs = (u32::from(theirs.number), theirs.index);
    if ours == theirs {
        return Ok(());
    }
    Err(format!(
        "number, index: the port {ours:?}, the rule {theirs:?}"
    ))
}

fn agree_on_placements(ours: &PlacedList, theirs: &PlacedList) -> Result<(), String> {
    let offset = |p: &PlacedList| [p.offset.x, p.offset.y];
    let names = ["offset x", "offset y"];
    agree("zeno", &names, &offset(ours), &offset(theirs))?;
    let whole = |p: Placement| (p.left, p.top, p.width, p.height);
    let (our_place, their_place) = (whole(ours.place), whole(theirs.place));
    if our_place != their_place {
        return Err(format!(
            "left, top, width, height: the port {our_place:?}, zeno {their_place:?}"
        ));
    }
    agree_on_cuts(ours.cut, theirs.cut)
}

pub fn agree_on_cuts(ours: usize, theirs: usize) -> Result<(), String> {
    if ours == theirs {
        return Ok(());
    }
    Err(format!(
        "coordinates cut: the port {ours}, the rule {theirs}"
    ))
}

fn parts(b: &Bounds) -> [f32; 4] {
    [b.min.x, b.min.y, b.max.x, b.max.y]
}
