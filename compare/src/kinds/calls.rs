//! One drawing by the port with marks around everything it is lent, and the comparison of all that it
//! answers and leaves.

use crate::face::{self, Drawn};
use compare::drawing::{Drawing, Way};
use compare::driver::Outcome;
use compare::lent::{Around, Lent, BYTE_MARK, WORD_MARK};
use compare::reading::Refusal;

/// The heading that a number of the rules counts under.
pub fn heading_of(number: u8) -> &'static str {
    match number {
        0 => "accepted",
        1 => "refused 1",
        2 => "refused 2",
        3 => "refused 3",
        4 => "refused 4",
        5 => "refused 5",
        6 => "refused 6",
        7 => "refused 7",
        8 => "refused 8",
        9 => "refused 9",
        10 => "refused 10",
        11 => "refused 11",
        12 => "refused 12",
        13 => "refused 13",
        18 => "refused 18",
        _ => unreachable!("the rules have no number {number}"),
    }
}

/// What the port answered and left.
pub struct Called {
    pub answer: Drawn,
    pub mask: Lent<u8>,
    pub words: Lent<u32>,
}

/// Draws at once; an error where the port touched what it may not.
pub fn drawn(drawing: &Drawing, around: Around) -> Result<Called, String> {
    drawn_in(drawing, Way::AtOnce, around)
}

/// The same, drawn this way.
pub fn drawn_in(drawing: &Drawing, way: Way, around: Around) -> Result<Called, String> {
    let list = Lent::new(&drawing.list, BYTE_MARK, around);
    let mut mask = Lent::new(&drawing.mask, BYTE_MARK, around);
    let mut words = Lent::new(&drawing.words, WORD_MARK, around);
    let (bytes, m, w) = (list.part(), mask.part_mut(), words.part_mut());
    let answer = match way {
        Way::AtOnce => face::draw(drawing, bytes, m, w),
        Way::InBands(step) => face::draw_in_bands(drawing, step, bytes, m, w),
    };
    keeps(&list, "the list")?;
    keeps(&mask, "the mask")?;
    keeps(&words, "the workspace")?;
    if list.part() != drawing.list {
        return Err("the port wrote into the list".to_string());
    }
    Ok(Called {
        answer,
        mask,
        words,
    })
}

pub fn keeps<T: Copy + PartialEq>(lent: &Lent<T>, what: &str) -> Result<(), String> {
    if lent.is_kept() {
        return Ok(());
    }
    Err(format!("the port wrote outside {what}"))
}

/// Compares everything with what it must be.
pub fn agree_on(drawing: &Drawing, called: &Called, expected: &Outcome) -> Result<(), String> {
    let answer = Drawn {
        number: u32::from(expected.number),
        index: expected.index as u32,
        records: expected.records as u32,
        cells: expected.cells as u32,
        cut: expected.cut as u32,
    };
    agree_on_answers(&called.answer, &answer)?;
    agree_on_masks(drawing.pitch, called.mask.part(), &expected.mask)?;
    agree_on_words(called.words.part(), &expected.words)
}

/// The answer of an accepted call.
pub fn accepted(records: usize, cells: usize, cut: usize) -> Drawn {
    Drawn {
        records: records as u32,
        cells: cells as u32,
        cut: cut as u32,
        ..Drawn::default()
    }
}

/// The answer of a refused call: all counts are 0.
pub fn refused(Refusal { number, index }: Refusal) -> Drawn {
    Drawn {
        number: u32::from(number),
        index: index as u32,
        ..Drawn::default()
    }
}

pub fn agree_on_answers(ours: &Drawn, theirs: &Drawn) -> Result<(), String> {
    if ours == theirs {
        return Ok(());
    }
    Err(format!("the port {ours:?}\n it must be {theirs:?}"))
}

pub fn agree_on_masks(pitch: usize, ours: &[u8], theirs: &[u8]) -> Result<(), String> {
    let Some(at) = first_difference(ours, theirs) else {
        return Ok(());
    };
    let pitch = pitch.max(1);
    let (row, column) = (at / pitch, at % pitch);
    let (ours, theirs) = (ours[at], theirs[at]);
    Err(format!(
        "mask byte {at} (row {row}, column {column}): the port {ours}, it must be {theirs}"
    ))
}

pub fn agree_on_words(ours: &[u32], theirs: &[u32]) -> Result<(), String> {
    let Some(at) = first_difference(ours, theirs) else {
        return Ok(());
    };
    let (ours, theirs) = (ours[at], theirs[at]);
    Err(format!("word {at}: the port {ours}, it must be {theirs}"))
}

fn first_difference<T: PartialEq>(ours: &[T], theirs: &[T]) -> Option<usize> {
    if ours == theirs {
        return None;
    }
    ours.iter().zip(theirs).position(|(a, b)| a != b)
}
