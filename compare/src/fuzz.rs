//! Damaged and random calls thrown at the port, with marks around all that is lent or, every other
//! time, blocks of the heap that fit exactly. Zeno draws only where 13 is answered, so that this runs
//! under a memory checker too:
//!
//!     valgrind --error-exitcode=1 target/compare/release/compare fuzz --seconds 300

use std::collections::BTreeMap;
use std::time::{Duration, Instant};

use crate::face::{self, Drawn};
use crate::kinds::calls::{
    accepted, agree_on_answers, agree_on_masks, drawn_in, keeps, refused, Called,
};
use crate::kinds::lists::agree_on_cuts;
use crate::kinds::SEEKING;
use crate::runs::Stopped;
use compare::drawing::{any_step, soil, wild, Drawing, Way};
use compare::driver;
use compare::flags::Flags;
use compare::lent::{Around, Lent, BYTE_MARK};
use compare::numbers::Dice;
use compare::oracle::Origin;
use compare::placing::{any_placing, Placing};
use compare::reading::{self, Accepted, Refusal};
use compare::shrink::smallest;

pub const USAGE: &str = "compare fuzz --seconds N [--seed S]";

/// Rounds between two looks at the clock.
const ROUNDS: usize = 16;

/// How often each number was answered.
type Numbers = BTreeMap<u32, u64>;

#[derive(Default)]
struct Counts {
    draw: Numbers,
    in_bands: Numbers,
    bounds: Numbers,
    placement: Numbers,
}

pub fn fuzz(words: &[String]) -> Result<(), Stopped> {
    let flags = Flags::read(words, &["--seconds", "--seed"]).map_err(Stopped::Asked)?;
    let seconds = flags.number("--seconds", 10).map_err(Stopped::Asked)?;
    let seed = flags.number("--seed", 1).map_err(Stopped::Asked)?;
    let mut dice = Dice::named(seed, "fuzz");
    let mut counts = Counts::default();
    let start = Instant::now();
    while start.elapsed() < Duration::from_secs(seconds) {
        for _ in 0..ROUNDS {
            one_round(&mut dice, &mut counts).map_err(Stopped::Different)?;
        }
    }
    println!("drawings, each drawn twice: {}", told(&counts.draw));
    println!("in bands, each drawn twice: {}", told(&counts.in_bands));
    println!("bounds: {}", told(&counts.bounds));
    println!("placements: {}", told(&counts.placement));
    println!("nothing was touched that may not be, seed {seed}, {seconds} s");
    Ok(())
}

fn count(numbers: &mut Numbers, number: u32) {
    *numbers.entry(number).or_default() += 1;
}

fn told(numbers: &Numbers) -> String {
    let total: u64 = numbers.values().sum();
    let each: Vec<String> = numbers
        .iter()
        .map(|(number, count)| format!("{number}: {count}"))
        .collect();
    format!("{total}, by number {}", each.join(", "))
}

fn one_round(dice: &mut Dice, counts: &mut Counts) -> Result<(), String> {
    let around = dice.pick(&[Around::Marks, Around::Nothing]);
    let drawing = wild(dice);
    let seed = dice.roll();
    let step = any_step(drawing.height, dice);
    match draw_both_ways(&drawing, step, around, seed) {
        Ok((at_once, in_bands)) => {
            count(&mut counts.draw, at_once);
            count(&mut counts.in_bands, in_bands);
        }
        Err(_) => return Err(smaller(drawing, step, around, seed)),
    }
    for placing in [placing_of(&drawing, dice), any_placing(dice)] {
        let with_case = |what: String| format!("DIFFERENT: fuzz\n{}{what}", placing.shown());
        let number = bounds(&placing, around).map_err(with_case)?;
        count(&mut counts.bounds, number);
        let number = placement(&placing, around).map_err(with_case)?;
        count(&mut counts.placement, number);
    }
    Ok(())
}

/// What is wrong with a drawing, in the smallest form that is found.
fn smaller(drawing: Drawing, step: usize, around: Around, seed: u64) -> String {
    let start = Instant::now();
    let drawn = |d: &Drawing| draw_both_ways(d, step, around, seed);
    let wrong = |d: &Drawing| start.elapsed() < SEEKING && drawn(d).is_err();
    let least = smallest(drawing, Drawing::simpler, wrong);
    let what = drawn(&least).expect_err("the smallest form is wrong");
    let least = least.shown();
    format!("DIFFERENT: fuzz, smallest form:\n{least}  bands of {step}\n{what}")
}

fn placing_of(drawing: &Drawing, dice: &mut Dice) -> Placing {
    Placing {
        list: drawing.list.clone(),
        transform: drawing.transform,
        offset: drawing.offset,
        origin: dice.pick(&[Origin::TopLeft, Origin::BottomLeft]),
    }
}

/// Draws at once and in bands: what is accepted at once is the same in bands. Answers both numbers.
fn draw_both_ways(
    drawing: &Drawing,
    step: usize,
    around: Around,
    seed: u64,
) -> Result<(u32, u32), String> {
    let at_once = draw_twice(drawing, Way::AtOnce, around, seed)?;
    let told = |what: String| format!("in bands: {what}");
    let in_bands = draw_twice(drawing, Way::InBands(step), around, seed).map_err(told)?;
    if at_once.answer.number != 13 {
        agree_on_answers(&in_bands.answer, &at_once.answer).map_err(told)?;
        agree_on_masks(drawing.pitch, in_bands.mask.part(), at_once.mask.part()).map_err(told)?;
    }
    Ok((at_once.answer.number, in_bands.answer.number))
}

/// Draws, and draws again over other old bytes and words: the answer and the painted bytes stay.
fn draw_twice(drawing: &Drawing, way: Way, around: Around, seed: u64) -> Result<Called, String> {
    let once = draw(drawing, way, around)?;
    let mut other = drawing.clone();
    soil(&mut other, &mut Dice::new(seed));
    let again = draw(&other, way, around)?;
    agree_on_answers(&again.answer, &once.answer)?;
    let painted = painted(drawing, once.answer.number == 0);
    let (once_mask, again_mask) = (once.mask.part(), again.mask.part());
    for (at, is_painted) in painted.into_iter().enumerate() {
        if is_painted && once_mask[at] != again_mask[at] {
            return Err(format!("mask byte {at} shows what was there before"));
        }
    }
    Ok(once)
}

/// Draws and judges what is left: every refusal but 13, the records and the coordinates cut by the
/// reading, 13 by zeno's cells, everything else by the rules for what a call leaves.
fn draw(drawing: &Drawing, way: Way, around: Around) -> Result<Called, String> {
    let called = drawn_in(drawing, way, around)?;
    let answer = called.answer;
    match reading::judge(drawing) {
        Err(refusal) => agree_on_answers(&answer, &refused(refusal))?,
        Ok(_) if answer.number == 13 => agree_on_answers(&answer, &without_room(drawing, way)?)?,
        Ok(path) => {
            let cells = answer.cells as usize;
            let cut = driver::cuts(&path, drawing.transform, drawing.offset);
            agree_on_answers(&answer, &accepted(path.len(), cells, cut))?;
            if cells > room(drawing, way) {
                return Err(format!("{cells} cells are more than the pools hold"));
            }
        }
    }
    judge_loans(drawing, &called)?;
    Ok(called)
}

/// The refusal of a call that lacks nothing but room.
fn without_room(drawing: &Drawing, way: Way) -> Result<Drawn, String> {
    match driver::drawn_in(drawing, way) {
        Err(refusal) => Ok(refused(refusal)),
        Ok(_) => Err("the port answers 13, zeno's cells have room".to_string()),
    }
}

/// How many places the pools of all bands hold together.
fn room(drawing: &Drawing, way: Way) -> usize {
    let pools = way.bands(drawing.rows());
    pools
        .map(|band| reading::pool(drawing.words.len(), band.len()))
        .sum()
}

fn judge_loans(drawing: &Drawing, called: &Called) -> Result<(), String> {
    let number = called.answer.number;
    let words = called.words.part();
    let kept = match number {
        0 | 13 => words.iter().all(|&word| word == 0),
        _ => words == drawing.words,
    };
    if !kept {
        return Err(format!("number {number} leaves other words"));
    }
    let painted = painted(drawing, number == 0);
    let bytes = called.mask.part().iter().zip(&drawing.mask);
    for (at, ((after, before), is_painted)) in bytes.zip(painted).enumerate() {
        if !is_painted && after != before {
            return Err(format!("number {number} changes mask byte {at}"));
        }
    }
    Ok(())
}

/// Which bytes of the mask a call paints.
fn painted(drawing: &Drawing, accepted: bool) -> Vec<bool> {
    let mut painted = vec![false; drawing.mask.len()];
    if accepted {
        for row in 0..drawing.rows() {
            let at = row * drawing.pitch;
            painted[at..at + drawing.width].fill(true);
        }
    }
    painted
}

fn bounds(placing: &Placing, around: Around) -> Result<u32, String> {
    let list = Lent::new(&placing.list, BYTE_MARK, around);
    let answer = face::bounds(placing, list.part());
    keeps(&list, "the list")?;
    let judged = reading::judge_bounds(&placing.list, &placing.transform);
    same_number((answer.number, answer.index), judged.err())
}

fn placement(placing: &Placing, around: Around) -> Result<u32, String> {
    let list = Lent::new(&placing.list, BYTE_MARK, around);
    let answer = face::placement(placing, list.part());
    keeps(&list, "the list")?;
    let judged = reading::judge_placement(&placing.list, &placing.transform, placing.offset);
    let cuts = |path: &Accepted| driver::cuts(path, placing.transform, placing.offset);
    let cut = judged.as_ref().map_or(0, cuts);
    let number = same_number((answer.number, answer.index), judged.err())?;
    agree_on_cuts(answer.rest.cut, cut)?;
    Ok(number)
}

fn same_number(ours: (u32, u32), refusal: Option<Refusal>) -> Result<u32, String> {
    let theirs = refusal.map_or((0, 0), |r| (u32::from(r.number), r.index as u32));
    if ours != theirs {
        return Err(format!(
            "number, index: the port {ours:?}, the rule {theirs:?}"
        ));
    }
    Ok(ours.0)
}
