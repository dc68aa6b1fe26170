//! Lists with one record at fault, or one that only looks so.

use std::ops::Range;

use crate::numbers::Dice;
use crate::reading::record_starts;

/// A list spoilt in one place: cut, lengthened, with a header, a number or a bit changed, without a
/// record, or with a Close too many.
pub fn damaged(list: &[u8], dice: &mut Dice) -> Vec<u8> {
    let mut bytes = list.to_vec();
    let starts = record_starts(list);
    if starts.is_empty() {
        return strayed(bytes, dice);
    }
    let start = dice.pick(&starts);
    match dice.below(12) {
        0 => bytes.truncate(dice.below(list.len())),
        1 => return strayed(bytes, dice),
        2 => set_word(&mut bytes, start, near_length(list[start], dice)),
        3 => set_word(&mut bytes, start + 2, near_kind(dice)),
        4 => drop_record(&mut bytes, &starts, dice),
        5 => set_number(&mut bytes, start, dice),
        6 => bytes[start..].rotate_left(1),
        7 => bytes[dice.below(list.len())] ^= 1 << dice.below(8),
        8 => lose_a_move(&mut bytes, &starts, dice),
        9 => put_a_close(&mut bytes, &starts, dice),
        10 => turn_into_a_close(&mut bytes, &starts, dice),
        _ => spoil_behind_a_close(&mut bytes, start, dice),
    }
    bytes
}

/// One to three bytes behind the end: too few for a header.
fn strayed(mut bytes: Vec<u8>, dice: &mut Dice) -> Vec<u8> {
    for _ in 0..=dice.below(3) {
        bytes.push(dice.pick(&[0, 1, 2, 5, 10, 255]));
    }
    bytes
}

fn set_word(bytes: &mut [u8], at: usize, word: u16) {
    bytes[at..at + 2].copy_from_slice(&word.to_le_bytes());
}

/// Another kind's length, a step beside this one, or one that passes every end.
fn near_length(length: u8, dice: &mut Dice) -> u16 {
    let length = u16::from(length);
    dice.pick(&[
        0,
        2,
        10,
        18,
        26,
        length + 1,
        length - 1,
        length + 256,
        65_535,
    ])
}

/// A kind beside the five, one that is one of them in its low byte only, or one of them.
fn near_kind(dice: &mut Dice) -> u16 {
    dice.pick(&[0, 1, 2, 3, 4, 5, 6, 257, 258, 256, 65_535])
}

/// Leaves one record out, most often the first.
fn drop_record(bytes: &mut Vec<u8>, starts: &[usize], dice: &mut Dice) {
    let which = if dice.one_in(3) {
        dice.below(starts.len())
    } else {
        0
    };
    bytes.drain(range_of(which, starts, bytes.len()));
}

/// Where a record stands, the last one with all that is behind it.
fn range_of(which: usize, starts: &[usize], end: usize) -> Range<usize> {
    starts[which]..starts.get(which + 1).copied().unwrap_or(end)
}

const CLOSE: [u8; 4] = [2, 0, 5, 0];

/// Leaves out a MoveTo behind a Close; where there is none a Close is put somewhere.
fn lose_a_move(bytes: &mut Vec<u8>, starts: &[usize], dice: &mut Dice) {
    let kind = |which: usize| bytes[starts[which] + 2];
    let moves: Vec<usize> = (1..starts.len())
        .filter(|&which| (kind(which - 1), kind(which)) == (5, 1))
        .collect();
    if moves.is_empty() {
        return put_a_close(bytes, starts, dice);
    }
    bytes.drain(range_of(dice.pick(&moves), starts, bytes.len()));
}

/// Puts a Close behind a record.
fn put_a_close(bytes: &mut Vec<u8>, starts: &[usize], dice: &mut Dice) {
    let at = range_of(dice.below(starts.len()), starts, bytes.len()).end;
    bytes.splice(at..at, CLOSE);
}

/// Makes a record a Close; the one behind it stays.
fn turn_into_a_close(bytes: &mut Vec<u8>, starts: &[usize], dice: &mut Dice) {
    let which = dice.below(starts.len());
    bytes.splice(range_of(which, starts, bytes.len()), CLOSE);
}

/// Puts a Close before the record at `start` and spoils that record too, or cuts it: then the rules'
/// order chooses.
fn spoil_behind_a_close(bytes: &mut Vec<u8>, start: usize, dice: &mut Dice) {
    let length = bytes[start];
    bytes.splice(start..start, CLOSE);
    let start = start + CLOSE.len();
    match dice.below(4) {
        0 => set_number(bytes, start, dice),
        1 => set_word(bytes, start, near_length(length, dice)),
        2 => set_word(bytes, start + 2, near_kind(dice)),
        _ => bytes.truncate(start + dice.below(2 + usize::from(length))),
    }
}

/// Numbers that the point rule judges: not numbers, too far, the last that passes and the first
/// that does not.
const JUDGED: [f32; 9] = [
    f32::NAN,
    f32::INFINITY,
    f32::NEG_INFINITY,
    f32::MAX,
    -1.0e30,
    4096.00390625,
    -4096.004,
    4096.0034,
    8192.0,
];

/// Puts such a number into the record at `start`, or into what follows where it has none.
fn set_number(bytes: &mut [u8], start: usize, dice: &mut Dice) {
    let number = dice.pick(&JUDGED).to_le_bytes();
    let at = start + 4 + 4 * dice.below(6);
    if at + 4 <= bytes.len() {
        bytes[at..at + 4].copy_from_slice(&number);
    }
}

#[cfg(test)]
mod tests {
    use super::*;
    use crate::list;
    use crate::oracle::Transform;
    use crate::paths::Character;
    use crate::reading::{judge_bounds, passes_point_rule, record_at, Record, Refusal};
    use std::collections::HashMap;

    /// Damaged lists of several figures that are refused.
    fn refused(seed: u64, count: usize) -> impl Iterator<Item = (Vec<u8>, Refusal)> {
        let mut dice = Dice::new(seed);
        let list = move |_| {
            let path = Character::Subpaths.path(6, 6, &mut dice);
            let bytes = damaged(&list::written(&path), &mut dice);
            let refusal = judge_bounds(&bytes, &Transform::IDENTITY).err()?;
            Some((bytes, refusal))
        };
        (0..count).filter_map(list)
    }

    /// Damage brings every refusal of a record about, the first record's and later ones'.
    #[test]
    fn damage_finds_every_refusal() {
        let mut seen: HashMap<u8, [usize; 2]> = HashMap::new();
        for (_, refusal) in refused(5, 20_000) {
            let later = usize::from(refusal.index > 0);
            seen.entry(refusal.number).or_default()[later] += 1;
        }
        for number in [8, 9, 10, 12] {
            assert!(seen[&number].iter().all(|&n| n > 20), "{number}: {seen:?}");
        }
        assert!(seen[&11][0] > 20, "{seen:?}");
        assert!(seen[&18][1] > 2000, "{seen:?}");
    }

    /// 18 is met at every index from the first that it can have, for each kind that draws.
    #[test]
    fn drawing_behind_a_close_is_found_everywhere() {
        let mut seen: HashMap<(usize, u8), usize> = HashMap::new();
        for (bytes, refusal) in refused(43, 40_000) {
            if refusal.number == 18 {
                let start = record_starts(&bytes)[refusal.index];
                *seen.entry((refusal.index, bytes[start + 2])).or_default() += 1;
            }
        }
        assert!(seen.keys().all(|&(index, _)| index >= 2));
        for index in 2..=20 {
            for kind in 2..=4 {
                assert!(seen[&(index, kind)] > 5, "{index} {kind}: {seen:?}");
            }
        }
    }

    /// Records behind a Close that draw, by the first byte of their kind, have other faults too: where
    /// that is 8, 9 or 10 it is told, where it is 12 then 18 is.
    #[test]
    fn drawing_behind_a_close_is_not_the_only_fault() {
        let mut seen: HashMap<u8, usize> = HashMap::new();
        for (bytes, Refusal { number, index }) in refused(44, 40_000) {
            let before = index
                .checked_sub(1)
                .map(|which| record_starts(&bytes)[which]);
            let Some(rest) = before.and_then(|at| bytes[at..].strip_prefix(&CLOSE)) else {
                continue;
            };
            let draws = rest.len() >= 4 && (2..=4).contains(&rest[2]);
            let is_near = |command| list::parts(&command).1.into_iter().all(passes_point_rule);
            let alone = matches!(record_at(rest), Record::Command(command, _) if is_near(command));
            if draws && !alone {
                *seen.entry(number).or_default() += 1;
            }
        }
        for number in [8, 9, 10, 18] {
            assert!(seen.get(&number) > Some(&50), "{number}: {seen:?}");
        }
        assert_eq!(seen.len(), 4, "{seen:?}");
    }
}
