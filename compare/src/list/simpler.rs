//! Simpler forms of a list: first shorter ones, with fewer records, fewer bytes or lines for curves,
//! then those with simpler coordinates.

use crate::list::record;
use crate::oracle::Command;
use crate::reading::{record_at, record_starts, Record};
use crate::shrink::simpler_number;

/// Lists with more records than these lose records first and keep their coordinates.
const FEW: usize = 48;

/// The shorter ones, the boldest first.
pub fn shorter(bytes: &[u8]) -> Vec<Vec<u8>> {
    let starts = record_starts(bytes);
    let mut candidates = without_records(bytes, &edges(bytes, &starts));
    candidates.extend(without_last_bytes(bytes));
    if starts.len() <= FEW {
        let curves = starts.iter();
        candidates.extend(curves.filter_map(|&start| with_a_line(bytes, start)));
    }
    candidates
}

/// As long as the list, with one coordinate simpler.
pub fn plainer(bytes: &[u8]) -> Vec<Vec<u8>> {
    let starts = record_starts(bytes);
    if starts.len() > FEW {
        return Vec::new();
    }
    let each = starts.iter();
    each.flat_map(|&start| with_simpler_numbers(bytes, start))
        .collect()
}

/// Where the records start, and where the last of them ends.
fn edges(bytes: &[u8], starts: &[usize]) -> Vec<usize> {
    let mut edges = starts.to_vec();
    if let Some(&last) = starts.last() {
        if let Record::Command(_, taken) = record_at(&bytes[last..]) {
            edges.push(last + taken);
        }
    }
    edges
}

/// Without one run of records, all of them at first, a single one in the end.
fn without_records(bytes: &[u8], edges: &[usize]) -> Vec<Vec<u8>> {
    let count = edges.len().saturating_sub(1);
    let mut candidates = Vec::new();
    let mut size = count;
    while size > 0 && count / size <= 2 * FEW {
        for index in (0..count).step_by(size) {
            let end = edges[(index + size).min(count)];
            candidates.push([&bytes[..edges[index]], &bytes[end..]].concat());
        }
        size /= 2;
    }
    candidates
}

fn without_last_bytes(bytes: &[u8]) -> Vec<Vec<u8>> {
    let lengths = [bytes.len() / 2, bytes.len().saturating_sub(1)];
    let shorter = lengths.iter().filter(|&&length| length < bytes.len());
    shorter.map(|&length| bytes[..length].to_vec()).collect()
}

/// With a line to its end in the place of a curve.
fn with_a_line(bytes: &[u8], start: usize) -> Option<Vec<u8>> {
    let Record::Command(command, taken) = record_at(&bytes[start..]) else {
        return None;
    };
    let (Command::QuadTo(_, end) | Command::CurveTo(_, _, end)) = command else {
        return None;
    };
    let line = record(&Command::LineTo(end));
    Some([&bytes[..start], &line, &bytes[start + taken..]].concat())
}

/// With one coordinate of a record simpler.
fn with_simpler_numbers(bytes: &[u8], start: usize) -> Vec<Vec<u8>> {
    let Record::Command(_, taken) = record_at(&bytes[start..]) else {
        return Vec::new();
    };
    let mut candidates = Vec::new();
    for at in (start + 4..start + taken).step_by(4) {
        let here = [bytes[at], bytes[at + 1], bytes[at + 2], bytes[at + 3]];
        for number in simpler_number(f32::from_le_bytes(here)) {
            let mut candidate = bytes.to_vec();
            candidate[at..at + 4].copy_from_slice(&number.to_le_bytes());
            candidates.push(candidate);
        }
    }
    candidates
}

#[cfg(test)]
mod tests {
    use super::*;
    use crate::list::written;
    use crate::numbers::Dice;
    use crate::paths::{damaged, Character};
    use crate::shrink::{smallest, Candidates};

    fn simpler(bytes: &[u8]) -> Candidates<'_, Vec<u8>> {
        Box::new(shorter(bytes).into_iter().chain(plainer(bytes)))
    }

    #[test]
    fn shrinking_ends_with_nothing() {
        let mut dice = Dice::new(11);
        for character in Character::ALL {
            let list = written(&character.path(8, 8, &mut dice));
            for bytes in [damaged(&list, &mut dice), list] {
                assert!(smallest(bytes, |b| simpler(b), |_| true).is_empty());
            }
        }
    }

    #[test]
    fn a_fault_far_behind_stays_and_the_rest_goes() {
        let mut bytes = written(&vec![Command::Close; 5000]);
        bytes.extend([9, 9, 9, 9]);
        let faulty = |b: &Vec<u8>| b.ends_with(&[9, 9, 9, 9]);
        assert_eq!(smallest(bytes, |b| simpler(b), faulty), [9, 9, 9, 9]);
    }
}
