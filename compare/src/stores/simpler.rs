//! Simpler forms of a call: fewer pairs, fewer words, clean words, smaller numbers.

use super::{places_of, Stores};
use crate::shrink::{shorter_lengths, Candidates};

/// Calls with more pairs than these lose pairs first, many at a time, and keep their numbers.
const FEW: usize = 48;

impl Stores {
    /// Simpler calls, the boldest first.
    pub fn simpler(&self) -> Candidates<'_, Stores> {
        let candidates = self
            .with_fewer_numbers()
            .chain(self.with_fewer_words())
            .chain(self.with_clean_words())
            .chain(self.with_fewer_rows())
            .chain(self.with_smaller_numbers());
        Box::new(candidates)
    }

    fn but(&self, change: impl FnOnce(&mut Stores)) -> Stores {
        let mut other = self.clone();
        change(&mut other);
        other
    }

    /// Without a run of pairs, all of them at first, a single one in the end; the places that they
    /// alone needed go with them, so that a full pool stays full. Then without what is no whole
    /// pair.
    fn with_fewer_numbers(&self) -> impl Iterator<Item = Stores> + '_ {
        let pairs = self.pairs.len() / 4;
        let sizes = std::iter::successors(Some(pairs), |size| Some(size / 2));
        let runs = sizes
            .take_while(move |&size| size > 0 && pairs / size <= 2 * FEW)
            .flat_map(move |size| (0..pairs).step_by(size).map(move |at| (at, size)));
        let fewer = runs.flat_map(move |(at, size)| {
            let without = self.but(|stores| {
                let end = (at + size).min(pairs);
                stores.pairs.drain(4 * at..4 * end);
            });
            let freed = places_of(&self.given()) - places_of(&without.given());
            let as_full = without.but(|stores| {
                let left = stores.words.len().saturating_sub(4 * freed);
                stores.words.truncate(left);
            });
            [as_full, without]
        });
        let stray = self.pairs.len() > 4 * pairs;
        let whole = stray.then(|| self.but(|stores| stores.pairs.truncate(4 * pairs)));
        fewer.chain(whole)
    }

    fn with_fewer_words(&self) -> impl Iterator<Item = Stores> + '_ {
        let lengths = shorter_lengths(self.words.len()).into_iter();
        lengths.map(|length| self.but(|stores| stores.words.truncate(length)))
    }

    fn with_clean_words(&self) -> impl Iterator<Item = Stores> + '_ {
        let soiled = self.words.iter().any(|&word| word != 0);
        let clean = soiled.then(|| self.but(|stores| stores.words.fill(0)));
        clean.into_iter()
    }

    /// A pool of fewer rows has as many places where it has as many words less.
    fn with_fewer_rows(&self) -> impl Iterator<Item = Stores> + '_ {
        let fewer = [self.rows / 2, self.rows.saturating_sub(1)].into_iter();
        let fewer = fewer.filter(|&rows| rows < self.rows);
        fewer.map(|rows| {
            self.but(|stores| {
                let left = stores.words.len().saturating_sub(self.rows - rows);
                stores.words.truncate(left);
                stores.rows = rows;
            })
        })
    }

    /// One number 0, halved or one less.
    fn with_smaller_numbers(&self) -> impl Iterator<Item = Stores> + '_ {
        let are_few = self.pairs.len() <= 4 * FEW;
        let numbers = self.pairs.iter().enumerate().filter(move |_| are_few);
        numbers.flat_map(move |(at, &number)| {
            let smaller = [0, number / 2, number.saturating_sub(1)].into_iter();
            let smaller = smaller.filter(move |&other| other < number);
            smaller.map(move |other| self.but(|stores| stores.pairs[at] = other))
        })
    }
}

#[cfg(test)]
mod tests {
    use super::super::{rows_stored, wild_stores};
    use super::*;
    use crate::numbers::Dice;
    use crate::shrink::smallest;
    use crate::stores::Stored;

    #[test]
    fn shrinking_ends() {
        let mut dice = Dice::new(33);
        for _ in 0..40 {
            for stores in [rows_stored(0, &mut dice), wild_stores(0, &mut dice)] {
                let least = smallest(stores, Stores::simpler, |_| true);
                assert!(least.pairs.is_empty() && least.words.is_empty());
                assert_eq!(least.rows, 0);
            }
        }
    }

    /// A full pool that is made small stays full: here as long as it has two places.
    #[test]
    fn a_full_pool_stays_full() {
        let mut dice = Dice::new(34);
        let is_full = |stores: &Stores| match stores.stored() {
            Stored::Cells(cells) => cells.len() > 1 && stores.places() == Some(cells.len()),
            _ => false,
        };
        let mut tried = 0;
        while tried < 20 {
            let stores = rows_stored(0, &mut dice);
            if is_full(&stores) {
                let least = smallest(stores, Stores::simpler, is_full);
                assert_eq!((least.pairs.len(), least.words.len()), (8, least.rows + 8));
                tried += 1;
            }
        }
    }
}
