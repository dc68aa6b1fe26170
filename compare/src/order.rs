//! In which order the places of a row are filled, and how often one that is filled is met again.

use crate::numbers::Dice;

#[derive(Clone, Copy, Debug, PartialEq)]
pub enum Order {
    Rising,
    Falling,
    Random,
    /// Alternately from the left end and from the right end, until they meet.
    Inward,
    /// Back and forth around the middle, each time a step further out.
    Outward,
}

impl Order {
    pub const ALL: [Order; 5] = [
        Order::Rising,
        Order::Falling,
        Order::Random,
        Order::Inward,
        Order::Outward,
    ];

    pub fn name(self) -> &'static str {
        match self {
            Order::Rising => "rising",
            Order::Falling => "falling",
            Order::Random => "random",
            Order::Inward => "zigzag inward",
            Order::Outward => "zigzag outward",
        }
    }

    /// The numbers from 0 to below `count`, each once.
    pub fn numbers(self, count: usize, dice: &mut Dice) -> Vec<usize> {
        match self {
            Order::Rising => (0..count).collect(),
            Order::Falling => (0..count).rev().collect(),
            Order::Random => shuffled(count, dice),
            Order::Inward => inward(count).collect(),
            Order::Outward => inward(count).rev().collect(),
        }
    }

    /// The same numbers with up to `again` visits to known ones: some of these between the others,
    /// and at least one behind them, where nothing new comes any more.
    pub fn visits(self, count: usize, again: usize, dice: &mut Dice) -> Vec<usize> {
        let behind = again.min(1 + dice.below(4));
        let mut between = (again - behind).min(count / 4);
        let mut visits = Vec::with_capacity(count + again);
        for number in self.numbers(count, dice) {
            visits.push(number);
            if between > 0 && dice.one_in(3) {
                between -= 1;
                visits.push(dice.pick(&visits));
            }
        }
        for _ in 0..behind.min(count) {
            visits.push(dice.pick(&visits));
        }
        visits
    }
}

fn inward(count: usize) -> impl DoubleEndedIterator<Item = usize> {
    let from_an_end = move |number: usize| match number % 2 {
        0 => number / 2,
        _ => count - 1 - number / 2,
    };
    (0..count).map(from_an_end)
}

fn shuffled(count: usize, dice: &mut Dice) -> Vec<usize> {
    let mut numbers: Vec<usize> = (0..count).collect();
    for left in (2..=count).rev() {
        numbers.swap(left - 1, dice.below(left));
    }
    numbers
}

/// How many orders so many numbers have.
pub fn orders_of(count: usize) -> usize {
    (1..=count).product()
}

/// The numbers from 0 to below `count` in the order of this index, which is below `orders_of`.
pub fn numbers_in_order(count: usize, index: usize) -> Vec<usize> {
    let mut rest: Vec<usize> = (0..count).collect();
    let mut left = index;
    let mut next = |_| {
        let which = left % rest.len();
        left /= rest.len();
        rest.remove(which)
    };
    (0..count).map(&mut next).collect()
}

#[cfg(test)]
mod tests {
    use super::*;
    use std::collections::HashSet;

    const COUNTS: [usize; 7] = [0, 1, 2, 3, 8, 31, 4097];

    fn is_every_number(numbers: &[usize], count: usize) -> bool {
        let mut sorted = numbers.to_vec();
        sorted.sort_unstable();
        sorted.into_iter().eq(0..count)
    }

    #[test]
    fn every_order_has_every_number_once() {
        let mut dice = Dice::new(25);
        for order in Order::ALL {
            for count in COUNTS {
                let numbers = order.numbers(count, &mut dice);
                assert!(is_every_number(&numbers, count), "{order:?} {count}");
            }
        }
    }

    #[test]
    fn orders_are_what_they_say() {
        let mut dice = Dice::new(26);
        let mut numbers = |order: Order| order.numbers(7, &mut dice);
        assert_eq!(numbers(Order::Rising), [0, 1, 2, 3, 4, 5, 6]);
        assert_eq!(numbers(Order::Falling), [6, 5, 4, 3, 2, 1, 0]);
        assert_eq!(numbers(Order::Inward), [0, 6, 1, 5, 2, 4, 3]);
        assert_eq!(numbers(Order::Outward), [3, 4, 2, 5, 1, 6, 0]);
        let first = numbers(Order::Random);
        assert!((0..9).any(|_| numbers(Order::Random) != first));
    }

    /// Each number first comes where its order has it, and the last visit is to a known one.
    #[test]
    fn visits_keep_the_order_and_end_at_a_known_number() {
        let mut dice = Dice::new(27);
        for order in [Order::Rising, Order::Falling, Order::Inward, Order::Outward] {
            for count in COUNTS {
                for again in [1, 2, 5, 400] {
                    let visits = order.visits(count, again, &mut dice);
                    let mut known = HashSet::new();
                    let mut firsts = visits.clone();
                    firsts.retain(|&number| known.insert(number));
                    assert_eq!(firsts, order.numbers(count, &mut dice));
                    assert!(visits.len() <= count + again);
                    let last = visits.split_last();
                    assert!(last.is_none_or(|(last, before)| before.contains(last)));
                }
            }
        }
    }

    #[test]
    fn every_index_has_its_own_order() {
        let all: HashSet<Vec<usize>> = (0..orders_of(5))
            .map(|index| numbers_in_order(5, index))
            .collect();
        assert_eq!(all.len(), 120);
        assert!(all.iter().all(|numbers| is_every_number(numbers, 5)));
    }
}
