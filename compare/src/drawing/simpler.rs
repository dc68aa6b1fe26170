//! Simpler forms of a call. Each changes one part of it, and to something smaller in that part's own
//! order, so that shrinking ends. They are made as they are asked for: what is lent may be large.

use super::Drawing;
use crate::combining::{entries, transform_of};
use crate::list;
use crate::oracle::{Fill, Point, Transform};
use crate::shrink::{shorter_lengths, simpler_numbers, Candidates};

impl Drawing {
    /// Simpler calls, the boldest first.
    pub fn simpler(&self) -> Candidates<'_, Drawing> {
        let candidates = self
            .with_lists(list::shorter(&self.list))
            .chain(self.with_smaller_sizes())
            .chain(self.with_less_lent())
            .chain(self.with_clean_loans())
            .chain(self.with_plainer_choices())
            .chain(self.with_simpler_floats())
            .chain(self.with_lists(list::plainer(&self.list)));
        Box::new(candidates)
    }

    fn but(&self, change: impl FnOnce(&mut Drawing)) -> Drawing {
        let mut other = self.clone();
        change(&mut other);
        other
    }

    fn with_lists(&self, lists: Vec<Vec<u8>>) -> impl Iterator<Item = Drawing> + '_ {
        let lists = lists.into_iter();
        lists.map(|list| self.but(|d| d.list = list))
    }

    fn with_simpler_floats(&self) -> impl Iterator<Item = Drawing> + '_ {
        let floats = simpler_floats(&self.transform, self.offset).into_iter();
        floats.map(|(transform, offset)| {
            self.but(|d| {
                d.transform = transform;
                d.offset = offset;
            })
        })
    }

    fn with_plainer_choices(&self) -> impl Iterator<Item = Drawing> + '_ {
        let nonzero = (self.fill == Fill::EvenOdd).then_some((Fill::NonZero, self.up));
        let down = self.up.then_some((self.fill, false));
        let choices = nonzero.into_iter().chain(down);
        choices.map(|(fill, up)| {
            self.but(|d| {
                d.fill = fill;
                d.up = up;
            })
        })
    }

    fn with_smaller_sizes(&self) -> impl Iterator<Item = Drawing> + '_ {
        let sizes = [self.width, self.height, self.pitch, self.first, self.end];
        let smaller = smaller_sizes(sizes).into_iter();
        smaller.map(|[width, height, pitch, first, end]| {
            self.but(|d| {
                (d.width, d.height, d.pitch) = (width, height, pitch);
                (d.first, d.end) = (first, end);
            })
        })
    }

    fn with_less_lent(&self) -> impl Iterator<Item = Drawing> + '_ {
        let masks = shorter_lengths(self.mask.len()).into_iter();
        let masks = masks.map(|length| self.but(|d| d.mask.truncate(length)));
        let words = shorter_lengths(self.words.len()).into_iter();
        masks.chain(words.map(|length| self.but(|d| d.words.truncate(length))))
    }

    fn with_clean_loans(&self) -> impl Iterator<Item = Drawing> + '_ {
        let mask = self.mask.iter().any(|&byte| byte != 0);
        let words = self.words.iter().any(|&word| word != 0);
        let mask = mask.then(|| self.but(|d| d.mask.fill(0)));
        let words = words.then(|| self.but(|d| d.words.fill(0)));
        mask.into_iter().chain(words)
    }
}

/// Width, height, pitch, first and end with a smaller sum.
fn smaller_sizes(sizes: [usize; 5]) -> Vec<[usize; 5]> {
    let [width, height, pitch, first, end] = sizes;
    let mut candidates = vec![
        [width, height, width.min(pitch), first, end],
        [width, end.min(height), pitch, first, end],
        [width, height, pitch, 0, end.saturating_sub(first)],
    ];
    for less in [|n: usize| n / 2, |n: usize| n.saturating_sub(1)] {
        let lower = less(height);
        candidates.extend([
            [less(width), height, pitch, first, end],
            [width, lower, pitch, first, end.min(lower)],
            [width, height, pitch, first, less(end)],
            [width, height, pitch, less(first), end],
            [width, height, less(pitch), first, end],
        ]);
    }
    let sum = |sizes: &[usize; 5]| sizes.iter().map(|&size| size as u128).sum::<u128>();
    candidates.retain(|candidate| sum(candidate) < sum(&sizes));
    candidates
}

/// Simpler transforms and offsets. The identity is the simplest transform.
pub fn simpler_floats(t: &Transform, offset: Point) -> Vec<(Transform, Point)> {
    let parts = entries(*t);
    let identity = Transform::IDENTITY;
    let mut candidates = Vec::new();
    if parts.map(f32::to_bits) != entries(identity).map(f32::to_bits) {
        candidates.push((identity, offset));
        let simpler = simpler_numbers(&parts).into_iter();
        candidates.extend(simpler.map(|n| (transform_of(&n), offset)));
    }
    let offsets = simpler_numbers(&[offset.x, offset.y]).into_iter();
    candidates.extend(offsets.map(|n| (*t, Point::new(n[0], n[1]))));
    candidates
}

#[cfg(test)]
mod tests {
    use crate::drawing::{at_a_boundary, ordinary, Drawing};
    use crate::driver;
    use crate::numbers::Dice;
    use crate::shrink::smallest;

    fn sizes(d: &Drawing) -> [usize; 5] {
        [d.width, d.height, d.pitch, d.first, d.end]
    }

    #[test]
    fn shrinking_ends() {
        let mut dice = Dice::new(12);
        for _ in 0..20 {
            for drawing in [ordinary(&mut dice), at_a_boundary(&mut dice)] {
                let least = smallest(drawing, Drawing::simpler, |_| true);
                assert!(least.list.is_empty() && sizes(&least) == [0; 5]);
                assert!(least.mask.is_empty() && least.words.is_empty());
            }
        }
    }

    /// A refusal made small keeps little besides what it is refused for.
    #[test]
    fn what_a_refusal_needs_is_kept() {
        let mut dice = Dice::new(13);
        for number in [12, 18] {
            let still = |d: &Drawing| driver::outcome(d).number == number;
            let calls = (0..20_000).map(|_| at_a_boundary(&mut dice));
            let mut refused = calls.filter(|d| d.list.len() <= 1000 && still(d));
            for _ in 0..20 {
                let drawing = refused.next().expect("enough of this number");
                let least = smallest(drawing, Drawing::simpler, still);
                assert!(least.list.len() <= 40, "{}", least.shown());
                assert_eq!(sizes(&least), [0; 5]);
            }
        }
    }
}
