//! A smaller form of a case that differs: simpler candidates are tried until none differs.

/// Simpler forms of a case, made as they are asked for.
pub type Candidates<'a, C> = Box<dyn Iterator<Item = C> + 'a>;

/// The simplest case to be reached that still differs. `simpler` offers candidates, the boldest
/// first; each must be simpler than its case, so that this ends.
pub fn smallest<C>(
    case: C,
    simpler: impl for<'a> Fn(&'a C) -> Candidates<'a, C>,
    differs: impl Fn(&C) -> bool,
) -> C {
    let mut case = case;
    loop {
        let next = simpler(&case).find(&differs);
        match next {
            Some(next) => case = next,
            None => return case,
        }
    }
}

/// The same numbers with one made simpler.
pub fn simpler_numbers(numbers: &[f32]) -> Vec<Vec<f32>> {
    let mut candidates = Vec::new();
    for (at, &number) in numbers.iter().enumerate() {
        for simple in simpler_number(number) {
            let mut candidate = numbers.to_vec();
            candidate[at] = simple;
            candidates.push(candidate);
        }
    }
    candidates
}

/// The same numbers without one group of `size`, wherever it stands.
pub fn shorter_numbers(numbers: &[f32], size: usize) -> Vec<Vec<f32>> {
    let starts = (0..=numbers.len().saturating_sub(size)).step_by(size);
    let without = |start: usize| {
        let mut candidate = numbers.to_vec();
        candidate.drain(start..(start + size).min(numbers.len()));
        candidate
    };
    let shorter = starts.map(without);
    shorter.filter(|c| c.len() < numbers.len()).collect()
}

/// Shorter lengths, the boldest first.
pub fn shorter_lengths(length: usize) -> Vec<usize> {
    let candidates = [length / 2, length - length / 8, length.saturating_sub(1)];
    let shorter = candidates.into_iter();
    shorter.filter(|&other| other < length).collect()
}

/// 0, 1 and -1, then the number cut to whole, halved, or with fewer bits.
pub fn simpler_number(number: f32) -> Vec<f32> {
    let bits = number.to_bits();
    let candidates = [
        0.0,
        1.0,
        -1.0,
        number.abs(),
        number.trunc(),
        number / 2.0,
        f32::from_bits(bits & 0xff80_0000),
        f32::from_bits(bits & 0xffff_0000),
        f32::from_bits(bits & 0xffff_ff00),
    ];
    let simpler = candidates.into_iter();
    simpler.filter(|c| rank(*c) < rank(number)).collect()
}

/// How simple a number is: 0, 1, -1, finite ones by size, the infinite ones, NaN.
fn rank(number: f32) -> (u32, u32, bool) {
    let bits = number.abs().to_bits();
    let class = match number {
        n if n.is_nan() => return (6, 0, false),
        n if n.to_bits() == 0 => 0,
        1.0 => 1,
        -1.0 => 2,
        n if n.abs() >= 1.0 && n.fract() == 0.0 => 3,
        n if n.abs() >= 1.0 => 4,
        // Below 1 a longer number is no simpler for being smaller.
        _ => return (5, 32 - bits.trailing_zeros().min(32), number < 0.0),
    };
    (class, bits, number < 0.0)
}

#[cfg(test)]
mod tests {
    use super::*;
    use crate::numbers::{Dice, Palette};

    fn simpler(numbers: &[f32]) -> Candidates<'_, Vec<f32>> {
        let shorter = shorter_numbers(numbers, 1).into_iter();
        Box::new(shorter.chain(simpler_numbers(numbers)))
    }

    #[test]
    fn candidates_are_simpler_and_shrinking_ends() {
        let mut dice = Dice::new(7);
        for _ in 0..2000 {
            let numbers = Palette::draw(&mut dice).numbers(&mut dice, 3);
            let least = smallest(
                numbers,
                |n| Box::new(simpler_numbers(n).into_iter()),
                |_| true,
            );
            assert!(least.iter().all(|n| n.to_bits() == 0));
        }
    }

    #[test]
    fn what_the_difference_needs_is_kept() {
        let case = vec![7.25, -0.0, 900.5, 3.0e38, 12.0];
        let differs = |n: &Vec<f32>| n.len() >= 2 && n.iter().any(|v| *v >= 100.0);
        let least = smallest(case, |n| simpler(n), differs);
        assert_eq!(least.len(), 2);
        assert!(
            least.iter().any(|v| (100.0..200.0).contains(v)),
            "{least:?}"
        );
        assert!(least.contains(&0.0));
    }

    #[test]
    fn groups_are_cut_whole() {
        let cut = shorter_numbers(&[1.0, 2.0, 3.0, 4.0, 5.0], 2);
        let expected = [vec![3.0, 4.0, 5.0], vec![1.0, 2.0, 5.0]];
        assert_eq!(cut, expected);
        assert!(shorter_numbers(&[], 2).is_empty());
    }
}
