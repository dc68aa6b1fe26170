//! Which coordinates are cut where points become fixed numbers of 1/256. zeno cuts them too and
//! counts none.

use crate::oracle::Point;

/// How many coordinates of these points are cut: x and y each by itself, and again where a point
/// comes again.
pub fn cuts(points: impl Iterator<Item = Point>) -> usize {
    let parts = points.flat_map(|point| [point.x, point.y]);
    parts.filter(|&part| is_cut(part)).count()
}

/// Whether 256 times a part is no whole number. Asked only of parts that pass the point rule.
pub fn is_cut(part: f32) -> bool {
    // 256 times a binary32 is exact in binary64.
    (f64::from(part) * 256.0).fract() != 0.0
}

#[cfg(test)]
mod tests {
    use super::*;
    use crate::numbers::Dice;

    /// The same by the bits alone: a number is its mantissa times two to a power, and it is whole
    /// in 256ths where that power, and the mantissa's last bit with it, is at least −8.
    fn is_cut_by_bits(part: f32) -> bool {
        let (exponent, rest) = (part.to_bits() >> 23 & 0xff, part.to_bits() & 0x7f_ffff);
        let mantissa = if exponent == 0 { rest } else { rest | 1 << 23 };
        let power = exponent.max(1) as i32 - 127 - 23;
        mantissa != 0 && power + (mantissa.trailing_zeros() as i32) < -8
    }

    #[test]
    fn zeros_and_256ths_are_not_cut() {
        let whole = (-1_048_576..=1_048_576).map(|n| n as f32 / 256.0);
        assert!(whole.chain([0.0, -0.0]).all(|part| !is_cut(part)));
    }

    #[test]
    fn the_least_excess_is_cut() {
        let least = f32::from_bits(1);
        for part in [least, 1.0 / 512.0, 1.0e-3, 0.003, 4096.0034, 2048.0002] {
            assert!(is_cut(part) && is_cut(-part), "{part}");
        }
        for n in 1..=1_048_576u32 {
            let bits = (n as f32 / 256.0).to_bits();
            assert!(is_cut(f32::from_bits(bits + 1)) && is_cut(f32::from_bits(bits - 1)));
        }
    }

    /// Every exponent that the point rule lets pass, with every last bit of the mantissa and any
    /// others before it.
    #[test]
    fn doubles_and_bits_say_the_same() {
        let mut dice = Dice::new(48);
        for exponent in 0..=139 {
            for last in 0..24 {
                for _ in 0..20 {
                    let mantissa = (dice.roll() as u32 | 1) << last & 0x7f_ffff;
                    let sign = dice.roll() as u32 & 1 << 31;
                    let part = f32::from_bits(sign | exponent << 23 | mantissa);
                    assert_eq!(is_cut(part), is_cut_by_bits(part), "{part:?}");
                }
            }
        }
    }

    #[test]
    fn each_coordinate_counts_by_itself() {
        let points = [(0.1, 0.1), (0.1, 0.5), (0.25, 0.1), (3.0, 4.0), (0.1, 0.1)];
        let points = points.map(|(x, y)| Point::new(x, y));
        assert_eq!(cuts(points.into_iter()), 6);
        assert_eq!(cuts(std::iter::empty()), 0);
    }
}
