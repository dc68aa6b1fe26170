//! Dice with a fixed seed, and numbers of every character drawn from them.

use crate::reading::REACH;

/// Random numbers that are the same in every run: xoshiro256**, seeded by splitmix64.
pub struct Dice {
    state: [u64; 4],
}

impl Dice {
    pub fn new(seed: u64) -> Dice {
        let mut at = seed;
        Dice {
            state: std::array::from_fn(|_| splitmix64(&mut at)),
        }
    }

    /// Dice for one named kind of case, so that a new kind leaves the cases of the others alone.
    pub fn named(seed: u64, name: &str) -> Dice {
        Dice::new(seed ^ fnv1a(name.as_bytes()))
    }

    /// 64 random bits.
    pub fn roll(&mut self) -> u64 {
        let [a, b, c, d] = self.state;
        let answer = b.wrapping_mul(5).rotate_left(7).wrapping_mul(9);
        let (c1, d1) = (c ^ a, d ^ b);
        self.state = [a ^ d1, b ^ c1, c1 ^ (b << 17), d1.rotate_left(45)];
        answer
    }

    /// A number from 0 to below `count`, which is not 0.
    pub fn below(&mut self, count: usize) -> usize {
        ((u128::from(self.roll()) * count as u128) >> 64) as usize
    }

    /// A number from `low` to `high`, both included.
    pub fn between(&mut self, low: i64, high: i64) -> i64 {
        low + self.below((high - low + 1) as usize) as i64
    }

    /// True once in `count` times.
    pub fn one_in(&mut self, count: usize) -> bool {
        self.below(count) == 0
    }

    pub fn pick<T: Copy>(&mut self, from: &[T]) -> T {
        from[self.below(from.len())]
    }
}

fn splitmix64(at: &mut u64) -> u64 {
    *at = at.wrapping_add(0x9e37_79b9_7f4a_7c15);
    let mixed = (*at ^ (*at >> 30)).wrapping_mul(0xbf58_476d_1ce4_e5b9);
    let mixed = (mixed ^ (mixed >> 27)).wrapping_mul(0x94d0_49bb_1331_11eb);
    mixed ^ (mixed >> 31)
}

/// The 64-bit FNV-1a checksum.
pub fn fnv1a(bytes: &[u8]) -> u64 {
    let start = 0xcbf2_9ce4_8422_2325_u64;
    bytes.iter().fold(start, |hash, &byte| {
        (hash ^ u64::from(byte)).wrapping_mul(0x0100_0000_01b3)
    })
}

/// Which characters the numbers of one case have. A case takes all its numbers from one palette:
/// were NaN always among them, most answers would be NaN and show nothing.
#[derive(Clone, Copy, Debug, PartialEq)]
pub enum Palette {
    /// Small whole numbers and quarters, both zeros.
    Plain,
    /// What labels are drawn with: 1/256 grid, up to a few thousand.
    Label,
    /// Full mantissas at exponents near each other, so that sums round.
    Rounding,
    /// Steps around the numbers where a rule or the format turns.
    Edge,
    /// Finite numbers of every exponent, subnormal ones included.
    Finite,
    /// Finite or infinite, no NaN.
    Infinite,
    /// Every character, NaN included.
    Any,
}

impl Palette {
    pub const ALL: [Palette; 7] = [
        Palette::Plain,
        Palette::Label,
        Palette::Rounding,
        Palette::Edge,
        Palette::Finite,
        Palette::Infinite,
        Palette::Any,
    ];

    /// Those without infinite numbers and NaN.
    pub const FINITE: &'static [Palette] = Palette::ALL.split_at(5).0;

    pub fn draw(dice: &mut Dice) -> Palette {
        dice.pick(&Palette::ALL)
    }

    pub fn number(self, dice: &mut Dice) -> f32 {
        match self {
            Palette::Plain => plain(dice),
            Palette::Label => label(dice),
            Palette::Rounding => full(dice, 115, 139),
            Palette::Edge => edge(dice),
            Palette::Finite => finite(dice),
            Palette::Infinite if dice.one_in(3) => dice.pick(&[f32::INFINITY, f32::NEG_INFINITY]),
            Palette::Infinite => finite(dice),
            Palette::Any => any(dice),
        }
    }

    pub fn numbers(self, dice: &mut Dice, count: usize) -> Vec<f32> {
        (0..count).map(|_| self.number(dice)).collect()
    }
}

/// Numbers where a rule or the format turns: 1, the point rule's 4096 and half of it, the last number
/// with halves, the last with every whole number, the smallest normal and the largest.
const TURNS: [f32; 9] = [
    1.0,
    256.0,
    2048.0,
    4096.0,
    8_388_608.0,
    16_777_216.0,
    f32::MIN_POSITIVE,
    1.0 / 256.0,
    f32::MAX,
];

fn plain(dice: &mut Dice) -> f32 {
    match dice.below(8) {
        0 => dice.pick(&[0.0, -0.0]),
        1 => dice.pick(&[1.0, -1.0]),
        2..=4 => dice.between(-8, 8) as f32,
        _ => dice.between(-64, 64) as f32 / 4.0,
    }
}

fn label(dice: &mut Dice) -> f32 {
    match dice.below(4) {
        0 => dice.between(-REACH, REACH) as f32,
        1 => dice.between(-256 * REACH, 256 * REACH) as f32 / 256.0,
        2 => dice.between(-10_000_000, 10_000_000) as f32 / 4096.0,
        _ => full(dice, 117, 139),
    }
}

/// A step of up to three bits beside a number where something turns, of either sign.
fn edge(dice: &mut Dice) -> f32 {
    let turn = dice.pick(&TURNS).to_bits();
    let near = f32::from_bits((i64::from(turn) + dice.between(-3, 3)) as u32);
    let near = if near.is_finite() { near } else { f32::MAX };
    let sum = near + dice.between(-4, 4) as f32 / 4.0;
    let number = if dice.one_in(2) { near } else { sum };
    signed(dice, if number.is_finite() { number } else { near })
}

/// A random mantissa and sign, with an exponent field from `low` to `high`.
fn full(dice: &mut Dice, low: i64, high: i64) -> f32 {
    let exponent = dice.between(low, high) as u32;
    let rest = dice.roll() as u32 & 0x807f_ffff;
    f32::from_bits(exponent << 23 | rest)
}

fn finite(dice: &mut Dice) -> f32 {
    match dice.below(6) {
        0 => plain(dice),
        1 => label(dice),
        2 => edge(dice),
        3 => full(dice, 0, 0),
        _ => full(dice, 0, 254),
    }
}

fn any(dice: &mut Dice) -> f32 {
    match dice.below(8) {
        0 => f32::from_bits(dice.roll() as u32),
        1 => dice.pick(&[f32::INFINITY, f32::NEG_INFINITY]),
        2 => full(dice, 255, 255),
        3 => dice.pick(&[f32::MAX, f32::MIN, 0.0, -0.0, f32::from_bits(1)]),
        _ => finite(dice),
    }
}

fn signed(dice: &mut Dice, number: f32) -> f32 {
    if dice.one_in(2) {
        -number
    } else {
        number
    }
}

/// Equal as public answers are: the same bits, or NaN both, whose bits are left open.
pub fn same(a: f32, b: f32) -> bool {
    a.to_bits() == b.to_bits() || (a.is_nan() && b.is_nan())
}

/// A number with its bits, as `1.5 (3fc00000)`.
pub fn shown(number: f32) -> String {
    format!("{number:?} ({:08x})", number.to_bits())
}

#[cfg(test)]
mod tests {
    use super::*;

    #[test]
    fn the_same_seed_gives_the_same_numbers() {
        let draw = |seed| {
            let mut dice = Dice::named(seed, "kind");
            (0..100).map(|_| dice.roll()).collect::<Vec<_>>()
        };
        assert_eq!(draw(7), draw(7));
        assert_ne!(draw(7), draw(8));
    }

    /// The checksums of nothing and of "foobar" as published with FNV.
    #[test]
    fn checksum_is_fnv1a() {
        assert_eq!(fnv1a(b""), 0xcbf2_9ce4_8422_2325);
        assert_eq!(fnv1a(b"foobar"), 0x8594_4171_f739_67e8);
    }

    #[test]
    fn between_reaches_both_ends_and_nothing_else() {
        let mut dice = Dice::new(1);
        let drawn: Vec<i64> = (0..1000).map(|_| dice.between(-2, 2)).collect();
        assert_eq!(drawn.iter().min(), Some(&-2));
        assert_eq!(drawn.iter().max(), Some(&2));
    }

    /// Each palette keeps to its description: only the last two leave the finite numbers, only
    /// the last has NaN, and it has every character.
    #[test]
    fn palettes_keep_their_characters() {
        let mut dice = Dice::new(2);
        for palette in Palette::ALL {
            let drawn = palette.numbers(&mut dice, 20_000);
            let has = |test: fn(&f32) -> bool| drawn.iter().any(test);
            let last = palette == Palette::Any;
            let is_finite = drawn.iter().all(|v| v.is_finite());
            assert_eq!(is_finite, Palette::FINITE.contains(&palette), "{palette:?}");
            assert_eq!(has(|v| v.is_nan()), last, "{palette:?}");
            let infinite = last || palette == Palette::Infinite;
            assert_eq!(has(|v| v.is_infinite()), infinite, "{palette:?}");
            if matches!(palette, Palette::Finite) || infinite {
                assert!(has(|v| v.is_subnormal()), "{palette:?}");
                assert!(has(|v| v.to_bits() == 0x8000_0000), "{palette:?}");
                assert!(has(|v| v.abs() > 1e38), "{palette:?}");
            }
        }
    }

    #[test]
    fn sameness_is_of_bits_but_for_nan() {
        assert!(same(
            f32::from_bits(0x7fc0_0001),
            f32::from_bits(0xff80_0001)
        ));
        assert!(!same(0.0, -0.0));
        assert!(!same(f32::NAN, f32::INFINITY));
    }
}
