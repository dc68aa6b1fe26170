//! What lent bytes and words hold before a call: something that no answer may show.

use super::Drawing;
use crate::numbers::Dice;

pub fn bytes(count: usize) -> Vec<u8> {
    (0..count).map(|n| (n % 251) as u8 + 3).collect()
}

pub fn words(count: usize) -> Vec<u32> {
    (0..count as u32)
        .map(|n| n.wrapping_mul(0x9e37_79b9) | 1)
        .collect()
}

#[derive(Clone, Copy)]
enum Soil {
    Zeros,
    Ones,
    /// Small numbers: as words they pass for links, and for places of the first row.
    Small,
    Random,
}

const WAYS: [Soil; 4] = [Soil::Zeros, Soil::Ones, Soil::Small, Soil::Random];

/// Soils the lent bytes and words anew, each in its own way.
pub fn soil(drawing: &mut Drawing, dice: &mut Dice) {
    let (way, mut noise) = (dice.pick(&WAYS), dice.roll());
    for byte in &mut drawing.mask {
        *byte = soiled(way, &mut noise) as u8;
    }
    let way = dice.pick(&WAYS);
    for word in &mut drawing.words {
        *word = soiled(way, &mut noise);
    }
}

/// Soils lent words alone.
pub fn soil_words(words: &mut [u32], dice: &mut Dice) {
    let (way, mut noise) = (dice.pick(&WAYS), dice.roll());
    for word in words {
        *word = soiled(way, &mut noise);
    }
}

fn soiled(way: Soil, noise: &mut u64) -> u32 {
    *noise = noise
        .wrapping_mul(6_364_136_223_846_793_005)
        .wrapping_add(1_442_695_040_888_963_407);
    let random = (*noise >> 32) as u32;
    match way {
        Soil::Zeros => 0,
        Soil::Ones => u32::MAX,
        Soil::Small => random % 7,
        Soil::Random => random,
    }
}
