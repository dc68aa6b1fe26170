//! Stored answers for a program in another language to replay; `compare fixture OUT` writes them.
//! Where the number is 0 they are zeno's, but for how many coordinates were cut, which zeno does not
//! tell and the reading does. Zeno refuses nothing: every other number is the reading's, which for 13
//! counts zeno's cells record by record. All numbers are little-endian; floats are IEEE 754 binary32 by
//! their bits.
//!
//! | field | bytes | what it is |
//! |---|---|---|
//! | magic | 8 | `MZREPLAY` |
//! | drawings | 4 | how many drawings follow |
//! | .. | | the drawings |
//! | placements | 4 | how many placements follow |
//! | .. | | the placements, and nothing behind them |
//!
//! A drawing. Its mask starts as bytes 7; its words start as the reader likes. After number 0 and 13
//! all words are zero, after every other number they are as they were.
//!
//! | field | bytes | what it is |
//! |---|---|---|
//! | list length | 4 | at most 65,540 |
//! | list | that many | |
//! | transform | 6 × 4 | xx, xy, yx, yy, x, y |
//! | offset | 2 × 4 | x, y |
//! | even_odd | 1 | 1 for even-odd, 0 for nonzero |
//! | up | 1 | 1 for up, 0 for down |
//! | width, height, pitch, first, end | 5 × 4 | the band is [first, end) |
//! | words | 4 | how many words are lent, at most 69,632 |
//! | number, index, records, cells, cut | 5 × 4 | the answer |
//! | mask length | 4 | how many bytes are lent, at most 65,536 |
//! | whole | 1 | 1: the mask afterwards follows; 0: its checksum follows |
//! | mask | that many, or 8 | the bytes, or their 64-bit FNV-1a |
//!
//! A placement.
//!
//! | field | bytes | what it is |
//! |---|---|---|
//! | list length, list | 4 and that many | |
//! | transform, offset | 8 × 4 | as above |
//! | bottom_left | 1 | 1 for a bottom-left origin, 0 for top-left |
//! | number, index | 2 × 4 | the answer; where it is not 0, what follows is 0 |
//! | offset | 2 × 4 | the new offset's bits, x and y |
//! | left, top | 2 × 4 | signed |
//! | width, height, cut | 3 × 4 | |

mod cases;

use crate::drawing::Drawing;
use crate::driver::{self, PlacedList};
use crate::numbers::fnv1a;
use crate::oracle::{Fill, Origin, Point, Transform};
use crate::placing::Placing;

const MAGIC: &[u8; 8] = b"MZREPLAY";

/// What every byte of a mask is before.
pub const OLD_BYTE: u8 = 7;

/// Longer masks are stored by their checksum.
const WHOLE: usize = 160;

/// A fixture and how many drawings and placements it has.
pub struct Fixture {
    pub bytes: Vec<u8>,
    pub drawings: usize,
    pub placements: usize,
}

/// The whole file; it is the same in every run.
pub fn fixture() -> Fixture {
    let (drawings, placings) = (cases::drawings(), cases::placings());
    let mut bytes = MAGIC.to_vec();
    put(&mut bytes, drawings.len());
    for drawing in &drawings {
        put_drawing(&mut bytes, drawing);
    }
    put(&mut bytes, placings.len());
    for placing in &placings {
        put_placing(&mut bytes, placing);
    }
    Fixture {
        bytes,
        drawings: drawings.len(),
        placements: placings.len(),
    }
}

fn put_drawing(bytes: &mut Vec<u8>, d: &Drawing) {
    put_list(bytes, &d.list);
    put_floats(bytes, &d.transform, d.offset);
    bytes.push(u8::from(d.fill == Fill::EvenOdd));
    bytes.push(u8::from(d.up));
    for size in [d.width, d.height, d.pitch, d.first, d.end, d.words.len()] {
        put(bytes, size);
    }
    let outcome = driver::outcome(d);
    put(bytes, usize::from(outcome.number));
    put(bytes, outcome.index);
    put(bytes, outcome.records);
    put(bytes, outcome.cells);
    put(bytes, outcome.cut);
    put_mask(bytes, &outcome.mask);
}

fn put_mask(bytes: &mut Vec<u8>, mask: &[u8]) {
    let whole = mask.len() <= WHOLE;
    put(bytes, mask.len());
    bytes.push(u8::from(whole));
    if whole {
        bytes.extend_from_slice(mask);
    } else {
        bytes.extend(fnv1a(mask).to_le_bytes());
    }
}

fn put_placing(bytes: &mut Vec<u8>, p: &Placing) {
    put_list(bytes, &p.list);
    put_floats(bytes, &p.transform, p.offset);
    bytes.push(u8::from(p.origin == Origin::BottomLeft));
    let placed = driver::placement(&p.list, p.transform, p.offset, p.origin);
    let (number, index) = match &placed {
        Ok(_) => (0, 0),
        Err(refusal) => (usize::from(refusal.number), refusal.index),
    };
    put(bytes, number);
    put(bytes, index);
    let PlacedList { offset, place, cut } = placed.unwrap_or_default();
    for part in [offset.x, offset.y] {
        bytes.extend(part.to_le_bytes());
    }
    for part in [place.left, place.top] {
        bytes.extend(part.to_le_bytes());
    }
    for part in [place.width, place.height] {
        bytes.extend(part.to_le_bytes());
    }
    put(bytes, cut);
}

fn put(bytes: &mut Vec<u8>, number: usize) {
    let number = u32::try_from(number).expect("a fixture's numbers fit 32 bits");
    bytes.extend(number.to_le_bytes());
}

fn put_list(bytes: &mut Vec<u8>, list: &[u8]) {
    put(bytes, list.len());
    bytes.extend_from_slice(list);
}

fn put_floats(bytes: &mut Vec<u8>, t: &Transform, offset: Point) {
    for part in [t.xx, t.xy, t.yx, t.yy, t.x, t.y, offset.x, offset.y] {
        bytes.extend(part.to_le_bytes());
    }
}

#[cfg(test)]
mod tests {
    use super::*;
    use std::collections::{HashMap, HashSet};

    /// Takes the file apart again by the table above.
    struct Reader<'a>(&'a [u8]);

    impl Reader<'_> {
        fn take(&mut self, count: usize) -> &[u8] {
            let (taken, rest) = self.0.split_at(count);
            self.0 = rest;
            taken
        }

        fn number(&mut self) -> usize {
            u32::from_le_bytes(self.take(4).try_into().unwrap()) as usize
        }

        /// Steps over a drawing and tells its number, index and cut, words, mask length and whether
        /// it is whole.
        fn drawing(&mut self) -> [usize; 6] {
            let list = self.number();
            self.take(list + 8 * 4 + 2 + 5 * 4);
            let words = self.number();
            let (number, index) = (self.number(), self.number());
            self.take(2 * 4);
            let cut = self.number();
            let mask = self.number();
            let whole = usize::from(self.take(1)[0]);
            self.take(if whole == 1 { mask } else { 8 });
            [number, index, cut, words, mask, whole]
        }

        /// Steps over a placement and tells its number, index and cut.
        fn placing(&mut self) -> [usize; 3] {
            let list = self.number();
            self.take(list + 8 * 4 + 1);
            let (number, index) = (self.number(), self.number());
            self.take(6 * 4);
            [number, index, self.number()]
        }
    }

    #[test]
    fn the_file_is_as_its_table_says() {
        let fixture = fixture();
        let mut reader = Reader(&fixture.bytes);
        assert_eq!(reader.take(8), b"MZREPLAY");
        assert_eq!(reader.number(), fixture.drawings);
        let mut numbers: HashMap<usize, usize> = HashMap::new();
        let mut by_checksum = 0;
        for _ in 0..fixture.drawings {
            let [number, _, _, words, mask, whole] = reader.drawing();
            *numbers.entry(number).or_default() += 1;
            assert!(words <= 69_632 && mask <= 65_536, "{words} {mask}");
            by_checksum += 1 - whole;
        }
        assert_eq!(reader.number(), fixture.placements);
        let placed = (0..fixture.placements).filter(|_| reader.placing()[0] == 0);
        assert!(2 * placed.count() > fixture.placements);
        assert!(reader.0.is_empty());
        let mut all = (0..=13).chain([18]);
        assert!(all.all(|number| numbers[&number] > 0), "{numbers:?}");
        assert!(by_checksum > 20, "{by_checksum}");
    }

    /// Records that draw behind a Close stand in many places, of drawings and of placements, and so do
    /// records that are too much for a pool.
    #[test]
    fn records_at_fault_stand_anywhere_in_the_file() {
        let fixture = fixture();
        let mut reader = Reader(&fixture.bytes[MAGIC.len() + 4..]);
        let (mut of_drawings, mut without_room) = (HashSet::new(), HashSet::new());
        for _ in 0..fixture.drawings {
            let [number, index, ..] = reader.drawing();
            of_drawings.extend((number == 18).then_some(index));
            without_room.extend((number == 13).then_some(index));
        }
        reader.number();
        let mut of_placements = HashSet::new();
        for _ in 0..fixture.placements {
            let [number, index, _] = reader.placing();
            of_placements.extend((number == 18).then_some(index));
        }
        for indices in [of_drawings, of_placements, without_room] {
            assert!((2..=6).all(|index| indices.contains(&index)), "{indices:?}");
        }
    }

    /// Many answers of either sort tell of coordinates cut, one of as many as may be, refusals of none.
    #[test]
    fn coordinates_are_cut_in_many_answers() {
        let fixture = fixture();
        let mut reader = Reader(&fixture.bytes[MAGIC.len() + 4..]);
        let mut of_drawings = Vec::new();
        for _ in 0..fixture.drawings {
            let [number, _, cut, ..] = reader.drawing();
            of_drawings.push((number, cut));
        }
        reader.number();
        let mut of_placements = Vec::new();
        for _ in 0..fixture.placements {
            let [number, _, cut] = reader.placing();
            of_placements.push((number, cut));
        }
        assert!(of_drawings.contains(&(0, 14_042)));
        for answers in [of_drawings, of_placements] {
            let cut: Vec<_> = answers.iter().filter(|(_, cut)| *cut > 0).collect();
            assert!(4 * cut.len() > answers.len(), "{}", cut.len());
            assert!(cut.iter().all(|(number, _)| *number == 0));
        }
    }

    #[test]
    fn the_file_is_large_enough_and_small_enough() {
        let fixture = fixture();
        assert!(fixture.drawings >= 2000 && fixture.placements >= 500);
        assert!(fixture.bytes.len() < 1_048_576, "{}", fixture.bytes.len());
    }

    /// K1 stands first: its list, its answer and its mask.
    #[test]
    fn the_first_drawing_is_k1() {
        let bytes = fixture().bytes;
        assert_eq!(bytes[12..16], 52u32.to_le_bytes());
        let answer = 16 + 52 + 32 + 2 + 6 * 4;
        assert_eq!(bytes[answer..answer + 4], [0; 4]);
        assert_eq!(bytes[answer + 8..answer + 16], [5, 0, 0, 0, 2, 0, 0, 0]);
        let mask = [0, 0, 0, 0, 0, 255, 255, 0, 0, 0, 0, 0];
        assert_eq!(
            bytes[answer + 16..answer + 37],
            [&[0, 0, 0, 0, 12, 0, 0, 0, 1], &mask[..]].concat()
        );
    }
}
