//! Transforms combined by hand. The tests hold zeno through the swap to this table, the program the
//! port.

use super::entries;
use crate::oracle::{Point, Transform};

/// Who combines and moves.
pub struct Side {
    pub then: fn(Transform, Transform) -> Transform,
    pub then_scale: fn(Transform, f32, f32) -> Transform,
    pub then_translate: fn(Transform, f32, f32) -> Transform,
    pub pre_scale: fn(Transform, f32, f32) -> Transform,
    pub pre_translate: fn(Transform, f32, f32) -> Transform,
    pub transform_point: fn(Transform, Point) -> Point,
}

/// What is asked, in words and of a side, and the numbers that must be answered: a transform's six or
/// a point's two.
#[derive(Clone, Copy)]
pub struct Row {
    pub what: &'static str,
    pub asked: fn(&Side) -> Vec<f32>,
    pub told: &'static [f32],
}

const IDENTITY: Transform = Transform::IDENTITY;

/// A quarter turn: x goes to y, and y to −x.
const TURN: Transform = transform([0.0, 1.0, -1.0, 0.0, 0.0, 0.0]);

/// x gets y.
const SHEAR: Transform = transform([1.0, 0.0, 1.0, 1.0, 0.0, 0.0]);

const MOVE: Transform = transform([1.0, 0.0, 0.0, 1.0, 3.0, 5.0]);
const ZEROS: Transform = transform([-0.0, 0.0, -0.0, 0.0, -0.0, 0.0]);
const LOW_PRIMES: Transform = transform([2.0, 3.0, 5.0, 7.0, 11.0, 13.0]);
const HIGH_PRIMES: Transform = transform([17.0, 19.0, 23.0, 29.0, 31.0, 37.0]);

/// The whole table.
pub fn table() -> Vec<Row> {
    [&TURNED[..], &SHEARED, &SUMS, &LARGE].concat()
}

const TURNED: [Row; 8] = [
    Row {
        what: "xy alone, then scale (0, 1)",
        asked: |side| {
            let alone = transform([0.0, 1.0, 0.0, 0.0, 0.0, 0.0]);
            answered((side.then_scale)(alone, 0.0, 1.0))
        },
        told: &[0.0, 1.0, 0.0, 0.0, 0.0, 0.0],
    },
    Row {
        what: "a quarter turn, then scale (2, 1): (1, 0)",
        asked: |side| sent(side, (side.then_scale)(TURN, 2.0, 1.0), 1.0, 0.0),
        told: &[0.0, 1.0],
    },
    Row {
        what: "scale (2, 1), then a quarter turn: (1, 0)",
        asked: |side| sent(side, (side.pre_scale)(TURN, 2.0, 1.0), 1.0, 0.0),
        told: &[0.0, 2.0],
    },
    Row {
        what: "a quarter turn, then scale (2, 1), then a quarter turn back: (1, 0)",
        asked: |side| {
            let back = transform([0.0, -1.0, 1.0, 0.0, 0.0, 0.0]);
            let scaled = (side.then_scale)(TURN, 2.0, 1.0);
            sent(side, (side.then)(scaled, back), 1.0, 0.0)
        },
        told: &[1.0, 0.0],
    },
    Row {
        what: "a quarter turn, then a move by (3, 5)",
        asked: |side| answered((side.then)(TURN, MOVE)),
        told: &[0.0, 1.0, -1.0, 0.0, 3.0, 5.0],
    },
    Row {
        what: "a quarter turn moved by (3, 5)",
        asked: |side| answered((side.then_translate)(TURN, 3.0, 5.0)),
        told: &[0.0, 1.0, -1.0, 0.0, 3.0, 5.0],
    },
    Row {
        what: "a move by (3, 5), then a quarter turn",
        asked: |side| answered((side.then)(MOVE, TURN)),
        told: &[0.0, 1.0, -1.0, 0.0, -5.0, 3.0],
    },
    Row {
        what: "a quarter turn, moved by (3, 5) before",
        asked: |side| answered((side.pre_translate)(TURN, 3.0, 5.0)),
        told: &[0.0, 1.0, -1.0, 0.0, -5.0, 3.0],
    },
];

const SHEARED: [Row; 3] = [
    Row {
        what: "a shear, then scale (2, 1)",
        asked: |side| answered((side.then_scale)(SHEAR, 2.0, 1.0)),
        told: &[2.0, 0.0, 2.0, 1.0, 0.0, 0.0],
    },
    Row {
        what: "a shear, then scale (2, 1): (1, 1)",
        asked: |side| sent(side, (side.then_scale)(SHEAR, 2.0, 1.0), 1.0, 1.0),
        told: &[4.0, 1.0],
    },
    Row {
        what: "scale (2, 1), then a shear",
        asked: |side| answered((side.pre_scale)(SHEAR, 2.0, 1.0)),
        told: &[2.0, 0.0, 1.0, 1.0, 0.0, 0.0],
    },
];

const SUMS: [Row; 7] = [
    Row {
        what: "a mirror in x, then one in y: xy is -0",
        asked: |side| answered((side.then_scale)(Transform::scale(-1.0, 1.0), 1.0, -1.0)),
        told: &[-1.0, -0.0, 0.0, -1.0, 0.0, 0.0],
    },
    Row {
        what: "2, 3, 5, 7, 11, 13, then 17, 19, 23, 29, 31, 37",
        asked: |side| answered((side.then)(LOW_PRIMES, HIGH_PRIMES)),
        told: &[103.0, 125.0, 246.0, 298.0, 517.0, 623.0],
    },
    Row {
        what: "identity, then scale (-1, 1): every zero is positive",
        asked: |side| answered((side.then_scale)(IDENTITY, -1.0, 1.0)),
        told: &[-1.0, 0.0, 0.0, 1.0, 0.0, 0.0],
    },
    Row {
        what: "identity, then scale (inf, 1): yx and x are NaN",
        asked: |side| answered((side.then_scale)(IDENTITY, f32::INFINITY, 1.0)),
        told: &[f32::INFINITY, 0.0, f32::NAN, 1.0, f32::NAN, 0.0],
    },
    Row {
        what: "zeros of either sign moved by (-0, -0)",
        asked: |side| answered((side.then_translate)(ZEROS, -0.0, -0.0)),
        told: &[-0.0, 0.0, -0.0, 0.0, -0.0, 0.0],
    },
    Row {
        what: "zeros of either sign, then a move by (-0, -0)",
        asked: |side| answered((side.then)(ZEROS, Transform::translation(-0.0, -0.0))),
        told: &[0.0, 0.0, 0.0, 0.0, 0.0, 0.0],
    },
    Row {
        what: "2^24 * 1 + 1 * 1 + 1, from the left",
        asked: |side| {
            let far = transform([0.0, 0.0, 0.0, 0.0, 16_777_216.0, 1.0]);
            answered((side.then)(far, transform([1.0; 6])))
        },
        told: &[0.0, 0.0, 0.0, 0.0, 16_777_216.0, 16_777_216.0],
    },
];

/// 4097 squared is no float, so the point moved twice is not the point under both at once.
const LARGE: [Row; 2] = [
    Row {
        what: "scale 4097, then scale 4097: (3, 0)",
        asked: |side| {
            let scale = Transform::scale(4097.0, 4097.0);
            sent(side, (side.then)(scale, scale), 3.0, 0.0)
        },
        told: &[50_356_224.0, 0.0],
    },
    Row {
        what: "(3, 0) by scale 4097, and that again",
        asked: |side| {
            let scale = Transform::scale(4097.0, 4097.0);
            let once = (side.transform_point)(scale, Point::new(3.0, 0.0));
            sent(side, scale, once.x, once.y)
        },
        told: &[50_356_228.0, 0.0],
    },
];

const fn transform(entries: [f32; 6]) -> Transform {
    let [xx, xy, yx, yy, x, y] = entries;
    Transform {
        xx,
        xy,
        yx,
        yy,
        x,
        y,
    }
}

fn answered(t: Transform) -> Vec<f32> {
    entries(t).to_vec()
}

/// Where the transform sends (x, y).
fn sent(side: &Side, t: Transform, x: f32, y: f32) -> Vec<f32> {
    let point = (side.transform_point)(t, Point::new(x, y));
    vec![point.x, point.y]
}

#[cfg(test)]
mod tests {
    use super::*;
    use crate::combining::{pre_scale, pre_translate, then, then_scale};
    use crate::numbers::same;

    const ZENO: Side = Side {
        then: |t, u| t.then(&u),
        then_scale: |t, x, y| t.then_scale(x, y),
        then_translate: |t, x, y| t.then_translate(x, y),
        pre_scale: |t, x, y| t.pre_scale(x, y),
        pre_translate: |t, x, y| t.pre_translate(x, y),
        transform_point: |t, p| t.transform_point(p),
    };

    const THROUGH_THE_SWAP: Side = Side {
        then,
        then_scale,
        pre_scale,
        pre_translate,
        ..ZENO
    };

    fn is_told(row: &Row, side: &Side) -> bool {
        let answer = (row.asked)(side);
        let mut pairs = answer.iter().zip(row.told);
        answer.len() == row.told.len() && pairs.all(|(&a, &b)| same(a, b))
    }

    #[test]
    fn zeno_through_the_swap_answers_as_the_table() {
        for row in table() {
            let answer = (row.asked)(&THROUGH_THE_SWAP);
            assert!(is_told(&row, &THROUGH_THE_SWAP), "{}: {answer:?}", row.what);
        }
    }

    /// Where zeno itself answers otherwise.
    #[test]
    fn most_of_the_table_needs_the_swap() {
        let differ = table().into_iter().filter(|row| !is_told(row, &ZENO));
        let differ: Vec<_> = differ.map(|row| row.what).collect();
        assert_eq!(differ.len(), 12, "{differ:#?}");
    }
}
