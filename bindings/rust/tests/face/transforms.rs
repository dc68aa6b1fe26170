//! Transforms by numbers worked out by hand, no two entries alike, by the rules' six sums, and one
//! followed by another.

use crate::{dice, k1};
use mosszephyr::{draw, Label, Point, Transform};

const T: Transform = Transform::new(1.0, 2.0, 3.0, 4.0, 5.0, 6.0);

/// Sends (x, y) to (−y, x).
const QUARTER: Transform = Transform::new(0.0, 1.0, -1.0, 0.0, 0.0, 0.0);

fn entries(t: Transform) -> [f32; 6] {
    [t.xx, t.xy, t.yx, t.yy, t.x, t.y]
}

fn transform([xx, xy, yx, yy, x, y]: [f32; 6]) -> Transform {
    Transform::new(xx, xy, yx, yy, x, y)
}

fn bits(t: Transform) -> [u32; 6] {
    entries(t).map(f32::to_bits)
}

#[test]
fn simple_ones_have_their_entries() {
    let identity = Transform::new(1.0, 0.0, 0.0, 1.0, 0.0, 0.0);
    assert_eq!(bits(Transform::identity()), bits(identity));
    assert_eq!(bits(Transform::default()), bits(identity));
    let moved = Transform::new(1.0, 0.0, 0.0, 1.0, 5.0, 6.0);
    assert_eq!(bits(Transform::translation(5.0, 6.0)), bits(moved));
    let scaled = Transform::new(5.0, 0.0, 0.0, 6.0, 0.0, 0.0);
    assert_eq!(bits(Transform::scale(5.0, 6.0)), bits(scaled));
}

/// xx: 1 · 7 + 2 · 13; xy: 1 · 11 + 2 · 17; yx: 3 · 7 + 4 · 13; yy: 3 · 11 + 4 · 17;
/// x: 5 · 7 + 6 · 13 + 19; y: 5 · 11 + 6 · 17 + 23. The other way round
/// xx: 7 · 1 + 11 · 3; xy: 7 · 2 + 11 · 4; yx: 13 · 1 + 17 · 3; yy: 13 · 2 + 17 · 4;
/// x: 19 · 1 + 23 · 3 + 5; y: 19 · 2 + 23 · 4 + 6.
#[test]
fn then_is_the_rules_combination() {
    let next = Transform::new(7.0, 11.0, 13.0, 17.0, 19.0, 23.0);
    let both = Transform::new(33.0, 45.0, 73.0, 101.0, 132.0, 180.0);
    assert_eq!(T.then(next), both);
    let reversed = Transform::new(40.0, 58.0, 64.0, 94.0, 93.0, 136.0);
    assert_eq!(next.then(T), reversed);
}

#[test]
fn scales_and_moves_are_combined() {
    let scaled = T.then_scale(10.0, 100.0);
    assert_eq!(
        scaled,
        Transform::new(10.0, 200.0, 30.0, 400.0, 50.0, 600.0)
    );
    let moved = T.then_translate(0.5, -0.25);
    assert_eq!(moved, Transform::new(1.0, 2.0, 3.0, 4.0, 5.5, 5.75));
    let scaled = T.pre_scale(10.0, 100.0);
    assert_eq!(scaled, Transform::new(10.0, 20.0, 300.0, 400.0, 5.0, 6.0));
    let moved = T.pre_translate(10.0, 100.0);
    assert_eq!(moved, Transform::new(1.0, 2.0, 3.0, 4.0, 315.0, 426.0));
}

#[test]
fn points_and_vectors_are_sent() {
    assert_eq!(T.transform_point((10.0, 100.0)), Point::new(315.0, 426.0));
    assert_eq!(T.transform_vector([10.0, 100.0]), Point::new(310.0, 420.0));
}

#[test]
fn turns_and_scales_are_combined() {
    let turned = QUARTER.then_scale(2.0, 1.0);
    assert_eq!(turned, Transform::new(0.0, 1.0, -2.0, 0.0, 0.0, 0.0));
    assert_eq!(turned.transform_point((1.0, 0.0)), Point::new(0.0, 1.0));
    let scaled = QUARTER.pre_scale(2.0, 1.0);
    assert_eq!(scaled, Transform::new(0.0, 2.0, -1.0, 0.0, 0.0, 0.0));
    assert_eq!(scaled.transform_point((1.0, 0.0)), Point::new(0.0, 2.0));
}

#[test]
fn turns_and_moves_are_combined() {
    let turned = Transform::new(0.0, 1.0, -1.0, 0.0, 3.0, 5.0);
    assert_eq!(QUARTER.then_translate(3.0, 5.0), turned);
    assert_eq!(QUARTER.then(Transform::translation(3.0, 5.0)), turned);
    let moved = Transform::new(0.0, 1.0, -1.0, 0.0, -5.0, 3.0);
    assert_eq!(QUARTER.pre_translate(3.0, 5.0), moved);
    assert_eq!(Transform::translation(3.0, 5.0).then(QUARTER), moved);
    let twice = Transform::new(-1.0, 0.0, 0.0, -1.0, -3.0, -5.0);
    assert_eq!(moved.then(QUARTER), twice);
    let between = Transform::new(-1.0, 0.0, 0.0, -1.0, -5.0, 3.0);
    assert_eq!(QUARTER.then(moved), between);
}

/// To the right by twice y, and down by three times x.
#[test]
fn shears_are_combined() {
    let right = Transform::new(1.0, 0.0, 2.0, 1.0, 0.0, 0.0);
    let down = Transform::new(1.0, 3.0, 0.0, 1.0, 0.0, 0.0);
    let right_first = Transform::new(1.0, 3.0, 2.0, 7.0, 0.0, 0.0);
    assert_eq!(right.then(down), right_first);
    let down_first = Transform::new(7.0, 3.0, 2.0, 1.0, 0.0, 0.0);
    assert_eq!(down.then(right), down_first);
    let scaled = Transform::new(5.0, 0.0, 10.0, 11.0, 0.0, 0.0);
    assert_eq!(right.then_scale(5.0, 11.0), scaled);
    let scaled_first = Transform::new(5.0, 0.0, 22.0, 11.0, 0.0, 0.0);
    assert_eq!(right.pre_scale(5.0, 11.0), scaled_first);
}

/// Two neighbouring sides of a label of 400 × 120.
fn sides(t: Transform) -> (Point, Point) {
    let side = |x, y| t.transform_vector((x, y));
    (side(400.0, 0.0), side(0.0, 120.0))
}

/// A label that is made twice as wide and then turned has right angles still, at each degree.
#[test]
fn turns_do_not_slant() {
    for degrees in 0..360 {
        let (sin, cos) = (degrees as f32).to_radians().sin_cos();
        let turn = Transform::new(cos, sin, -sin, cos, 0.0, 0.0);
        let t = Transform::scale(2.0, 1.0).then(turn);
        assert_eq!(t, turn.pre_scale(2.0, 1.0));
        let (along, down) = sides(t);
        let product = along.x * down.x + along.y * down.y;
        assert!(product.abs() < 0.05, "{degrees}: {product} of 800 * 120");
        assert!((along.x.hypot(along.y) - 800.0).abs() < 0.001);
        assert!((down.x.hypot(down.y) - 120.0).abs() < 0.001);
    }
}

/// Exactly so for a turn that is five times as large as well.
#[test]
fn whole_turns_do_not_slant() {
    let turn = Transform::new(3.0, 4.0, -4.0, 3.0, 0.0, 0.0);
    let (along, down) = sides(Transform::scale(2.0, 1.0).then(turn));
    assert_eq!(along, Point::new(2400.0, 3200.0));
    assert_eq!(down, Point::new(-480.0, 360.0));
    assert_eq!(along.x * down.x + along.y * down.y, 0.0);
}

/// K1 on 4 × 3 pixels, turned by a quarter into 3 × 4 and then made twice as wide.
#[test]
fn a_turned_label_is_drawn() {
    let label = Label {
        transform: QUARTER.then_translate(3.0, 0.0).then_scale(2.0, 1.0),
        ..Label::new(6, 4)
    };
    let picture = draw(k1(), &label).unwrap();
    let (empty, inked) = ([0; 6], [0, 0, 255, 255, 0, 0]);
    assert_eq!(picture.mask(), [empty, inked, inked, empty].concat());
}

/// Every product and sum is done, so infinite entries and signs of zeros show.
#[test]
fn nothing_is_left_out() {
    let mirrored = Transform::identity().then_scale(-1.0, 1.0);
    let expected = Transform::new(-1.0, 0.0, 0.0, 1.0, 0.0, 0.0);
    assert_eq!(bits(mirrored), bits(expected), "0 * -1 + 1 * 0 is +0");
    let turned = QUARTER.pre_scale(-1.0, -1.0);
    let expected = Transform::new(-0.0, -1.0, 1.0, 0.0, 0.0, 0.0);
    assert_eq!(bits(turned), bits(expected), "-1 * 0 + 0 * -1 is -0");
    let endless = Transform::identity().then_scale(f32::INFINITY, 1.0);
    assert_eq!((endless.xx, endless.xy), (f32::INFINITY, 0.0));
    assert_eq!((endless.yy, endless.y), (1.0, 0.0));
    assert!(endless.yx.is_nan() && endless.x.is_nan());
    let endless = Transform::identity().pre_scale(f32::INFINITY, 1.0);
    assert_eq!((endless.xx, endless.yx), (f32::INFINITY, 0.0));
    assert_eq!((endless.yy, endless.x, endless.y), (1.0, 0.0, 0.0));
    assert!(endless.xy.is_nan());
}

/// A move behind a transform is two sums alone.
#[test]
fn then_translate_keeps_the_signs_of_zeros() {
    let zeros = Transform::new(-0.0, 0.0, -0.0, 0.0, -0.0, 0.0);
    assert_eq!(bits(zeros.then_translate(-0.0, -0.0)), bits(zeros));
    let combined = zeros.then(Transform::translation(-0.0, -0.0));
    assert_eq!(bits(combined), [0; 6]);
}

/// 2^24 + 1 is 2^24, and so again; 1 + 1 first would make it 2^24 + 2.
#[test]
fn sums_are_made_from_the_left() {
    const LARGE: f32 = 16_777_216.0;
    let ones = transform([1.0; 6]);
    let both = Transform::new(0.0, 0.0, 0.0, 0.0, LARGE, 1.0).then(ones);
    assert_eq!(entries(both), [0.0, 0.0, 0.0, 0.0, LARGE, LARGE]);
    let moved = ones.pre_translate(LARGE, 1.0);
    assert_eq!(entries(moved), [1.0, 1.0, 1.0, 1.0, LARGE, LARGE]);
}

/// 4097 · 4097 is 16785409, which rounds to 16785408: each pair of products is 0, and fused 1.
#[test]
fn products_are_rounded() {
    const SQUARE: f32 = 16_785_408.0;
    let first = Transform::new(4097.0, 1.0, 4097.0, 1.0, 4097.0, 1.0);
    let next = Transform::new(4097.0, 4097.0, -SQUARE, -SQUARE, 0.0, 0.0);
    assert_eq!(entries(first.then(next)), [0.0; 6]);
    let second = Transform::new(1.0, 4097.0, 1.0, 4097.0, 1.0, 4097.0);
    let next = Transform::new(-SQUARE, -SQUARE, 4097.0, 4097.0, 0.0, 0.0);
    assert_eq!(entries(second.then(next)), [0.0; 6]);
}

/// 3 · 16785408, and 12291 · 4097, which is 50356227 and rounded.
#[test]
fn one_behind_the_other_is_rounded_otherwise() {
    let wide = Transform::scale(4097.0, 1.0);
    let once = wide.then(wide).transform_point((3.0, 0.0));
    assert_eq!(once, Point::new(50_356_224.0, 0.0));
    let twice = wide.transform_point(wide.transform_point((3.0, 0.0)));
    assert_eq!(twice, Point::new(50_356_228.0, 0.0));
}

/// `then` by the rules.
fn ruled_then(a: Transform, b: Transform) -> Transform {
    Transform {
        xx: a.xx * b.xx + a.xy * b.yx,
        xy: a.xx * b.xy + a.xy * b.yy,
        yx: a.yx * b.xx + a.yy * b.yx,
        yy: a.yx * b.xy + a.yy * b.yy,
        x: (a.x * b.xx + a.y * b.yx) + b.x,
        y: (a.x * b.xy + a.y * b.yy) + b.y,
    }
}

/// A float of either sign from 2^−8 to 2^8, or one time in eight a zero.
fn any_float(dice: &mut impl FnMut(u32) -> u32) -> f32 {
    let sign = dice(2) << 31;
    if dice(8) == 0 {
        return f32::from_bits(sign);
    }
    f32::from_bits(sign | (119 + dice(16)) << 23 | dice(32_768) << 8 | dice(256))
}

#[test]
fn all_are_combined_by_the_rules() {
    let mut dice = dice(4);
    for _ in 0..2000 {
        let [a, b] = [(); 2].map(|()| transform([(); 6].map(|()| any_float(&mut dice))));
        assert_eq!(bits(a.then(b)), bits(ruled_then(a, b)));
        let (x, y) = (b.x, b.y);
        let (scale, shift) = (Transform::scale(x, y), Transform::translation(x, y));
        assert_eq!(bits(a.then_scale(x, y)), bits(ruled_then(a, scale)));
        assert_eq!(bits(a.pre_scale(x, y)), bits(ruled_then(scale, a)));
        let moved = a.pre_translate(x, y);
        assert_eq!(bits(moved), bits(ruled_then(shift, a)));
        assert_eq!(Point::new(moved.x, moved.y), a.transform_point((x, y)));
        let [xx, xy, yx, yy, ..] = entries(a);
        let moved = Transform::new(xx, xy, yx, yy, a.x + x, a.y + y);
        assert_eq!(bits(a.then_translate(x, y)), bits(moved));
    }
}

/// A point goes by both at once where it goes by a and then by b; 0 and −0 are equal.
fn assert_follows(a: Transform, b: Transform, point: Point) {
    let twice = b.transform_point(a.transform_point(point));
    let once = a.then(b).transform_point(point);
    assert_eq!(once, twice, "{point:?} by {a:?} and {b:?}");
}

/// Every transform whose entries are −2, 0 and 3.
fn small_transforms() -> Vec<Transform> {
    let digits = |number: usize| [1, 3, 9, 27, 81, 243].map(|place| number / place % 3);
    let of = |number| transform(digits(number).map(|digit| [-2.0, 0.0, 3.0][digit]));
    (0..729).map(of).collect()
}

#[test]
fn small_ones_follow_each_other() {
    let all = small_transforms();
    for &a in &all {
        for &b in &all {
            for point in [(0.0, 0.0), (5.0, -7.0), (-11.0, 1.0)] {
                assert_follows(a, b, point.into());
            }
        }
    }
}

/// A whole number that is not larger than `most` either way, and just that one time in two.
fn whole(dice: &mut impl FnMut(u32) -> u32, most: u16) -> f32 {
    let end = f32::from(most);
    match dice(4) {
        0 => end,
        1 => -end,
        _ => dice(2 * u32::from(most) + 1) as f32 - end,
    }
}

/// As far as nothing is rounded by their size: entries up to the first number, moves and points up
/// to the second.
#[test]
fn whole_ones_follow_each_other() {
    for (most, farthest) in [(128, 128), (16, 4096)] {
        let mut dice = dice(u32::from(most));
        let mut up_to = |limit| whole(&mut dice, limit);
        for _ in 0..20_000 {
            let limits = [most, most, most, most, farthest, farthest];
            let [a, b] = [limits; 2].map(|limits| transform(limits.map(&mut up_to)));
            assert_follows(a, b, [farthest; 2].map(&mut up_to).into());
        }
    }
}

/// A turn by any angle and a move of up to 400, then a scale of up to 4.
fn turned(dice: &mut impl FnMut(u32) -> u32) -> Transform {
    let (sin, cos) = (dice(3600) as f32 / 10.0).to_radians().sin_cos();
    let mut up_to = |most: f32| most * dice(4096) as f32 / 4095.0;
    Transform::new(cos, sin, -sin, cos, up_to(400.0), up_to(400.0))
        .then_scale(up_to(4.0), up_to(4.0))
}

/// Where numbers are rounded, nearly: from 8,192 on floats are 1/1024 apart and more.
#[test]
fn turned_ones_follow_each_other_nearly() {
    let mut dice = dice(5);
    for _ in 0..2000 {
        let [a, b] = [(); 2].map(|()| turned(&mut dice));
        let point = Point::new(dice(4096) as f32 / 10.0, dice(4096) as f32 / 10.0);
        let twice = b.transform_point(a.transform_point(point));
        let once = a.then(b).transform_point(point);
        let far = (once.x - twice.x).hypot(once.y - twice.y);
        assert!(far < 0.01, "{far} apart: {point:?} by {a:?} and {b:?}");
    }
}
