//! "Labels to try" of docs/RULES.md, as far as a caller can see them: K1 to K8, K11, K12, and the
//! bytes of K9 and K10 as drawings.

use crate::{at, closed, counts, drawn, k1, on_grid, rectangle, told, JUST_WITHIN};
use mosszephyr::{
    bounds, draw, draw_band, placement, Bounds, Fill, Label, Origin, Path, Placement, Point,
    Refusal, Transform,
};

#[test]
fn k1_rectangle() {
    let picture = drawn(&k1(), 4, 3);
    assert_eq!(picture.mask(), [0, 0, 0, 0, 0, 255, 255, 0, 0, 0, 0, 0]);
    assert_eq!(counts(&picture), on_grid(5, 2));
}

/// The reverse order is the list backwards, or the same start turned round.
#[test]
fn k2_and_k3_half_covered() {
    let corners = [(1.5, 1.0), (2.0, 1.0), (2.0, 2.0), (1.5, 2.0)];
    assert_eq!(drawn(&closed(&corners), 4, 3).mask()[5], 127);
    let mut backwards = corners;
    backwards.reverse();
    assert_eq!(drawn(&closed(&backwards), 4, 3).mask()[5], 128);
    backwards.rotate_right(1);
    assert_eq!(drawn(&closed(&backwards), 4, 3).mask()[5], 128);
}

#[test]
fn k4_and_k5_triangle() {
    let path = closed(&[(0.0, 0.0), (1.0, 1.0), (0.0, 1.0)]);
    let small = drawn(&path, 1, 1);
    assert_eq!((small.mask(), small.cells()), (&[128][..], 1));
    let wide = drawn(&path, 2, 1);
    assert_eq!((wide.mask(), wide.cells()), (&[128, 0][..], 2));
}

#[test]
fn k6_and_k7_past_a_side() {
    let left = drawn(&rectangle(-5.0, 0.0, 2.0, 1.0), 4, 1);
    assert_eq!(left.mask(), [255, 255, 0, 0]);
    let right = drawn(&rectangle(2.0, 0.0, 9.0, 1.0), 4, 1);
    assert_eq!(right.mask(), [0, 0, 255, 255]);
}

#[test]
fn k8_lone_move_to() {
    let mut path = Path::new();
    path.move_to((0.0, 0.0));
    let picture = drawn(&path, 1, 1);
    assert_eq!((picture.mask(), picture.cells()), (&[0][..], 1));
    for count in 1..=4 {
        let (mut mask, mut words) = ([7], vec![9; count]);
        let refused = draw_band(&path, &Label::new(1, 1), 0..1, &mut mask, &mut words);
        assert_eq!(told(refused.unwrap_err()), at(13, 1, 12));
        assert_eq!((mask, words), ([7], vec![0; count]));
    }
    let accepted = draw_band(&path, &Label::new(1, 1), 0..1, &mut [7], &mut [9; 5]);
    assert!(accepted.is_ok());
}

/// A whole pixel wound backwards once, and forwards twice.
#[test]
fn k9_and_k10_as_drawings() {
    let backwards = rectangle(0.0, 0.0, 1.0, 1.0);
    let forwards = closed(&[(0.0, 0.0), (0.0, 1.0), (1.0, 1.0), (1.0, 0.0)]);
    let twice = Path::from_bytes(forwards.as_bytes().repeat(2));
    for (path, nonzero, even_odd) in [(backwards, 255, 255), (twice, 255, 0)] {
        let label = Label::new(1, 1);
        assert_eq!(draw(&path, &label).unwrap().mask(), [nonzero]);
        let label = Label {
            fill: Fill::EvenOdd,
            ..label
        };
        assert_eq!(draw(&path, &label).unwrap().mask(), [even_odd]);
    }
}

#[test]
fn k11_placement() {
    let mut path = Path::new();
    path.move_to((0.5, 0.25)).line_to((3.25, 2.0));
    let identity = Transform::identity();
    let offset = Point::new(-1.0, 1.0);
    let expected = Placement {
        offset: Point::new(1.0, -1.0),
        left: -1,
        top: 3,
        width: 4,
        height: 2,
        cut: 0,
    };
    let placed = placement(&path, identity, offset, Origin::BottomLeft);
    assert_eq!(placed, Ok(expected));
    let placed = placement(&path, identity, offset, Origin::TopLeft);
    assert_eq!(placed, Ok(Placement { top: 1, ..expected }));
    let corners = Bounds {
        min: Point::new(0.5, 0.25),
        max: Point::new(3.25, 2.0),
    };
    assert_eq!(bounds(&path, identity), Ok(corners));
}

/// From as far as a point may lie to as far the other way: larger than a drawing may be.
#[test]
fn the_largest_placement() {
    let mut path = Path::new();
    path.move_to((-JUST_WITHIN, -JUST_WITHIN))
        .line_to((JUST_WITHIN, JUST_WITHIN));
    let place = |origin| placement(&path, Transform::identity(), Point::ZERO, origin);
    let expected = Placement {
        offset: Point::new(4097.0, 4097.0),
        left: -4097,
        top: -4097,
        width: 8194,
        height: 8194,
        cut: 4,
    };
    assert_eq!(place(Origin::TopLeft), Ok(expected));
    let top = 4097;
    assert_eq!(place(Origin::BottomLeft), Ok(Placement { top, ..expected }));
    let label = Label::new(expected.width, expected.height);
    assert_eq!(draw(&path, &label), Err(Refusal::Size));
}

#[test]
fn k12_empty_list() {
    let path = Path::new();
    let picture = drawn(&path, 3, 2);
    assert_eq!(picture.mask(), [0; 6]);
    assert_eq!(counts(&picture), on_grid(0, 0));
    let identity = Transform::identity();
    assert_eq!(bounds(&path, identity), Ok(Bounds::default()));
    let placed = placement(&path, identity, Point::ZERO, Origin::TopLeft);
    assert_eq!(placed, Ok(Placement::default()));
}

/// Transform and offset reach the library in their order: K1's path turned into K1's place from
/// another one.
#[test]
fn transform_and_offset_are_applied() {
    let path = closed(&[(2.0, -0.5), (2.0, -1.5), (3.0, -1.5), (3.0, -0.5)]);
    let label = Label {
        transform: Transform::new(0.0, 1.0, -2.0, 0.0, 1.0, 2.0),
        offset: Point::new(-1.0, -3.0),
        ..Label::new(4, 3)
    };
    assert_eq!(draw(&path, &label), draw(k1(), &Label::new(4, 3)));
}

#[test]
fn sizes_at_their_limits_pass() {
    let wide = drawn(&k1(), 4096, 3);
    assert_eq!((wide.mask().len(), wide.cells()), (4096 * 3, 2));
    let high = drawn(&k1(), 4, 4096);
    assert_eq!((high.mask().len(), high.cells()), (4 * 4096, 2));
    let spaced = Label {
        pitch: 65_536,
        ..Label::new(4, 3)
    };
    let picture = draw(k1(), &spaced).unwrap();
    assert_eq!(picture.mask().len(), 2 * 65_536 + 4);
    assert_eq!(picture.mask()[65_536..65_540], [0, 255, 255, 0]);
}

/// A square of one pixel in each corner; right of the last column no place is stored.
#[test]
fn the_largest_label_is_drawn() {
    let corners = [(0.0, 0.0), (4095.0, 0.0), (0.0, 4095.0), (4095.0, 4095.0)];
    let squares = corners.map(|(x, y)| rectangle(x, y, x + 1.0, y + 1.0).into_bytes());
    let picture = drawn(&Path::from_bytes(squares.concat()), 4096, 4096);
    assert_eq!(counts(&picture), on_grid(20, 6));
    let mut expected = vec![0; 4096 * 4096];
    for at in [0, 4095, 4095 * 4096, 4096 * 4096 - 1] {
        expected[at] = 255;
    }
    assert!(picture.mask() == expected);
}

/// The largest label's last row within the largest rectangle, whose left side is column −1's.
#[test]
fn the_last_row_is_filled() {
    let path = rectangle(-4096.0, -4096.0, 4096.0, 4096.0);
    let (mut mask, mut words) = ([7; 4096], [9; 5]);
    let label = Label::new(4096, 4096);
    let drawn = draw_band(&path, &label, 4095..4096, &mut mask, &mut words);
    assert_eq!(drawn, Ok(on_grid(5, 1)));
    assert_eq!(mask, [255; 4096]);
}

#[test]
fn nothing_to_draw_needs_nothing() {
    let label = Label::new(4, 3);
    let empty_band = draw_band(k1(), &label, 2..2, &mut [], &mut []);
    assert_eq!(empty_band, Ok(on_grid(5, 0)));
    for (width, height) in [(0, 0), (0, 3), (4, 0)] {
        assert_eq!(drawn(&Path::new(), width, height).mask(), []);
    }
}

/// MoveTo and 16,381 Closes: the longest list.
#[test]
fn longest_list_passes() {
    let mut path = Path::new();
    path.move_to((0.0, 0.0));
    for _ in 0..16_381 {
        path.close();
    }
    assert_eq!(path.as_bytes().len(), 65_536);
    let picture = drawn(&path, 1, 1);
    assert_eq!(counts(&picture), on_grid(16_382, 1));
}
