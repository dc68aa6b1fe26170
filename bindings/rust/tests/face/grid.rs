//! How many coordinates of a path lie off the grid of 1/256 of a pixel, and are cut: by every function
//! that tells it, with any rows of a label.

use std::ops::Range;

use crate::{comb, dice, in_each_place, k1, rectangle, round_figure, small_figures, JUST_WITHIN};
use mosszephyr::{
    draw, draw_band, draw_in_bands, placement, Command, Label, Origin, Path, Point, Refusal,
    Transform, Workspace, MOST_LIST,
};
use Command::{Close, CurveTo, LineTo, MoveTo, QuadTo};

/// What the rules say: the 256ths of a coordinate, which an `f64` holds, are no whole number.
fn ruled(path: &Path, label: &Label) -> usize {
    let off_grid = |part: f32| usize::from((f64::from(part) * 256.0).fract() != 0.0);
    let (t, offset) = (label.transform, label.offset);
    let cut = |p: Point| {
        let x = (p.x * t.xx + p.y * t.yx) + t.x;
        let y = (p.x * t.xy + p.y * t.yy) + t.y;
        off_grid(x + offset.x) + off_grid(y + offset.y)
    };
    let commands = path.commands().map(Result::unwrap);
    commands.flat_map(points).map(cut).sum()
}

fn points(command: Command) -> Vec<Point> {
    match command {
        MoveTo(p) | LineTo(p) => vec![p],
        QuadTo(c, p) => vec![c, p],
        CurveTo(c1, c2, p) => vec![c1, c2, p],
        Close => vec![],
    }
}

/// How many are cut: the same by every function that draws any rows, or none, and by placement.
fn cut(path: &Path, label: &Label) -> usize {
    let cut = draw(path, label).unwrap().cut();
    for origin in [Origin::TopLeft, Origin::BottomLeft] {
        let label = Label { origin, ..*label };
        let placed = placement(path, label.transform, label.offset, origin).unwrap();
        assert_eq!(placed.cut, cut, "{path:?} placed");
        assert_eq!(by_a_workspace(path, &label), [cut; 3], "{path:?}");
        for first in 0..=label.height {
            for end in first..=label.height {
                in_rows(path, &label, first..end, cut);
            }
        }
    }
    cut
}

/// At once, and in bands of every height.
fn in_rows(path: &Path, label: &Label, band: Range<usize>, cut: usize) {
    let (mut mask, mut words) = ([7; 12], [9; 63]);
    let drawn = draw_band(path, label, band.clone(), &mut mask, &mut words).unwrap();
    assert_eq!(drawn.cut, cut, "{path:?}, rows {band:?}");
    for step in 0..=band.len() + 1 {
        let drawn = draw_in_bands(path, label, band.clone(), step, &mut mask, &mut words);
        assert_eq!(drawn.unwrap().cut, cut, "{path:?}, {band:?} by {step}");
    }
}

/// By both drawings of a workspace; of its bands before the first and behind the last.
fn by_a_workspace(path: &Path, label: &Label) -> [usize; 3] {
    let (mut workspace, mut mask, mut buffer) = (Workspace::new(), [7; 12], [7; 8]);
    let drawn = workspace.draw(path, label, &mut mask).unwrap();
    let mut bands = workspace.bands(path, label, &mut buffer).unwrap();
    let before = bands.cut();
    while bands.next().is_some() {}
    [drawn.cut, before, bands.cut()]
}

/// The same of a path on 4 x 3 pixels, moved by an offset; as the rules say.
fn cut_at(path: &Path, x: f32, y: f32) -> usize {
    let label = Label {
        offset: Point::new(x, y),
        ..Label::new(4, 3)
    };
    let cut = cut(path, &label);
    assert_eq!(cut, ruled(path, &label));
    cut
}

fn point(x: f32, y: f32) -> Path {
    [MoveTo(Point::new(x, y))].into_iter().collect()
}

#[test]
fn the_rules_labels_lie_on_the_grid() {
    assert_eq!(cut_at(&k1(), 0.0, 0.0), 0);
    let k2 = rectangle(1.5, 1.0, 2.0, 2.0);
    assert_eq!(cut_at(&k2, 0.0, 0.0), 0);
    assert_eq!(cut_at(&round_figure(), 0.0, 0.0), 0);
}

#[test]
fn points_by_hand() {
    for (x, y, expected) in [
        (-0.003, -1.0 / 256.0, 1),
        (-0.0, 1e-45, 1),
        (-1e-45, -0.0, 1),
        (0.5, 1.0 + 1.0 / 256.0, 0),
        (0.1, 0.1, 2),
        (4096.0, -4096.0, 0),
        (JUST_WITHIN, -JUST_WITHIN, 2),
    ] {
        assert_eq!(cut_at(&point(x, y), 0.0, 0.0), expected, "({x}, {y})");
    }
}

/// 2 to each power that a float may have, and 1 with it where that is a float and passes.
#[test]
fn the_grid_is_256ths() {
    for power in -149..=12 {
        let part = 2f64.powi(power) as f32;
        let expected = 2 * usize::from(power < -8);
        assert_eq!(cut_at(&point(part, -part), 0.0, 0.0), expected, "2^{power}");
        if (-23..12).contains(&power) {
            let path = point(1.0 + part, -1.0 - part);
            assert_eq!(cut_at(&path, 0.0, 0.0), expected, "1 + 2^{power}");
        }
    }
}

/// Grid points, and the floats right before and behind them.
#[test]
fn a_floats_last_bit_decides() {
    for parts in [1, 255, 256, 257, 511, 65_537, 1_048_575, 1_048_576] {
        let part = parts as f32 / 256.0;
        let [before, behind] =
            [-1, 1].map(|by| f32::from_bits(part.to_bits().wrapping_add_signed(by)));
        for (part, expected) in [(before, 2), (part, 0), (behind, 2)] {
            assert_eq!(cut_at(&point(part, -part), 0.0, 0.0), expected, "{part}");
        }
    }
}

/// What the offset adds may go off the grid or come back to it; a sum is rounded to a float first.
#[test]
fn coordinates_are_cut_with_the_offset() {
    let excess = 1.0 / 512.0;
    assert_eq!(cut_at(&k1(), excess, 0.0), 4);
    assert_eq!(cut_at(&k1(), 0.0, -excess), 4);
    assert_eq!(cut_at(&k1(), excess, excess), 8);
    assert_eq!(cut_at(&point(1.0 + excess, 2.0), -excess, 0.0), 0);
    assert_eq!(cut_at(&point(1.0 + excess, 2.0), excess, 0.0), 0);
    let rounded = 2048.0 + 1.0 / 4096.0;
    assert_eq!(cut_at(&point(rounded, 2.0), 0.0, 0.0), 1);
    assert_eq!(cut_at(&point(rounded, 2.0), 2048.0, 0.0), 0);
    assert_eq!(cut_at(&point(1e-45, 2.0), 0.5, 0.0), 0);
}

#[test]
fn coordinates_are_cut_behind_the_transform() {
    let third = point(1.0 / 3.0, 1.0 / 3.0);
    for (path, transform, expected) in [
        (k1(), Transform::translation(1.0 / 512.0, 0.0), 4),
        (k1(), Transform::scale(1.0 / 256.0, 1.0 / 512.0), 2),
        (third.clone(), Transform::identity(), 2),
        (third.clone(), Transform::scale(3.0, 3.0), 0),
        (third.clone(), Transform::scale(0.0, 1.0), 1),
        (third, Transform::scale(0.0, 0.0), 0),
        (
            point(0.1, 1.0),
            Transform::new(0.0, 1.0, 1.0, 0.0, 0.0, 0.0),
            1,
        ),
        (
            point(1.0 / 3.0, -1.0),
            Transform::new(3.0, 0.0, 1.0, 1.0, 0.0, 0.0),
            0,
        ),
    ] {
        let label = Label {
            transform,
            ..Label::new(4, 3)
        };
        assert_eq!(ruled(&path, &label), expected, "{path:?}, {transform:?}");
        assert_eq!(cut(&path, &label), expected, "{path:?}, {transform:?}");
    }
}

/// A −0.0 stays one only where transform and offset have it too.
#[test]
fn negative_zeros_lie_on_the_grid() {
    let label = Label {
        transform: Transform::translation(-0.0, -0.0),
        offset: Point::new(-0.0, -0.0),
        ..Label::new(4, 3)
    };
    assert_eq!(cut(&point(-0.0, -0.0), &label), 0);
}

/// Each coordinate of each command by itself, control points too; all others are 0.
#[test]
fn every_coordinate_counts() {
    for off in [Point::new(0.1, 0.0), Point::new(0.0, 0.1)] {
        for command in in_each_place(off) {
            let commands = [MoveTo(Point::ZERO), command, Close];
            let path: Path = commands.into_iter().collect();
            assert_eq!(cut_at(&path, 0.0, 0.0), 1, "{command:?}");
        }
    }
}

#[test]
fn a_point_counts_as_often_as_it_comes() {
    let p = Point::new(0.1, 0.1);
    let commands = [MoveTo(p), LineTo(p), LineTo(p), Close, Close, MoveTo(p)];
    assert_eq!(cut_at(&commands.into_iter().collect(), 0.0, 0.0), 8);
    let curves = [MoveTo(p), QuadTo(p, p), CurveTo(p, p, p)];
    assert_eq!(cut_at(&curves.into_iter().collect(), 0.0, 0.0), 12);
}

/// Figures left, right, above and below.
#[test]
fn what_no_row_shows_counts() {
    for (x, y) in [(-9.1, 0.1), (9.1, 0.1), (0.1, -9.1), (0.1, 9.1)] {
        let path = rectangle(x, y, x + 1.0, y + 1.0);
        assert_eq!(cut_at(&path, 0.0, 0.0), 8);
    }
}

/// Sends quarters of a pixel to any parts of 1/256.
fn label_by_dice(dice: &mut impl FnMut(u32) -> u32) -> Label {
    let entries = [0.0, 1.0, -1.0, 1.0 / 128.0, 3.0 / 256.0, 0.1];
    let [xx, xy, yx, yy] = [(); 4].map(|()| entries[dice(6) as usize]);
    let [tx, ty, x, y] = [(); 4].map(|()| dice(4) as f32 / 512.0);
    Label {
        transform: Transform::new(xx, xy, yx, yy, tx, ty),
        offset: Point::new(x, y),
        ..Label::new(4, 3)
    }
}

#[test]
fn small_figures_are_cut_as_ruled() {
    let mut dice = dice(2);
    let (mut cut_off, mut all) = (0, 0);
    for path in small_figures(2).take(300) {
        let label = label_by_dice(&mut dice);
        let expected = ruled(&path, &label);
        assert_eq!(cut(&path, &label), expected, "{path:?}, {label:?}");
        cut_off += expected;
        all += path.coordinates();
    }
    assert!(1000 < cut_off && cut_off + 1000 < all, "{cut_off} of {all}");
}

/// Drawn at once it is 13, and tells nothing; in bands, as `draw` does by itself, all is told.
#[test]
fn a_label_that_needs_bands_is_counted_once() {
    let path = comb(300, 60);
    let label = Label {
        offset: Point::new(1.0 / 512.0, 1.0 / 512.0),
        ..Label::new(300, 60)
    };
    let all = path.coordinates();
    let (mut mask, mut words) = (vec![7; 300 * 60], vec![9; 60 + 4 * 301 * 8]);
    let refused = draw_band(&path, &label, 0..60, &mut mask, &mut words);
    assert!(matches!(refused, Err(Refusal::Room { .. })));
    let drawn = draw_in_bands(&path, &label, 0..60, 8, &mut mask, &mut words);
    assert_eq!(drawn.unwrap().cut, all);
    assert_eq!(draw(&path, &label).unwrap().cut(), all);
    let mut workspace = Workspace::new();
    assert_eq!(workspace.draw(&path, &label, &mut mask).unwrap().cut, all);
    let bands = workspace.bands(&path, &label, &mut mask).unwrap();
    assert_eq!(bands.cut(), all);
}

/// What one label tells is not told of the next, also behind a refusal.
#[test]
fn a_workspace_counts_each_label_anew() {
    let (mut workspace, mut mask) = (Workspace::new(), [7; 12]);
    let off = rectangle(1.1, 1.1, 3.1, 2.1);
    let refused = Path::from_bytes([off.as_bytes(), &[0]].concat());
    let mut cut = |path: &Path| {
        let drawn = workspace.draw(path, &Label::new(4, 3), &mut mask);
        let bands = workspace.bands(path, &Label::new(4, 3), &mut mask);
        let of_bands = bands.map(|bands| bands.cut());
        assert_eq!(drawn.map(|drawn| drawn.cut), of_bands);
        of_bands.map_err(|refusal| refusal.number())
    };
    assert_eq!(cut(&off), Ok(8));
    assert_eq!(cut(&k1()), Ok(0));
    assert_eq!(cut(&point(0.1, 0.0)), Ok(1));
    assert_eq!(cut(&refused), Err(8));
    assert_eq!(cut(&k1()), Ok(0));
    assert_eq!(cut(&off), Ok(8));
}

/// A placement counts with the offset that it is given. With the new one, whole pixels more, a sum may
/// be rounded to the grid.
#[test]
fn a_placement_counts_with_the_old_offset() {
    let mut path = point(1e-45, 0.1);
    path.line_to((-1.0, 0.0));
    let place = |x| {
        placement(
            &path,
            Transform::identity(),
            Point::new(x, 0.0),
            Origin::TopLeft,
        )
    };
    let placed = place(0.0).unwrap();
    assert_eq!((placed.offset, placed.cut), (Point::new(1.0, 0.0), 2));
    let label = Label {
        offset: placed.offset,
        ..Label::new(placed.width, placed.height)
    };
    assert_eq!(draw(&path, &label).unwrap().cut(), 1);
    assert_eq!(place(1.0).unwrap().cut, 1);
    assert_eq!(place(0.1).unwrap().cut, 3);
}

/// A MoveTo and 2,340 CurveTos; a Close fits behind them, and with a byte more it is 7.
#[test]
fn the_most_coordinates_are_cut() {
    let p = Point::new(0.1, 0.1);
    let mut path = Path::new();
    path.move_to(p);
    path.extend(std::iter::repeat_n(CurveTo(p, p, p), 2_340));
    assert_eq!((path.len(), path.coordinates()), (65_532, 14_042));
    assert_eq!(cut_at(&path, 0.0, 0.0), 14_042);
    path.close();
    assert_eq!(path.len(), MOST_LIST);
    assert_eq!(cut_at(&path, 0.0, 0.0), 14_042);
    let longer = [path.as_bytes(), &[0]].concat();
    assert_eq!(draw(longer, &Label::new(4, 3)), Err(Refusal::List));
}

/// The offset is no coordinate of the path.
#[test]
fn an_empty_path_has_none() {
    assert_eq!(cut_at(&Path::new(), 0.1, -0.1), 0);
}
