//! "Labels to try" of docs/RULES.md, K1 to K12, and other cases at the edge of the rules, held
//! against the reading, the driver and zeno.

use crate::boundaries::{closed, rectangle};
use crate::drawing::{Drawing, Way};
use crate::driver::{self, Outcome, PlacedList};
use crate::list;
use crate::oracle::{
    self, Bounds, CellAt, Command, Fill, Label, Origin, Placement, Point, Run, Transform,
};
use crate::reading::{self, Refusal};

fn at(x: f32, y: f32) -> Point {
    Point::new(x, y)
}

fn drawn(path: &[Command], width: usize, height: usize) -> Outcome {
    driver::outcome(&Drawing::plain(path, width, height))
}

/// An accepted drawing's mask, records and cells.
fn answer(outcome: &Outcome) -> (u8, &[u8], usize, usize) {
    (
        outcome.number,
        &outcome.mask,
        outcome.records,
        outcome.cells,
    )
}

fn refusal(drawing: &Drawing) -> (u8, usize) {
    let outcome = driver::outcome(drawing);
    assert_eq!((outcome.records, outcome.cells, outcome.cut), (0, 0, 0));
    assert_eq!(outcome.mask, drawing.mask, "a refusal leaves the mask");
    (outcome.number, outcome.index)
}

/// What 7 to 12 and 18 say of a list by itself.
fn judged(bytes: &[u8]) -> Result<usize, Refusal> {
    reading::judge_bounds(bytes, &Transform::IDENTITY).map(|path| path.len())
}

fn label<'a>(path: &'a [Command], width: usize, height: usize) -> Label<'a> {
    Label {
        path,
        transform: Transform::IDENTITY,
        offset: Point::ZERO,
        fill: Fill::NonZero,
        up: false,
        width,
        height,
        pitch: width,
    }
}

const K1_MASK: [u8; 12] = [0, 0, 0, 0, 0, 255, 255, 0, 0, 0, 0, 0];

#[test]
fn k1_rectangle() {
    let path = rectangle(1.0, 1.0, 3.0, 2.0);
    let outcome = drawn(&path, 4, 3);
    assert_eq!(answer(&outcome), (0, &K1_MASK[..], 5, 2));
    assert!(outcome.words.iter().all(|&word| word == 0));
    let (_, cells) = oracle::painted_cells(&label(&path, 4, 3)).unwrap();
    let cell = |column, cover| CellAt {
        row: 1,
        column,
        cover,
        area: 0,
    };
    assert_eq!(cells, [cell(1, -256), cell(3, 256)]);
    let run = |column| Run {
        row: 1,
        column,
        count: 1,
        value: 255,
    };
    let runs = oracle::runs(&label(&path, 4, 3)).unwrap();
    assert_eq!(runs, [run(1), run(2)]);
}

/// The reverse order is read as the list backwards and as the same start turned round: the pixel is
/// the same, the count is not.
#[test]
fn k2_and_k3_half_covered() {
    let corners = [(1.5, 1.0), (2.0, 1.0), (2.0, 2.0), (1.5, 2.0)];
    assert_eq!(drawn(&closed(&corners), 4, 3).mask[5], 127);
    let mut backwards = corners;
    backwards.reverse();
    let outcome = drawn(&closed(&backwards), 4, 3);
    assert_eq!((outcome.mask[5], outcome.cells), (128, 3));
    backwards.rotate_right(1);
    let outcome = drawn(&closed(&backwards), 4, 3);
    assert_eq!((outcome.mask[5], outcome.cells), (128, 2));
}

#[test]
fn k4_and_k5_triangle() {
    let path = closed(&[(0.0, 0.0), (1.0, 1.0), (0.0, 1.0)]);
    assert_eq!(answer(&drawn(&path, 1, 1)), (0, &[128][..], 4, 1));
    assert_eq!(answer(&drawn(&path, 2, 1)), (0, &[128, 0][..], 4, 2));
}

#[test]
fn k6_and_k7_past_a_side() {
    let left = drawn(&rectangle(-5.0, 0.0, 2.0, 1.0), 4, 1);
    assert_eq!(left.mask, [255, 255, 0, 0]);
    let right = drawn(&rectangle(2.0, 0.0, 9.0, 1.0), 4, 1);
    assert_eq!(right.mask, [0, 0, 255, 255]);
}

#[test]
fn k8_lone_move_to() {
    let mut drawing = Drawing::plain(&[Command::MoveTo(at(0.0, 0.0))], 1, 1);
    assert_eq!(answer(&driver::outcome(&drawing)), (0, &[0][..], 1, 1));
    for words in [4, 1] {
        drawing.words.truncate(words);
        assert_eq!(refusal(&drawing), (13, 1));
        assert_eq!(driver::outcome(&drawing).words, vec![0; words]);
    }
}

/// The records that store into another place than all before them, one for each place: the record
/// that leaves a cell counts, and behind the last the end.
#[test]
fn a_place_is_stored_when_its_cell_is_left() {
    let storing = |path: &[Command], width, height| {
        let mut since = oracle::inked(&label(path, width, height)).unwrap().since;
        since.sort_unstable();
        since
    };
    let moved = [Command::MoveTo(at(0.0, 0.0))];
    assert_eq!(storing(&moved, 1, 1), [1]);
    let level = closed(&[(0.5, 0.0), (0.5, 0.5), (1.5, 0.5)]);
    assert_eq!(storing(&level, 2, 1), [2, 3]);
    let square = rectangle(0.0, 0.0, 1.0, 1.0);
    assert_eq!(storing(&square, 1, 1), [5]);
    assert_eq!(storing(&[&square[..], &moved].concat(), 1, 1), [5]);
    assert_eq!(storing(&[&square[..4], &moved].concat(), 1, 1), [4]);
    assert_eq!(storing(&[&square[..], &moved].concat(), 2, 1), [2, 5]);
    assert_eq!(storing(&rectangle(1.0, 1.0, 3.0, 2.0), 4, 3), [2, 5]);
}

/// K1 with room for one place, and the bands of "In bands".
#[test]
fn thirteen_names_a_record() {
    let mut k1 = Drawing::plain(&rectangle(1.0, 1.0, 3.0, 2.0), 4, 3);
    k1.words.truncate(10);
    assert_eq!(refusal(&k1), (13, 5));
    let mut bar = Drawing::plain(&rectangle(0.0, 0.0, 2.0, 4.0), 3, 4);
    bar.words.truncate(20);
    let answer = |way| {
        let outcome = driver::outcome_in(&bar, way);
        (outcome.number, outcome.index)
    };
    assert_eq!(answer(Way::AtOnce), (13, 4));
    assert_eq!(answer(Way::InBands(3)), (13, 4));
    assert_eq!(answer(Way::InBands(2)), (0, 0));
    assert_eq!(answer(Way::InBands(1)), (0, 0));
}

/// A whole pixel wound backwards has v = −131,072, one wound forwards twice has 262,144.
#[test]
fn k9_and_k10_bytes_of_v() {
    for (v, nonzero, even_odd) in [(-131_072, 255, 255), (262_144, 255, 0)] {
        assert_eq!(reading::byte_of(v, Fill::NonZero), nonzero);
        assert_eq!(reading::byte_of(v, Fill::EvenOdd), even_odd);
    }
    let backwards = rectangle(0.0, 0.0, 1.0, 1.0);
    let mut twice = closed(&[(0.0, 0.0), (0.0, 1.0), (1.0, 1.0), (1.0, 0.0)]);
    twice.extend(twice.clone());
    for (path, cover, nonzero, even_odd) in [(backwards, -256, 255, 255), (twice, 512, 255, 0)] {
        let mut whole = label(&path, 1, 1);
        let (mask, cells) = oracle::painted_cells(&whole).unwrap();
        assert_eq!((cells[0].cover, cells[0].area), (cover, 0));
        assert_eq!(mask, [nonzero]);
        whole.fill = Fill::EvenOdd;
        assert_eq!(oracle::painted(&whole).unwrap().mask, [even_odd]);
    }
}

#[test]
fn k11_placement() {
    let corners = [
        Command::MoveTo(at(0.5, 0.25)),
        Command::LineTo(at(3.25, 2.0)),
    ];
    let bytes = list::written(&corners);
    let offset = at(-1.0, 1.0);
    let placed = driver::placement(&bytes, Transform::IDENTITY, offset, Origin::BottomLeft);
    let PlacedList { offset, place, cut } = placed.unwrap();
    assert_eq!((offset.x, offset.y, cut), (1.0, -1.0, 0));
    assert_eq!((place.width, place.height), (4, 2));
    assert_eq!((place.left, place.top), (-1, 3));
    let bounds = driver::bounds(&bytes, Transform::IDENTITY).unwrap();
    assert_eq!((bounds.min, bounds.max), (at(0.5, 0.25), at(3.25, 2.0)));
}

#[test]
fn k12_empty_list() {
    assert_eq!(answer(&drawn(&[], 2, 2)), (0, &[0; 4][..], 0, 0));
    let bounds = driver::bounds(&[], Transform::IDENTITY).unwrap();
    assert_eq!((bounds.min, bounds.max), (Point::ZERO, Point::ZERO));
}

#[test]
fn sizes_at_their_boundaries() {
    let path = rectangle(1.0, 1.0, 3.0, 2.0);
    assert_eq!(drawn(&path, 4096, 3).number, 0);
    assert_eq!(refusal(&Drawing::plain(&path, 4097, 3)), (1, 0));
    assert_eq!(drawn(&path, 4, 4096).number, 0);
    assert_eq!(refusal(&Drawing::plain(&path, 4, 4097)), (1, 0));
    let mut drawing = Drawing::plain(&path, 4, 3);
    drawing.pitch = 3;
    assert_eq!(refusal(&drawing), (3, 0));
    drawing.pitch = 4;
    assert_eq!(driver::outcome(&drawing).number, 0);
    drawing.mask.truncate(11);
    assert_eq!(refusal(&drawing), (4, 0));
}

#[test]
fn sizes_are_judged_in_order_and_never_overflow() {
    let mut drawing = Drawing::plain(&[], 4, 3);
    drawing.words.clear();
    assert_eq!(refusal(&drawing), (5, 0));
    drawing.mask.clear();
    assert_eq!(refusal(&drawing), (4, 0));
    drawing.pitch = usize::MAX;
    assert_eq!(refusal(&drawing), (3, 0));
    (drawing.first, drawing.end) = (usize::MAX, 3);
    assert_eq!(refusal(&drawing), (2, 0));
    drawing.height = usize::MAX;
    assert_eq!(refusal(&drawing), (1, 0));
}

#[test]
fn floats_are_judged_before_the_list() {
    let mut drawing = Drawing::plain(&[], 1, 1);
    drawing.list = vec![0; 65_537];
    assert_eq!(refusal(&drawing), (7, 0));
    drawing.offset.y = f32::NAN;
    assert_eq!(refusal(&drawing), (6, 0));
}

#[test]
fn records_are_judged_in_order() {
    let refused = |number, index| Err(Refusal { number, index });
    let k1 = list::written(&rectangle(1.0, 1.0, 3.0, 2.0));
    for stray in 1..=3 {
        assert_eq!(judged(&vec![0; stray]), refused(8, 0));
        let with_stray = [&k1[..], &vec![0; stray]].concat();
        assert_eq!(judged(&with_stray), refused(8, 5));
    }
    assert_eq!(judged(&[2, 0, 5, 0]), refused(11, 0));
    assert_eq!(judged(&[10, 0, 2, 0]), refused(8, 0), "a cut body beats 11");
    assert_eq!(judged(&[10, 0, 6, 0]), refused(9, 0), "9 beats a cut body");
    assert_eq!(
        judged(&[10, 0, 1, 1]),
        refused(9, 0),
        "both bytes of a kind"
    );
    assert_eq!(judged(&[2, 0, 1, 0]), refused(10, 0));
    let first = list::written(&[Command::LineTo(at(f32::NAN, 0.0))]);
    assert_eq!(judged(&first), refused(11, 0), "11 beats 12");
    let second = [&list::written(&[Command::MoveTo(at(0.0, 0.0))]), &first[..]].concat();
    assert_eq!(judged(&second), refused(12, 1));
}

/// 18 by the record before, in every call that reads a list.
#[test]
fn nothing_is_drawn_directly_behind_a_close() {
    use Command::{Close, LineTo, MoveTo};
    let (zero, nan) = (at(0.0, 0.0), at(f32::NAN, 0.0));
    let accepted: Result<(), Refusal> = Ok(());
    let refused = |number, index| Err(Refusal { number, index });
    for (path, answer) in [
        (&[MoveTo(zero), Close, LineTo(zero)][..], refused(18, 2)),
        (&[MoveTo(zero), Close, Close, LineTo(nan)], refused(18, 3)),
        (&[Close, LineTo(zero)], refused(11, 0)),
        (&[MoveTo(zero), Close, Close], accepted),
        (&[MoveTo(zero), Close, MoveTo(zero), LineTo(zero)], accepted),
    ] {
        let bytes = list::written(path);
        let identity = Transform::IDENTITY;
        let bounds = driver::bounds(&bytes, identity);
        assert_eq!(bounds.map(|_| ()), answer);
        let placed = driver::placement(&bytes, identity, zero, Origin::TopLeft);
        assert_eq!(placed.map(|_| ()), answer);
        for way in [Way::AtOnce, Way::InBands(1)] {
            let drawn = driver::drawn_in(&Drawing::plain(path, 2, 2), way);
            assert_eq!(drawn.map(|_| ()), answer);
        }
    }
}

#[test]
fn longest_list() {
    let mut path = vec![Command::MoveTo(at(0.0, 0.0))];
    path.resize(16_382, Command::Close);
    let outcome = drawn(&path, 1, 1);
    assert_eq!(answer(&outcome), (0, &[0][..], 16_382, 1));
    path.push(Command::Close);
    assert_eq!(refusal(&Drawing::plain(&path, 1, 1)), (7, 0));
}

#[test]
fn point_rule() {
    let passes = |x: f32| reading::passes_point_rule(at(x, 0.0));
    assert!(passes(4096.0) && passes(-4096.0) && passes(4096.0034));
    assert!(!passes(4096.00390625) && !passes(-4096.00390625));
    for far in [f32::MAX, f32::MIN, -4.9e30, f32::INFINITY, f32::NAN] {
        assert!(!passes(far) && !reading::passes_point_rule(at(0.0, far)));
    }
}

/// The cut is toward zero and the cell rounds down: −0.003 is in cell 0, −0.00390625 in cell −1.
#[test]
fn cut_toward_zero_and_cell_down() {
    let cell_of = |x| {
        let path = [Command::MoveTo(at(x, 0.0))];
        oracle::painted_cells(&label(&path, 1, 1)).unwrap().1[0].column
    };
    assert_eq!(cell_of(-0.003), 0);
    assert_eq!(cell_of(-0.00390625), -1);
}

/// A huge coordinate passes where the transform kills it, an infinite one never.
#[test]
fn killed_coordinates() {
    let mut drawing = Drawing::plain(&[Command::MoveTo(at(3.0e38, 0.0))], 1, 1);
    assert_eq!(refusal(&drawing), (12, 0));
    drawing.transform.xx = 0.0;
    assert_eq!(driver::outcome(&drawing).number, 0);
    drawing.list = list::written(&[Command::MoveTo(at(f32::INFINITY, 0.0))]);
    assert_eq!(refusal(&drawing), (12, 0));
}

#[test]
fn empty_list_judges_the_offset_in_a_placement_only() {
    let far = at(4096.00390625, 0.0);
    let place = |offset| driver::placement(&[], Transform::IDENTITY, offset, Origin::BottomLeft);
    let refused = Refusal {
        number: 12,
        index: 0,
    };
    assert_eq!(place(far).unwrap_err(), refused);
    let mut drawing = Drawing::plain(&[], 1, 1);
    drawing.offset = far;
    assert_eq!(driver::outcome(&drawing).number, 0);
    let placed = place(at(0.5, 0.5)).unwrap();
    let bits = (placed.offset.x.to_bits(), placed.offset.y.to_bits());
    assert_eq!(bits, (0x8000_0000, 0x8000_0000));
    assert_eq!((placed.place.left, placed.place.top), (0, 1));
    assert_eq!((placed.place.width, placed.place.height), (1, 1));
}

#[test]
fn width_of_zero_and_no_rows() {
    let cells = |x, width, height| drawn(&[Command::MoveTo(at(x, 0.0))], width, height).cells;
    assert_eq!(cells(-1.0, 0, 1), 1);
    assert_eq!(cells(0.0, 0, 1), 0);
    assert_eq!(cells(0.0, 1, 0), 0);
}

/// A MoveTo leaves its cell even to the same cell, so sums that cancel stay a place.
#[test]
fn cancelled_sums_stay_a_place() {
    let corners = [(0.25, 0.25), (0.75, 0.25), (0.25, 0.75)];
    let mut path = closed(&corners);
    let mut backwards = corners;
    backwards.reverse();
    path.extend(closed(&backwards));
    path.push(Command::MoveTo(at(-9.0, -9.0)));
    let outcome = drawn(&path, 1, 1);
    assert_eq!(
        (outcome.records, outcome.cells, &outcome.mask[..]),
        (9, 1, &[0][..])
    );
}

#[test]
fn long_flat_edge_is_coarse() {
    for (far, byte) in [(2048.0, 135), (4096.0, 143)] {
        let path = closed(&[(-far, 0.0), (far, 1.0), (-far, 1.0)]);
        assert_eq!(drawn(&path, 8, 1).mask, [byte; 8]);
    }
}

/// Where the port refuses a size or a finite point that is not too far out, zeno draws on.
#[test]
fn zeno_goes_on_beyond_the_limits() {
    let painted = |path: &[Command], width: usize| {
        let painted = oracle::painted(&label(path, width, 1)).unwrap();
        (painted.mask, painted.cells)
    };
    assert_eq!(painted(&[], 4097), (vec![0; 4097], 0));
    let wide = rectangle(0.0, 0.0, 4097.0, 1.0);
    assert_eq!(painted(&wide, 4097), (vec![255; 4097], 1));
    let far = 4096.00390625;
    assert_eq!(painted(&[Command::MoveTo(at(far, 0.0))], 1), (vec![0], 0));
    assert_eq!(
        painted(&rectangle(0.0, 0.0, far, 1.0), 4),
        (vec![255; 4], 1)
    );
}

/// What the port refuses as drawn behind a Close, zeno draws from the closed subpath's start, as it
/// does behind a MoveTo to it.
#[test]
fn zeno_goes_on_behind_a_close() {
    let mut path = rectangle(1.0, 1.0, 3.0, 2.0);
    let behind = [
        Command::LineTo(at(4.0, 2.5)),
        Command::QuadTo(at(3.0, 3.0), at(0.5, 3.0)),
    ];
    let mut moved = path.clone();
    moved.push(moved[0]);
    path.extend(behind);
    moved.extend(behind);
    assert_eq!(refusal(&Drawing::plain(&path, 4, 3)), (18, 5));
    let painted = oracle::painted(&label(&path, 4, 3)).unwrap();
    let drawn = drawn(&moved, 4, 3);
    assert_eq!(drawn.number, 0);
    assert_eq!((painted.mask, painted.cells), (drawn.mask, drawn.cells));
}

/// The inputs of docs/DIFFERENCES.md: a triangle behind a Close, and two squares that a bar joins
/// where the second has lost its MoveTo.
#[test]
fn a_lost_move_joins_two_squares() {
    let lines = |points: &[(f32, f32)]| -> Vec<Command> {
        let to = |&(x, y): &(f32, f32)| Command::LineTo(at(x, y));
        points.iter().map(to).collect()
    };
    let mask = |path: &[Command], width| oracle::painted(&label(path, width, 1)).unwrap().mask;
    let point = vec![Command::MoveTo(at(0.0, 0.0)), Command::Close];
    let triangle = [point, lines(&[(1.0, 1.0), (0.0, 1.0)])].concat();
    assert_eq!(mask(&triangle, 1), [128]);
    assert_eq!(refusal(&Drawing::plain(&triangle, 1, 1)), (18, 2));
    let square = rectangle(0.0, 0.0, 1.0, 1.0);
    let second = lines(&[(3.0, 0.0), (3.0, 1.0), (2.0, 1.0)]);
    let joined = [&square[..], &second].concat();
    assert_eq!(mask(&joined, 3), [255, 191, 255]);
    assert_eq!(refusal(&Drawing::plain(&joined, 3, 1)), (18, 5));
    let whole = [&square[..], &[Command::MoveTo(at(2.0, 0.0))], &second].concat();
    assert_eq!(mask(&whole, 3), [255, 0, 255]);
    assert_eq!(drawn(&whole, 3, 1).mask, [255, 0, 255]);
}

/// The largest label: a pixel in each corner, and a rectangle from one end of the point rule to the
/// other.
#[test]
fn largest_label() {
    let corners = [0.0, 4095.0].map(|x| [0.0, 4095.0].map(|y| rectangle(x, y, x + 1.0, y + 1.0)));
    let path: Vec<Command> = corners.concat().concat();
    let outcome = drawn(&path, 4096, 4096);
    assert_eq!((outcome.number, outcome.records, outcome.cells), (0, 20, 6));
    let inked: Vec<usize> = (0..4096 * 4096)
        .filter(|&at| outcome.mask[at] > 0)
        .collect();
    assert_eq!(inked, [0, 4095, 4095 * 4096, 4095 * 4096 + 4095]);
    assert!(inked.iter().all(|&at| outcome.mask[at] == 255));
    let outcome = drawn(&rectangle(-4096.0, -4096.0, 4096.0, 4096.0), 4096, 4096);
    assert_eq!(
        (outcome.number, outcome.records, outcome.cells),
        (0, 5, 4096)
    );
    assert!(outcome.mask.iter().all(|&byte| byte == 255));
}

/// Boxes as the rule for points has them: no point, an odd last number, ties, NaN, infinity.
#[test]
fn boxes_start_at_the_first_point() {
    let bits = |b: Bounds| [b.min.x, b.min.y, b.max.x, b.max.y].map(f32::to_bits);
    let boxed = |numbers: &[f32]| bits(reading::box_of(numbers));
    let (inf, nan) = (f32::INFINITY, f32::NAN);
    assert_eq!(boxed(&[]), [0; 4]);
    assert_eq!(boxed(&[5.0]), [0; 4]);
    assert_eq!(boxed(&[1.0, 2.0, 9.0]), boxed(&[1.0, 2.0]));
    assert_eq!(
        boxed(&[0.0, -0.0, -0.0, 0.0]),
        [0.0, -0.0, 0.0, -0.0].map(f32::to_bits)
    );
    assert_eq!(
        boxed(&[inf, -inf]),
        [inf, -inf, inf, -inf].map(f32::to_bits)
    );
    let first_nan = reading::box_of(&[nan, 0.0, 1.0, 1.0]);
    assert!(first_nan.min.x.is_nan() && first_nan.max.x.is_nan());
    assert_eq!(
        boxed(&[3.0, 0.0, nan, 1.0, 2.0, 2.0]),
        [2.0, 0.0, 3.0, 2.0].map(f32::to_bits)
    );
}

#[test]
fn placements_are_refused_from_two_to_the_23() {
    let refused = |x: f32, offset: f32| {
        let b = Bounds::new(at(x, 0.0), at(0.0, 0.0));
        reading::place_is_refused(&b, at(offset, 0.0))
    };
    assert!(refused(8_388_608.0, 0.0) && refused(-8_388_607.0, -1.0));
    assert!(!refused(8_388_607.5, 0.0) && !refused(8_388_609.0, -2.0));
    assert!(refused(f32::NAN, 0.0) && refused(0.0, f32::INFINITY));
}

/// A placement that is not refused stays exact in zeno: one at the edge of what is allowed.
#[test]
fn placement_at_the_edge() {
    let far = 8_388_607.5;
    let b = Bounds::new(at(-far, -far), at(far, far));
    let (offset, placed) = Placement::compute(Origin::BottomLeft, Point::ZERO, &b);
    assert_eq!((offset.x, offset.y), (8_388_608.0, 8_388_608.0));
    assert_eq!((placed.left, placed.top), (-8_388_608, 8_388_608));
    assert_eq!((placed.width, placed.height), (16_777_216, 16_777_216));
}
