//! The cells that zeno stores for the worked examples of crates/raster/specs/Table.antt, whose
//! numbers are these: `compare cells` prints them, a place as 8192·row + column + 1 and the sums as
//! 32-bit words.

use compare::drawing::Drawing;
use compare::driver;
use compare::zeno::command::Command;
use compare::zeno::geometry::Point;

pub const USAGE: &str = "compare cells";

/// The name of an example, its path in 256ths, and the label's width and height.
type Example = (&'static str, Vec<Command>, usize, usize);

pub fn print_cells() {
    for (name, path, width, height) in examples() {
        let drawn = driver::drawn(&Drawing::plain(&path, width, height));
        let drawn = drawn.expect("a worked example is accepted");
        println!("{name}, {width} by {height}: {} cells", drawn.cells.len());
        for cell in drawn.cells {
            let place = 8192 * cell.row + cell.column + 1;
            println!("  {place} {} {}", cell.cover as u32, cell.area as u32);
        }
    }
}

fn examples() -> Vec<Example> {
    use Command::{Close, CurveTo, LineTo, MoveTo, QuadTo};
    // a slanted line, and back upright and level
    let line = |a: Point, b: Point| vec![MoveTo(a), LineTo(b), LineTo(Point::new(b.x, a.y)), Close];
    let (low, high) = (at(100, 20), at(600, 300));
    let (left, right) = (at(100, 300), at(600, 20));
    let triangle = vec![
        MoveTo(at(0, 0)),
        LineTo(at(256, 256)),
        LineTo(at(0, 256)),
        Close,
    ];
    // a triangle within one cell, the same backwards, and away
    let cancelling = vec![
        MoveTo(at(320, 320)),
        LineTo(at(448, 320)),
        LineTo(at(320, 448)),
        Close,
        MoveTo(at(320, 448)),
        LineTo(at(448, 320)),
        LineTo(at(320, 320)),
        Close,
        MoveTo(at(2560, 2560)),
    ];
    vec![
        ("K4's triangle", triangle, 2, 1),
        ("down to the right", line(low, high), 3, 2),
        ("up to the left", line(high, low), 3, 2),
        ("down to the left", line(right, left), 3, 2),
        ("up to the right", line(left, right), 3, 2),
        (
            "a quad",
            vec![MoveTo(at(0, 0)), QuadTo(at(700, 0), at(700, 500))],
            3,
            2,
        ),
        (
            "a cubic",
            vec![
                MoveTo(at(0, 0)),
                CurveTo(at(0, 700), at(700, 700), at(700, 0)),
            ],
            3,
            3,
        ),
        ("figures that cancel", cancelling, 2, 2),
    ]
}

fn at(x: i32, y: i32) -> Point {
    Point::new(x as f32 / 256.0, y as f32 / 256.0)
}
