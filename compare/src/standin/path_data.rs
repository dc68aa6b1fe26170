//! From zeno's src/path_data.rs: `PathData::copy_to`, `apply` and `bounds` for a slice of commands,
//! a fill and a transform that is always there.

use super::command::Command;
use super::geometry::{Bounds, BoundsBuilder, Transform};
use super::path_builder::{PathBuilder, TransformSink};

/// Copies the path data into the specified sink.
pub fn copy_to(path: &[Command], sink: &mut impl PathBuilder) {
    for cmd in path.iter().copied() {
        use Command::*;
        match cmd {
            MoveTo(p) => sink.move_to(p),
            LineTo(p) => sink.line_to(p),
            QuadTo(c, p) => sink.quad_to(c, p),
            CurveTo(c1, c2, p) => sink.curve_to(c1, c2, p),
            Close => sink.close(),
        };
    }
}

/// Applies the transform to the path and emits the result to the specified sink.
pub fn apply(path: &[Command], transform: Transform, sink: &mut impl PathBuilder) {
    let mut transform_sink = TransformSink { sink, transform };
    copy_to(path, &mut transform_sink);
}

/// Computes the bounding box of the path.
pub fn bounds(path: &[Command], transform: Transform) -> Bounds {
    let mut bounds = BoundsBuilder::new();
    apply(path, transform, &mut bounds);
    bounds.build()
}
