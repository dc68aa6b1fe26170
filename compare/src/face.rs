//! The port's C face as safe functions over zeno's own types, so that a comparison says the same
//! thing to both sides. Only the program declares this module, so only it links the archives:
//! `libmosszephyr.a`, which users link, and `libprobe.a`, for what is compared besides.

mod label;
mod probe;

pub use label::{bounds, draw, draw_in_bands, placement, Answer, Drawn};
pub use probe::{box_of, cells, place, stores, Placed};

use compare::oracle::{Point, Transform};

#[repr(C)]
#[derive(Clone, Copy)]
struct MzTransform {
    xx: f32,
    xy: f32,
    yx: f32,
    yy: f32,
    x: f32,
    y: f32,
}

#[repr(C)]
#[derive(Clone, Copy)]
struct MzPoint {
    x: f32,
    y: f32,
}

#[link(name = "mosszephyr", kind = "static")]
extern "C" {
    fn mz_identity() -> MzTransform;
    fn mz_translation(x: f32, y: f32) -> MzTransform;
    fn mz_scale(x: f32, y: f32) -> MzTransform;
    fn mz_then(t: MzTransform, next: MzTransform) -> MzTransform;
    fn mz_then_scale(t: MzTransform, x: f32, y: f32) -> MzTransform;
    fn mz_then_translate(t: MzTransform, x: f32, y: f32) -> MzTransform;
    fn mz_pre_scale(t: MzTransform, x: f32, y: f32) -> MzTransform;
    fn mz_pre_translate(t: MzTransform, x: f32, y: f32) -> MzTransform;
    fn mz_transform_point(t: MzTransform, x: f32, y: f32) -> MzPoint;
    fn mz_transform_vector(t: MzTransform, x: f32, y: f32) -> MzPoint;
}

pub fn identity() -> Transform {
    // SAFETY: takes and answers plain numbers, as every function here.
    unsafe { mz_identity() }.into()
}

pub fn translation(x: f32, y: f32) -> Transform {
    // SAFETY: plain numbers.
    unsafe { mz_translation(x, y) }.into()
}

pub fn scale(x: f32, y: f32) -> Transform {
    // SAFETY: plain numbers.
    unsafe { mz_scale(x, y) }.into()
}

pub fn then_scale(t: Transform, x: f32, y: f32) -> Transform {
    // SAFETY: plain numbers.
    unsafe { mz_then_scale(t.into(), x, y) }.into()
}

pub fn then_translate(t: Transform, x: f32, y: f32) -> Transform {
    // SAFETY: plain numbers.
    unsafe { mz_then_translate(t.into(), x, y) }.into()
}

pub fn then(t: Transform, u: Transform) -> Transform {
    // SAFETY: plain numbers.
    unsafe { mz_then(t.into(), u.into()) }.into()
}

pub fn pre_scale(t: Transform, x: f32, y: f32) -> Transform {
    // SAFETY: plain numbers.
    unsafe { mz_pre_scale(t.into(), x, y) }.into()
}

pub fn pre_translate(t: Transform, x: f32, y: f32) -> Transform {
    // SAFETY: plain numbers.
    unsafe { mz_pre_translate(t.into(), x, y) }.into()
}

pub fn transform_point(t: Transform, p: Point) -> Point {
    // SAFETY: plain numbers.
    unsafe { mz_transform_point(t.into(), p.x, p.y) }.into()
}

pub fn transform_vector(t: Transform, p: Point) -> Point {
    // SAFETY: plain numbers.
    unsafe { mz_transform_vector(t.into(), p.x, p.y) }.into()
}

impl From<Transform> for MzTransform {
    fn from(t: Transform) -> MzTransform {
        let Transform {
            xx,
            xy,
            yx,
            yy,
            x,
            y,
        } = t;
        MzTransform {
            xx,
            xy,
            yx,
            yy,
            x,
            y,
        }
    }
}

impl From<MzTransform> for Transform {
    fn from(t: MzTransform) -> Transform {
        Transform::new(t.xx, t.xy, t.yx, t.yy, t.x, t.y)
    }
}

impl From<MzPoint> for Point {
    fn from(p: MzPoint) -> Point {
        Point::new(p.x, p.y)
    }
}
