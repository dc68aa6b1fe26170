//! Points, transforms, and where a path lies.

use crate::{face, Refusal};

/// A point, or an offset, in pixels.
#[repr(C)]
#[derive(Clone, Copy, Debug, Default, PartialEq)]
pub struct Point {
    /// To the right.
    pub x: f32,
    /// Down, or up for [`Origin::BottomLeft`].
    pub y: f32,
}

impl Point {
    /// (0, 0).
    pub const ZERO: Point = Point::new(0.0, 0.0);

    /// The point (x, y).
    #[must_use]
    pub const fn new(x: f32, y: f32) -> Point {
        Point { x, y }
    }
}

impl From<(f32, f32)> for Point {
    fn from((x, y): (f32, f32)) -> Point {
        Point::new(x, y)
    }
}

impl From<[f32; 2]> for Point {
    fn from([x, y]: [f32; 2]) -> Point {
        Point::new(x, y)
    }
}

/// Sends (x, y) to ((x · xx + y · yx) + tx, (x · xy + y · yy) + ty), every product and every sum
/// rounded to a float; the fields `x` and `y` are tx and ty.
///
/// Transforms are built by chaining:
///
/// ```
/// use mosszephyr::Transform;
///
/// let t = Transform::identity().then_scale(2.0, -2.0).then_translate(0.0, 240.0);
/// assert_eq!(t, Transform::new(2.0, 0.0, 0.0, -2.0, 0.0, 240.0));
/// ```
///
/// A turn by an angle is `Transform::new(cos, sin, -sin, cos, 0.0, 0.0)`. A label of 400 × 120 that
/// is turned by a quarter stands 120 × 400:
///
/// ```
/// use mosszephyr::{Point, Transform};
///
/// let quarter = Transform::new(0.0, 1.0, -1.0, 0.0, 0.0, 0.0);
/// let upright = quarter.then_translate(120.0, 0.0);
/// assert_eq!(upright.transform_point((0.0, 0.0)), Point::new(120.0, 0.0));
/// assert_eq!(upright.transform_point((400.0, 120.0)), Point::new(0.0, 400.0));
///
/// // Turned, and then twice as wide: 240 × 400.
/// let wide = upright.then_scale(2.0, 1.0);
/// assert_eq!(wide.transform_point((0.0, 0.0)), Point::new(240.0, 0.0));
/// assert_eq!(wide.transform_point((400.0, 120.0)), Point::new(0.0, 400.0));
///
/// // Artwork of 200 × 120, made twice as wide, and then turned: 120 × 400 again.
/// let stretched = Transform::scale(2.0, 1.0).then(upright);
/// assert_eq!(stretched.transform_point((0.0, 0.0)), Point::new(120.0, 0.0));
/// assert_eq!(stretched.transform_point((200.0, 120.0)), Point::new(0.0, 400.0));
/// ```
#[repr(C)]
#[derive(Clone, Copy, Debug, PartialEq)]
pub struct Transform {
    /// What x gives to x.
    pub xx: f32,
    /// What x gives to y.
    pub xy: f32,
    /// What y gives to x.
    pub yx: f32,
    /// What y gives to y.
    pub yy: f32,
    /// What is added to x.
    pub x: f32,
    /// What is added to y.
    pub y: f32,
}

/// All but `new` is done by the library. Its rules for transforms are zeno's, but for
/// [`then`](Transform::then) and the three that are made from it: zeno has xy and yx exchanged in
/// them, so that a label which is turned and scaled comes out slanted.
impl Transform {
    /// Leaves every point where it is.
    #[must_use]
    pub fn identity() -> Transform {
        face::identity()
    }

    /// The transform with these entries.
    #[must_use]
    pub const fn new(xx: f32, xy: f32, yx: f32, yy: f32, x: f32, y: f32) -> Transform {
        Transform {
            xx,
            xy,
            yx,
            yy,
            x,
            y,
        }
    }

    /// Moves every point by (x, y).
    #[must_use]
    pub fn translation(x: f32, y: f32) -> Transform {
        face::translation(x, y)
    }

    /// Multiplies x by `x` and y by `y`.
    #[must_use]
    pub fn scale(x: f32, y: f32) -> Transform {
        face::scale(x, y)
    }

    /// This transform, a, followed by the next, b:
    ///
    /// | entry | is |
    /// |---|---|
    /// | xx | a.xx · b.xx + a.xy · b.yx |
    /// | xy | a.xx · b.xy + a.xy · b.yy |
    /// | yx | a.yx · b.xx + a.yy · b.yx |
    /// | yy | a.yx · b.xy + a.yy · b.yy |
    /// | x | a.x · b.xx + a.y · b.yx + b.x |
    /// | y | a.x · b.xy + a.y · b.yy + b.y |
    ///
    /// Every product and every sum is made, from the left, and rounded: products with 0 too, which
    /// shows in the sign of a zero and where a number is not finite.
    ///
    /// It moves a point as a does and then as b does, but for the rounding. Where the entries and
    /// the point are whole numbers and nothing is rounded on either way, it is proved to do just
    /// that, 0 and −0 being equal: so where none of them is above 128 in size, or where none of xx,
    /// xy, yx and yy is above 16 and none of the others above 4096.
    #[must_use]
    pub fn then(self, next: Transform) -> Transform {
        face::then(self, next)
    }

    /// This transform followed by a scale: xx, yx and x are multiplied by `x`, xy, yy and y by `y`.
    #[must_use]
    pub fn then_scale(self, x: f32, y: f32) -> Transform {
        face::then_scale(self, x, y)
    }

    /// This transform followed by a move: adds to x and y. The other entries stay as they are, even
    /// the sign of a zero, which [`then`](Transform::then) with a translation need not keep.
    #[must_use]
    pub fn then_translate(self, x: f32, y: f32) -> Transform {
        face::then_translate(self, x, y)
    }

    /// A scale followed by this transform: xx and xy are multiplied by `x`, yx and yy by `y`.
    #[must_use]
    pub fn pre_scale(self, x: f32, y: f32) -> Transform {
        face::pre_scale(self, x, y)
    }

    /// A move followed by this transform: x · xx + y · yx is added to x, and x · xy + y · yy to y,
    /// so that they become where this transform sends (x, y).
    #[must_use]
    pub fn pre_translate(self, x: f32, y: f32) -> Transform {
        face::pre_translate(self, x, y)
    }

    /// Where a point goes.
    #[must_use]
    pub fn transform_point(self, point: impl Into<Point>) -> Point {
        let point = point.into();
        face::transform_point(self, point.x, point.y)
    }

    /// Where a difference of points goes: as a point, without the last sums.
    #[must_use]
    pub fn transform_vector(self, vector: impl Into<Point>) -> Point {
        let vector = vector.into();
        face::transform_vector(self, vector.x, vector.y)
    }
}

impl Default for Transform {
    fn default() -> Transform {
        Transform::identity()
    }
}

/// Where (0, 0) is.
#[derive(Clone, Copy, Debug, Default, PartialEq, Eq, Hash)]
pub enum Origin {
    /// At the top left: y points down.
    #[default]
    TopLeft,
    /// At the bottom left: y points up.
    BottomLeft,
}

/// A box of points.
#[derive(Clone, Copy, Debug, Default, PartialEq)]
pub struct Bounds {
    /// The least x and the least y.
    pub min: Point,
    /// The greatest x and the greatest y.
    pub max: Point,
}

/// How to draw a mask that just holds a path, and where it then belongs.
#[derive(Clone, Copy, Debug, Default, PartialEq)]
pub struct Placement {
    /// The new offset: it brings the placed box into the mask's first corner.
    pub offset: Point,
    /// Where the mask's left side belongs, in pixels.
    pub left: i32,
    /// Where its top belongs.
    pub top: i32,
    /// The mask's width, in pixels.
    pub width: usize,
    /// The mask's height.
    pub height: usize,
    /// How many coordinates of the path are cut with the offset that was given: see
    /// [`Drawn`](crate::Drawn).
    pub cut: usize,
}

/// The box of all transformed points of a path, control points included; zeros for an empty path.
/// Of parts that are equal, as 0 and −0 are, the first stays.
///
/// # Errors
///
/// 6 to 12 and 18, the point rule judging the points without any offset.
///
/// ```
/// use mosszephyr::{bounds, Path, Point, Transform};
///
/// let mut path = Path::new();
/// path.move_to((0.5, 0.25)).line_to((3.25, 2.0));
/// let found = bounds(&path, Transform::identity())?;
/// assert_eq!((found.min, found.max), (Point::new(0.5, 0.25), Point::new(3.25, 2.0)));
/// # Ok::<(), mosszephyr::Refusal>(())
/// ```
pub fn bounds(list: impl AsRef<[u8]>, transform: Transform) -> Result<Bounds, Refusal> {
    face::bounds(list.as_ref(), transform)
}

/// Where a path's label belongs, and how to draw it into a mask that just holds it.
///
/// The offset is added to the path's box, its minimum is rounded down to whole pixels and its
/// maximum up. Width and height are the sides of this box; left and top are its minimum, and for
/// [`Origin::BottomLeft`] the height is added to top; the new offset is the minimum, negated.
///
/// To draw what was placed, use the width, the height and the new offset; where the path was placed
/// with an offset of its own, the sum of both.
///
/// A placement can be larger than a drawing may be, up to 8194 x 8194.
///
/// # Errors
///
/// 6 to 12 and 18, the point rule judging the points with the offset added; for an empty path it
/// judges the offset alone, and no record is at fault.
///
/// ```
/// use mosszephyr::{draw, placement, Label, Origin, Path, Point, Transform};
///
/// let mut path = Path::new();
/// path.move_to((10.0, 20.0)).line_to((12.0, 20.0)).line_to((12.0, 21.0)).line_to((10.0, 21.0));
/// let placed = placement(&path, Transform::identity(), Point::ZERO, Origin::TopLeft)?;
/// assert_eq!((placed.left, placed.top), (10, 20));
/// let label = Label {
///     offset: placed.offset,
///     ..Label::new(placed.width, placed.height)
/// };
/// assert_eq!(draw(&path, &label)?.mask(), [255, 255]);
/// # Ok::<(), mosszephyr::Refusal>(())
/// ```
pub fn placement(
    list: impl AsRef<[u8]>,
    transform: Transform,
    offset: Point,
    origin: Origin,
) -> Result<Placement, Refusal> {
    face::placement(list.as_ref(), transform, offset, origin)
}
