//! Draws an address label, given as a path list, into a mask of one byte a pixel.
//!
//! A [`Path`] is a list of records, as bytes; every function takes any bytes of a list. A [`Label`]
//! says how it is drawn.
//!
//! | to | use |
//! |---|---|
//! | draw a whole label into memory of its own | [`draw`] |
//! | draw many labels, with nothing allocated | [`Workspace::draw`] |
//! | print a label band by band from a small buffer | [`Workspace::bands`] |
//! | know where a path lies, and how large a label holds it | [`bounds`], [`placement`] |
//! | turn, scale and move a label | [`Transform`], the label's field `transform` |
//! | know whether artwork lies off the grid, and shows soft edges | [`Picture::cut`], [`Drawn::cut`], [`Bands::cut`], [`Placement::cut`] |
//! | call the library's two drawings as they are, with memory of your own | [`draw_band`], [`draw_in_bands`] |
//!
//! A program that draws a rectangle and shows it:
//!
//! ```
//! use mosszephyr::{draw, Label, Path, Refusal};
//!
//! fn main() -> Result<(), Refusal> {
//!     let mut path = Path::new();
//!     path.move_to((1.0, 1.0))
//!         .line_to((3.0, 1.0))
//!         .line_to((3.0, 2.0))
//!         .line_to((1.0, 2.0))
//!         .close();
//!     let picture = draw(&path, &Label::new(4, 3))?;
//!     for row in picture.rows() {
//!         let ink = |&byte: &u8| if byte < 128 { '.' } else { '#' };
//!         println!("{}", row.iter().map(ink).collect::<String>());
//!     }
//!     assert_eq!(picture.mask(), [0, 0, 0, 0, 0, 255, 255, 0, 0, 0, 0, 0]);
//!     assert_eq!((picture.records(), picture.cells()), (5, 2));
//!     Ok(())
//! }
//! ```
//!
//! What cannot be drawn is turned away with a [`Refusal`]: a number, the record that it names and its
//! byte, and words for people. Every number and every byte may be handed in; none makes a call panic
//! or misuse memory, and every call returns. The library has no state, so any number of threads may
//! call it.
//!
//! The work is done by `libmosszephyr.a`, which `bindings/archive` writes to
//! `target/staticlib` at the repository's root. It is looked for in the folder that
//! `MOSSZEPHYR_LIB_DIR` names, then where pkg-config knows it, then there.
//!
//! # From zeno
//!
//! | zeno 0.3.3 | here |
//! |---|---|
//! | a `Vec<Command>` with `PathBuilder`'s `move_to`, `line_to`, `quad_to`, `curve_to`, `close` | [`Path`] with the same methods, or [`Command`]s collected into one; relative commands, arcs and SVG are left behind |
//! | a line or a curve directly behind `close`, which begins where the closed subpath began | refused with 18; with a `move_to` to that point before it the mask is the same |
//! | `Mask::new(&path).size(w, h)` | [`Label::new`]`(w, h)`: the label is told first, the path when it is drawn |
//! | `.origin(..)`, `.offset(..)`, `.transform(Some(t))` | the label's fields `origin`, `offset`, `transform` |
//! | `.style(Fill::EvenOdd)`, `Style::Fill(..)` | the field `fill`; strokes are left behind |
//! | `.format(Format::Alpha)` | always so: a byte a pixel; the subpixel formats are left behind |
//! | `.render()`, a `(Vec<u8>, Placement)` | [`draw`]`(&path, &label)?`, a [`Picture`] |
//! | `.render_into(buffer, Some(pitch))` | [`Workspace::draw`], the field `pitch`; the buffer need not be zeroed |
//! | a `Mask` without `.size(..)` | [`placement`], then a label of its `width`, `height` and `offset`. zeno draws with that offset alone, even where `.offset(..)` was given, and forgets the height in `top` under `Origin::BottomLeft` unless `.inspect(..)` was called |
//! | `Placement::compute(origin, offset, &bounds)` | [`placement`]`(&path, transform, offset, origin)?`: [`Placement`] holds the new offset too |
//! | `bounds(&path, style, transform)` | [`bounds`]`(&path, transform)?` |
//! | `Mask::with_scratch(&path, &mut scratch)`, `Scratch` | [`Workspace`], kept from label to label |
//! | `Transform::IDENTITY`; `Transform::default()`, which is all zeros | [`Transform::identity`]; the default is the identity |
//! | `Transform`'s `new`, `translation`, `scale`, `then_translate`, `transform_point`, `transform_vector` | the same names and numbers, with transforms by value; a turn by an angle is `Transform::new(cos, sin, -sin, cos, 0.0, 0.0)` |
//! | its `then`, `then_scale`, `pre_scale`, `pre_translate`, which have xy and yx exchanged, so that turned labels come out slanted | the same names, for one transform followed by the other, turned ones too: drop what made up for the slant. Where xy and yx are 0 in both and all numbers are finite, the answers are zeno's but for the signs of zeros; elsewhere, exchange xy and yx in both and in the answer to have zeno's |
//! | input that makes it panic or walk without end | a [`Refusal`] |

#![warn(missing_docs)]
#![deny(unsafe_code)]

mod command;
mod face;
mod geometry;
mod label;
mod path;
mod picture;
mod refusal;
mod workspace;

pub use command::{commands, Command, Commands};
pub use geometry::{bounds, placement, Bounds, Origin, Placement, Point, Transform};
pub use label::{
    bands_words, draw_band, draw_in_bands, mask_bytes, workspace_words, Drawn, Fill, Label,
    MOST_CELLS, MOST_LIST, MOST_PITCH, MOST_SIDE,
};
pub use path::Path;
pub use picture::{draw, Picture};
pub use refusal::{At, Refusal};
pub use workspace::{Band, Bands, Workspace};
