//! The pixels that are asked for.

use mosszephyr::{placement, Label, Origin, Picture, Point, Refusal, Transform};

use crate::failure::Failure;
use crate::screen::Screen;

/// The offset that brings the first of the pixels to zero, and how many there are.
pub struct Frame {
    pub offset: Point,
    pub width: usize,
    pub height: usize,
}

impl Frame {
    /// A given size from zero on, or what the list's own placement asks for.
    pub fn of(list: impl AsRef<[u8]>, size: Option<(usize, usize)>) -> Result<Frame, Refusal> {
        if let Some((width, height)) = size {
            let offset = Point::ZERO;
            return Ok(Frame {
                offset,
                width,
                height,
            });
        }
        let placed = placement(list, Transform::identity(), Point::ZERO, Origin::TopLeft)?;
        Ok(Frame {
            offset: placed.offset,
            width: placed.width,
            height: placed.height,
        })
    }

    /// The label that shows these pixels.
    pub fn whole(&self) -> Label {
        self.label(1.0, self.width, self.height)
    }

    /// As wide as the screen, but no larger than the frame itself.
    pub fn seen_on(&self, screen: &Screen) -> Label {
        let columns = self.width.min(screen.columns);
        let rows = (self.height * columns).div_ceil(self.width);
        let scale = columns as f32 / self.width as f32;
        self.label(scale, columns, rows)
    }

    fn label(&self, scale: f32, width: usize, height: usize) -> Label {
        Label {
            transform: Transform::scale(scale, scale),
            offset: Point {
                x: self.offset.x * scale,
                y: self.offset.y * scale,
            },
            ..Label::new(width, height)
        }
    }

    /// A size that is refused is told with the refusal.
    pub fn refused(&self, name: String, refusal: Refusal) -> Failure {
        let what = match refusal {
            Refusal::Size => format!("{name}: {} x {} pixels", self.width, self.height),
            _ => name,
        };
        Failure::Refused(what, refusal)
    }

    pub fn report(&self, name: &str, picture: &Picture) -> String {
        format!(
            "draw: {name}: {} records drawn with {} cells, {} x {} pixels from ({}, {})",
            picture.records(),
            picture.cells(),
            self.width,
            self.height,
            // Not -0.
            0.0 - self.offset.x,
            0.0 - self.offset.y,
        )
    }
}
