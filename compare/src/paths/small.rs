//! Every path of a few points over a small set of coordinates.

use crate::oracle::{Command, Point};

/// How many points there are and how they are joined.
#[derive(Clone, Copy, Debug, PartialEq)]
pub enum Shape {
    /// Two points, there and back.
    Line,
    /// Three points.
    Triangle,
    /// One quad, closed by a line.
    Quad,
    /// One cubic, closed by a line.
    Cubic,
}

/// A shape over a set of coordinates: a path for each choice of them.
#[derive(Clone, Copy, Debug)]
pub struct Small {
    pub shape: Shape,
    pub coordinates: &'static [f32],
}

/// Inside and around a label of 2 by 2: corners, middles, outside by a hair and by a pixel.
pub const SMALL: [Small; 4] = [
    Small {
        shape: Shape::Line,
        coordinates: &[
            -1.5,
            -0.00390625,
            0.0,
            0.25,
            0.5,
            1.0,
            1.25,
            1.99609375,
            2.0,
            3.0,
        ],
    },
    Small {
        shape: Shape::Triangle,
        coordinates: &[-1.0, 0.0, 0.25, 1.0, 1.5, 2.0, 2.5],
    },
    Small {
        shape: Shape::Quad,
        coordinates: &[-1.25, 0.0, 0.5, 1.0, 1.75, 2.0],
    },
    Small {
        shape: Shape::Cubic,
        coordinates: &[-1.0, 0.0, 0.75, 2.0],
    },
];

impl Small {
    /// How many paths there are.
    pub fn count(&self) -> usize {
        self.coordinates.len().pow(2 * self.points() as u32)
    }

    /// The path of this index: its digits in the base of the set's size choose the coordinates.
    pub fn path(&self, index: usize) -> Vec<Command> {
        let mut left = index;
        let mut coordinate = || {
            let digit = left % self.coordinates.len();
            left /= self.coordinates.len();
            self.coordinates[digit]
        };
        let points: Vec<Point> = (0..self.points())
            .map(|_| Point::new(coordinate(), coordinate()))
            .collect();
        self.joined(&points)
    }

    fn points(&self) -> usize {
        match self.shape {
            Shape::Line => 2,
            Shape::Triangle | Shape::Quad => 3,
            Shape::Cubic => 4,
        }
    }

    fn joined(&self, p: &[Point]) -> Vec<Command> {
        let mut path = vec![Command::MoveTo(p[0])];
        match self.shape {
            Shape::Line => path.push(Command::LineTo(p[1])),
            Shape::Triangle => path.extend([Command::LineTo(p[1]), Command::LineTo(p[2])]),
            Shape::Quad => path.push(Command::QuadTo(p[1], p[2])),
            Shape::Cubic => path.push(Command::CurveTo(p[1], p[2], p[3])),
        }
        path.push(Command::Close);
        path
    }
}

#[cfg(test)]
mod tests {
    use super::*;
    use crate::list;
    use std::collections::HashSet;

    #[test]
    fn every_index_has_its_own_path() {
        for small in &SMALL {
            let paths: HashSet<Vec<u8>> = (0..small.count())
                .map(|index| list::written(&small.path(index)))
                .collect();
            assert_eq!(paths.len(), small.count(), "{:?}", small.shape);
        }
    }
}
