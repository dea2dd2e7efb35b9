//! What a feature draws.

use crate::output::list;
use crate::tile::within;
use crate::{sys, Tile};
use std::{fmt, iter, slice};

/// What a feature's geometry is.
#[derive(Clone, Copy, Debug, PartialEq, Eq, Hash)]
pub enum Kind {
    /// Integers that are no commands of another kind.
    Unknown = 0,
    /// Points.
    Points = 1,
    /// Lines.
    Lines = 2,
    /// Polygons: exterior rings, each with its holes behind it.
    Polygons = 3,
}

/// The parts of a feature's geometry.
#[derive(Clone)]
pub struct Parts<'t> {
    pub(crate) tile: &'t Tile,
    pub(crate) rows: slice::Iter<'t, sys::Part>,
}

impl<'t> Iterator for Parts<'t> {
    type Item = Part<'t>;

    fn next(&mut self) -> Option<Part<'t>> {
        self.rows.next().map(|row| Part::of(self.tile, row))
    }

    fn size_hint(&self) -> (usize, Option<usize>) {
        self.rows.size_hint()
    }
}

impl DoubleEndedIterator for Parts<'_> {
    fn next_back(&mut self) -> Option<Self::Item> {
        self.rows.next_back().map(|row| Part::of(self.tile, row))
    }
}

impl ExactSizeIterator for Parts<'_> {}

impl iter::FusedIterator for Parts<'_> {}

/// A line, a ring, or the points of a feature. A ring closes from its last point to its first.
#[derive(Clone, Copy, Debug, PartialEq, Eq)]
pub struct Part<'t> {
    /// Whether it is an exterior ring, which begins a polygon.
    pub is_exterior: bool,
    /// The points.
    pub points: &'t [Point],
}

impl<'t> Part<'t> {
    fn of(tile: &'t Tile, row: &sys::Part) -> Self {
        // SAFETY: the rows live as long as the tile, and points lie there as `Point` does.
        let points = unsafe { list(tile.rows().points.cast(), tile.rows().point_count) };
        Part {
            is_exterior: row.exterior == 1,
            points: within(points, row.points),
        }
    }
}

/// A position: x to the right, y down, in units of the layer's extent. It lies in memory as `mvt_point` does.
#[repr(C)]
#[derive(Clone, Copy, PartialEq, Eq, Hash)]
pub struct Point {
    /// To the right.
    pub x: i32,
    /// Down.
    pub y: i32,
}

impl Point {
    /// A position.
    pub fn new(x: i32, y: i32) -> Self {
        Point { x, y }
    }
}

impl fmt::Debug for Point {
    fn fmt(&self, f: &mut fmt::Formatter<'_>) -> fmt::Result {
        write!(f, "({}, {})", self.x, self.y)
    }
}

impl From<(i32, i32)> for Point {
    fn from((x, y): (i32, i32)) -> Self {
        Point::new(x, y)
    }
}
