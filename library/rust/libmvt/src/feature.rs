//! The features of a layer.

use crate::geometry::{Kind, Parts};
use crate::output::list;
use crate::tile::within;
use crate::{sys, Layer, Value};
use std::{fmt, iter, slice};

/// The features of a layer.
#[derive(Clone)]
pub struct Features<'t> {
    pub(crate) layer: Layer<'t>,
    pub(crate) rows: slice::Iter<'t, sys::Feature>,
}

impl<'t> Iterator for Features<'t> {
    type Item = Feature<'t>;

    fn next(&mut self) -> Option<Feature<'t>> {
        let layer = self.layer;
        self.rows.next().map(|row| Feature { layer, row })
    }

    fn size_hint(&self) -> (usize, Option<usize>) {
        self.rows.size_hint()
    }
}

impl DoubleEndedIterator for Features<'_> {
    fn next_back(&mut self) -> Option<Self::Item> {
        let layer = self.layer;
        self.rows.next_back().map(|row| Feature { layer, row })
    }
}

impl ExactSizeIterator for Features<'_> {}

impl iter::FusedIterator for Features<'_> {}

/// A feature. It equals another that has the same id, kind, geometry and attributes in the same order, where numbers are the
/// same if their bits are: a NaN equals itself, and 0.0 isn't -0.0.
#[derive(Clone, Copy)]
pub struct Feature<'t> {
    layer: Layer<'t>,
    row: &'t sys::Feature,
}

impl<'t> Feature<'t> {
    /// The id, if there is one.
    pub fn id(&self) -> Option<u64> {
        (self.row.has_id == 1).then_some(self.row.id)
    }

    /// What the geometry is.
    pub fn kind(&self) -> Kind {
        match self.row.kind {
            sys::POINTS => Kind::Points,
            sys::LINES => Kind::Lines,
            sys::POLYGONS => Kind::Polygons,
            _ => Kind::Unknown,
        }
    }

    /// The attributes, in order: keys and their values.
    pub fn attributes(&self) -> Attributes<'t> {
        Attributes {
            layer: self.layer,
            tags: self.tags().chunks_exact(2),
        }
    }

    /// The value of an attribute.
    pub fn attribute(&self, key: &str) -> Option<Value<'t>> {
        self.attributes()
            .find(|(name, _)| *name == key)
            .map(|(_, value)| value)
    }

    /// Pairs of an index of a key and an index of a value of the layer.
    pub fn tags(&self) -> &'t [u32] {
        let rows = self.layer.tile.rows();
        // SAFETY: the rows live as long as the tile.
        within(unsafe { list(rows.tags, rows.tag_count) }, self.row.tags)
    }

    /// The lines, the rings, or one part with all points.
    pub fn parts(&self) -> Parts<'t> {
        let rows = self.layer.tile.rows();
        // SAFETY: the rows live as long as the tile.
        let parts = unsafe { list(rows.parts, rows.part_count) };
        Parts {
            tile: self.layer.tile,
            rows: within(parts, self.row.parts).iter(),
        }
    }

    /// The integers of an unknown geometry.
    pub fn integers(&self) -> &'t [u32] {
        let rows = self.layer.tile.rows();
        // SAFETY: the rows live as long as the tile.
        within(
            unsafe { list(rows.integers, rows.integer_count) },
            self.row.integers,
        )
    }
}

impl PartialEq for Feature<'_> {
    fn eq(&self, other: &Self) -> bool {
        let is_same = |((key, value), (name, there)): ((&str, Value<'_>), (&str, Value<'_>))| {
            key == name && value.is_same(&there)
        };
        (self.id(), self.kind()) == (other.id(), other.kind())
            && self.integers() == other.integers()
            && self.parts().eq(other.parts())
            && self.tags().len() == other.tags().len()
            && self.attributes().zip(other.attributes()).all(is_same)
    }
}

impl Eq for Feature<'_> {}

impl fmt::Debug for Feature<'_> {
    fn fmt(&self, f: &mut fmt::Formatter<'_>) -> fmt::Result {
        let mut shown = f.debug_struct("Feature");
        shown.field("id", &self.id()).field("kind", &self.kind());
        shown.field("attributes", &self.attributes().collect::<Vec<_>>());
        match self.kind() {
            Kind::Unknown => shown.field("integers", &self.integers()).finish(),
            _ => shown
                .field("parts", &self.parts().collect::<Vec<_>>())
                .finish(),
        }
    }
}

/// The attributes of a feature.
#[derive(Clone)]
pub struct Attributes<'t> {
    layer: Layer<'t>,
    tags: slice::ChunksExact<'t, u32>,
}

impl<'t> Iterator for Attributes<'t> {
    type Item = (&'t str, Value<'t>);

    fn next(&mut self) -> Option<Self::Item> {
        self.tags.next().map(|tag| self.layer.attribute(tag))
    }

    fn size_hint(&self) -> (usize, Option<usize>) {
        self.tags.size_hint()
    }
}

impl DoubleEndedIterator for Attributes<'_> {
    fn next_back(&mut self) -> Option<Self::Item> {
        self.tags.next_back().map(|tag| self.layer.attribute(tag))
    }
}

impl ExactSizeIterator for Attributes<'_> {}

impl iter::FusedIterator for Attributes<'_> {}
