//! The layers of a tile.

use crate::feature::{Feature, Features};
use crate::output::list;
use crate::tile::within;
use crate::{sys, Tile, Value};
use std::{fmt, iter, slice};

/// The layers of a tile.
#[derive(Clone)]
pub struct Layers<'t> {
    pub(crate) tile: &'t Tile,
    pub(crate) rows: slice::Iter<'t, sys::Layer>,
}

impl<'t> Iterator for Layers<'t> {
    type Item = Layer<'t>;

    fn next(&mut self) -> Option<Layer<'t>> {
        let tile = self.tile;
        self.rows.next().map(|row| Layer { tile, row })
    }

    fn size_hint(&self) -> (usize, Option<usize>) {
        self.rows.size_hint()
    }
}

impl DoubleEndedIterator for Layers<'_> {
    fn next_back(&mut self) -> Option<Self::Item> {
        let tile = self.tile;
        self.rows.next_back().map(|row| Layer { tile, row })
    }
}

impl ExactSizeIterator for Layers<'_> {}

impl iter::FusedIterator for Layers<'_> {}

/// A layer. One of version 2 has a name, an extent and features; one of another version has its bytes. Layers are equal whose
/// features are; keys and values that no feature uses don't count.
#[derive(Clone, Copy)]
pub struct Layer<'t> {
    pub(crate) tile: &'t Tile,
    row: &'t sys::Layer,
}

impl<'t> Layer<'t> {
    /// The version.
    pub fn version(&self) -> u32 {
        self.row.version
    }

    /// The name; none if the version isn't 2.
    pub fn name(&self) -> &'t str {
        self.tile.text(self.row.name)
    }

    /// How many units the tile is wide and high.
    pub fn extent(&self) -> u32 {
        self.row.extent
    }

    /// The features, in order.
    pub fn features(&self) -> Features<'t> {
        let rows = self.tile.rows();
        // SAFETY: the rows live as long as the tile.
        let all = unsafe { list(rows.features, rows.feature_count) };
        Features {
            layer: *self,
            rows: within(all, self.row.features).iter(),
        }
    }

    /// The keys as the tile has them, in its order, also unused ones.
    pub fn keys(&self) -> impl ExactSizeIterator<Item = &'t str> {
        let tile = self.tile;
        self.key_spans().iter().map(move |span| tile.text(*span))
    }

    /// The values as the tile has them, in its order, also unused ones.
    pub fn values(&self) -> impl ExactSizeIterator<Item = Value<'t>> {
        let tile = self.tile;
        self.value_rows()
            .iter()
            .map(move |row| Value::of(tile, row))
    }

    /// The bytes of a layer of another version than 2.
    pub fn bytes(&self) -> &'t [u8] {
        self.tile.bytes(self.row.bytes)
    }

    pub(crate) fn key_spans(&self) -> &'t [sys::Span] {
        // SAFETY: the rows live as long as the tile.
        within(
            unsafe { list(self.tile.rows().keys, self.tile.rows().key_count) },
            self.row.keys,
        )
    }

    /// What a pair of indices of a key and a value stands for.
    pub(crate) fn attribute(&self, tag: &[u32]) -> (&'t str, Value<'t>) {
        let key = self.key_spans()[tag[0] as usize];
        let value = &self.value_rows()[tag[1] as usize];
        (self.tile.text(key), Value::of(self.tile, value))
    }

    pub(crate) fn value_rows(&self) -> &'t [sys::Value] {
        // SAFETY: the rows live as long as the tile.
        within(
            unsafe { list(self.tile.rows().values, self.tile.rows().value_count) },
            self.row.values,
        )
    }
}

impl PartialEq for Layer<'_> {
    fn eq(&self, other: &Self) -> bool {
        (self.version(), self.name(), self.extent())
            == (other.version(), other.name(), other.extent())
            && self.bytes() == other.bytes()
            && self.features().eq(other.features())
    }
}

impl Eq for Layer<'_> {}

impl<'t> IntoIterator for Layer<'t> {
    type Item = Feature<'t>;
    type IntoIter = Features<'t>;

    fn into_iter(self) -> Features<'t> {
        self.features()
    }
}

impl<'t> IntoIterator for &Layer<'t> {
    type Item = Feature<'t>;
    type IntoIter = Features<'t>;

    fn into_iter(self) -> Features<'t> {
        self.features()
    }
}

impl fmt::Debug for Layer<'_> {
    fn fmt(&self, f: &mut fmt::Formatter<'_>) -> fmt::Result {
        let mut shown = f.debug_struct("Layer");
        shown.field("version", &self.version());
        if self.version() != 2 {
            return shown.field("bytes", &self.bytes()).finish();
        }
        let features: Vec<_> = self.features().collect();
        shown
            .field("name", &self.name())
            .field("extent", &self.extent())
            .field("features", &features)
            .finish()
    }
}
