//! A tile as rows, in lists that anyone may make.

use crate::calls::{judged, written};
use crate::output::list;
use crate::{sys, Bytes, Error, Point, Tile};

pub use crate::sys::{
    Feature as FeatureRow, Layer as LayerRow, Part as PartRow, Span, Value as ValueRow,
};

/// A tile as rows, as `mvt.h` has them. A row refers to its parts by a [`Span`] of the list of their kind: a layer to its
/// features, keys and values, a feature to its tags and parts, a part to its points. All texts lie in one list of bytes.
///
/// ```
/// let tile = libmvt::Builder::new().layer("a", 4096).feature(libmvt::Kind::Points).point(1, 2).finish()?;
/// let tile = libmvt::read(&tile)?;
/// let moved: Vec<_> = libmvt::Rows::of(&tile).points.iter().map(|at| libmvt::Point::new(at.x + 10, at.y)).collect();
/// let tile = libmvt::Rows { points: &moved, ..libmvt::Rows::of(&tile) }.write()?;
/// # Ok::<(), libmvt::Error>(())
/// ```
#[derive(Clone, Copy, Debug, Default)]
pub struct Rows<'r> {
    /// The layers, in order.
    pub layers: &'r [LayerRow],
    /// The features of all layers.
    pub features: &'r [FeatureRow],
    /// The keys: spans of the texts.
    pub keys: &'r [Span],
    /// The values.
    pub values: &'r [ValueRow],
    /// Pairs of indices of a key and a value, counted from the first ones of the layer.
    pub tags: &'r [u32],
    /// The lines, the rings, and the points of features.
    pub parts: &'r [PartRow],
    /// The positions.
    pub points: &'r [Point],
    /// The integers of unknown geometries.
    pub integers: &'r [u32],
    /// Names, keys, values, and the bytes of layers of another version.
    pub texts: &'r [u8],
}

impl<'r> Rows<'r> {
    /// The rows of a tile that was read.
    pub fn of(tile: &'r Tile) -> Self {
        let rows = tile.rows();
        // SAFETY: the rows live as long as the tile, and points lie there as `Point` does.
        unsafe {
            Rows {
                layers: list(rows.layers, rows.layer_count),
                features: list(rows.features, rows.feature_count),
                keys: list(rows.keys, rows.key_count),
                values: list(rows.values, rows.value_count),
                tags: list(rows.tags, rows.tag_count),
                parts: list(rows.parts, rows.part_count),
                points: list(rows.points.cast(), rows.point_count),
                integers: list(rows.integers, rows.integer_count),
                texts: list(rows.texts, rows.text_len),
            }
        }
    }

    fn lent(&self) -> sys::Tile {
        sys::Tile {
            layers: self.layers.as_ptr(),
            layer_count: self.layers.len(),
            features: self.features.as_ptr(),
            feature_count: self.features.len(),
            keys: self.keys.as_ptr(),
            key_count: self.keys.len(),
            values: self.values.as_ptr(),
            value_count: self.values.len(),
            tags: self.tags.as_ptr(),
            tag_count: self.tags.len(),
            parts: self.parts.as_ptr(),
            part_count: self.parts.len(),
            points: self.points.as_ptr().cast(),
            point_count: self.points.len(),
            integers: self.integers.as_ptr(),
            integer_count: self.integers.len(),
            texts: self.texts.as_ptr(),
            text_len: self.texts.len(),
        }
    }

    /// The canonical bytes of the tile that the rows are. All of them are checked.
    ///
    /// # Errors
    ///
    /// [`Error::NoTile`], [`Error::TooLarge`], [`Error::OutOfMemory`].
    pub fn write(&self) -> Result<Bytes, Error> {
        // SAFETY: the lists are lent for the call.
        let rows = self.lent();
        written(|out, fault| unsafe { sys::mvt_write(&rows, out, fault) })
    }

    /// Whether the rows are a valid tile.
    ///
    /// # Errors
    ///
    /// [`Error::NoTile`], [`Error::OutOfMemory`].
    pub fn judge(&self) -> Result<(), Error> {
        // SAFETY: the lists are lent for the call.
        unsafe { judged(&self.lent()) }
    }
}
