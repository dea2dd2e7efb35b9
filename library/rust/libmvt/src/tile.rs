//! A tile that was read: rows that it owns.

use crate::calls::no_fault;
use crate::error::error_of;
use crate::layer::{Layer, Layers};
use crate::output::list;
use crate::{sys, Error};
use std::sync::Arc;
use std::{fmt, ptr, str};

/// A tile that was read. It owns its rows; layers, features, attributes and points are views of these, which last as long as
/// the tile:
///
/// ```compile_fail
/// let layers = libmvt::read(&[]).unwrap().layers(); // give the tile a name first
/// println!("{}", layers.len());
/// ```
///
/// A clone shares the rows, which nothing changes. Tiles are equal whose layers are.
#[derive(Clone)]
pub struct Tile(Arc<Rows>);

/// Rows that the library made, and that are given back.
struct Rows(sys::Tile);

// SAFETY: the rows are this value's alone, and are never changed.
unsafe impl Send for Rows {}
unsafe impl Sync for Rows {}

impl Tile {
    /// What a call puts into its rows, or what its status means. The bytes are those that the call takes.
    pub(crate) fn made(
        bytes: &[u8],
        call: impl FnOnce(*mut sys::Tile, *mut sys::Fault) -> u32,
    ) -> Result<Tile, Error> {
        let (mut rows, mut fault) = (no_rows(), no_fault());
        match call(&mut rows, &mut fault) {
            sys::OK => Ok(Tile(Arc::new(Rows(rows)))),
            // SAFETY: the fault is filled where the bytes are refused.
            status => Err(unsafe { error_of(status, bytes, &fault) }),
        }
    }

    pub(crate) fn rows(&self) -> &sys::Tile {
        &self.0 .0
    }

    /// The layers, in order, those of other versions among them.
    pub fn layers(&self) -> Layers<'_> {
        // SAFETY: the rows live as long as the tile.
        Layers {
            tile: self,
            rows: unsafe { list(self.rows().layers, self.rows().layer_count) }.iter(),
        }
    }

    /// The layer of version 2 of this name.
    pub fn layer(&self, name: &str) -> Option<Layer<'_>> {
        self.layers()
            .find(|layer| layer.version() == 2 && layer.name() == name)
    }

    pub(crate) fn text(&self, span: sys::Span) -> &str {
        // SAFETY: the texts of names, keys and values that were read are UTF-8.
        unsafe { str::from_utf8_unchecked(self.bytes(span)) }
    }

    pub(crate) fn bytes(&self, span: sys::Span) -> &[u8] {
        // SAFETY: the rows live as long as the tile.
        within(
            unsafe { list(self.rows().texts, self.rows().text_len) },
            span,
        )
    }
}

impl Drop for Rows {
    fn drop(&mut self) {
        // SAFETY: the library made the rows, and they are given back once.
        unsafe { sys::mvt_tile_free(&mut self.0) }
    }
}

impl PartialEq for Tile {
    fn eq(&self, other: &Self) -> bool {
        self.layers().eq(other.layers())
    }
}

impl Eq for Tile {}

impl fmt::Debug for Tile {
    fn fmt(&self, f: &mut fmt::Formatter<'_>) -> fmt::Result {
        f.debug_list().entries(self.layers()).finish()
    }
}

impl<'t> IntoIterator for &'t Tile {
    type Item = Layer<'t>;
    type IntoIter = Layers<'t>;

    fn into_iter(self) -> Layers<'t> {
        self.layers()
    }
}

/// The part of a list that a span names.
pub(crate) fn within<T>(list: &[T], span: sys::Span) -> &[T] {
    &list[span.start as usize..][..span.len as usize]
}

/// The rows of nothing.
fn no_rows() -> sys::Tile {
    sys::Tile {
        layers: ptr::null(),
        layer_count: 0,
        features: ptr::null(),
        feature_count: 0,
        keys: ptr::null(),
        key_count: 0,
        values: ptr::null(),
        value_count: 0,
        tags: ptr::null(),
        tag_count: 0,
        parts: ptr::null(),
        part_count: 0,
        points: ptr::null(),
        point_count: 0,
        integers: ptr::null(),
        integer_count: 0,
        texts: ptr::null(),
        text_len: 0,
    }
}
