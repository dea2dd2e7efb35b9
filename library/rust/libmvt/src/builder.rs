//! A tile that is made step by step.

use crate::calls::{no_bytes, no_fault, written};
use crate::error::error_of;
use crate::output::lent;
use crate::{sys, Bytes, Error, Kind, Point, ToValue, Value};

/// Makes a tile step by step: begin a layer, begin a feature, add its tags and points, and finish.
///
/// ```
/// use libmvt::{Builder, Kind, Point};
///
/// let mut builder = Builder::new();
/// builder.layer("water", 4096);
/// builder.feature(Kind::Polygons).tag("salt", false).ring(true);
/// builder.points(&[Point::new(0, 0), Point::new(10, 0), Point::new(0, 10)]);
/// let bytes = builder.finish()?;
/// # Ok::<(), libmvt::Error>(())
/// ```
///
/// After a call that the builder doesn't expect, or when memory runs out, each further call does nothing, and
/// [`finish`](Self::finish) says why.
pub struct Builder(sys::Builder);

// SAFETY: what it holds is this value's alone, and no call takes it shared.
unsafe impl Send for Builder {}
unsafe impl Sync for Builder {}

impl Default for Builder {
    fn default() -> Self {
        Self::new()
    }
}

impl Builder {
    /// A builder of a tile without layers.
    pub fn new() -> Self {
        Builder(sys::Builder {
            held: std::ptr::null_mut(),
        })
    }

    /// Begins a layer, and ends the one before. The extent is how many units the tile is wide and high, mostly 4096.
    pub fn layer(&mut self, name: &str, extent: u32) -> &mut Self {
        // SAFETY: the name is lent for the call.
        unsafe { sys::mvt_builder_layer(&mut self.0, lent(name.as_bytes()), extent) };
        self
    }

    /// Adds a layer of another version than 2, given by its bytes.
    pub fn foreign(&mut self, version: u32, bytes: &[u8]) -> &mut Self {
        // SAFETY: the bytes are lent for the call.
        unsafe { sys::mvt_builder_foreign(&mut self.0, version, lent(bytes)) };
        self
    }

    /// The index of a key in the layer. A new one is added.
    ///
    /// # Errors
    ///
    /// [`Error::OutOfTurn`], [`Error::OutOfMemory`].
    pub fn key(&mut self, key: &str) -> Result<u32, Error> {
        let mut index = 0;
        // SAFETY: the key is lent for the call.
        let status = unsafe { sys::mvt_builder_key(&mut self.0, lent(key.as_bytes()), &mut index) };
        index_of(status, index)
    }

    /// The index of a value in the layer. A new one is added.
    ///
    /// # Errors
    ///
    /// [`Error::OutOfTurn`], [`Error::OutOfMemory`].
    pub fn value(&mut self, value: impl ToValue) -> Result<u32, Error> {
        let mut index = 0;
        let given = any_of(value.to_value());
        // SAFETY: the value's text is lent for the call.
        let status = unsafe { sys::mvt_builder_value(&mut self.0, given, &mut index) };
        index_of(status, index)
    }

    /// Begins a feature of the layer, and ends the one before.
    pub fn feature(&mut self, kind: Kind) -> &mut Self {
        // SAFETY: the builder is this value's alone.
        unsafe { sys::mvt_builder_feature(&mut self.0, kind as u32) };
        self
    }

    /// Gives the feature an id.
    pub fn id(&mut self, id: u64) -> &mut Self {
        // SAFETY: the builder is this value's alone.
        unsafe { sys::mvt_builder_id(&mut self.0, id) };
        self
    }

    /// Adds an attribute to the feature. A whole number is a uint or, below zero, a sint; a [`Value`] is of its own kind.
    pub fn tag(&mut self, key: &str, value: impl ToValue) -> &mut Self {
        let given = any_of(value.to_value());
        // SAFETY: the texts are lent for the call.
        unsafe { sys::mvt_builder_tag(&mut self.0, lent(key.as_bytes()), given) };
        self
    }

    /// Adds an attribute by the indices of its key and its value.
    pub fn tag_at(&mut self, key: u32, value: u32) -> &mut Self {
        // SAFETY: the builder is this value's alone.
        unsafe { sys::mvt_builder_tag_at(&mut self.0, key, value) };
        self
    }

    /// Begins a line of a feature of lines.
    pub fn line(&mut self) -> &mut Self {
        // SAFETY: the builder is this value's alone.
        unsafe { sys::mvt_builder_line(&mut self.0) };
        self
    }

    /// Begins a ring of a feature of polygons. An exterior ring begins a polygon, and the rings after it are its holes.
    pub fn ring(&mut self, is_exterior: bool) -> &mut Self {
        // SAFETY: the builder is this value's alone.
        unsafe { sys::mvt_builder_ring(&mut self.0, is_exterior.into()) };
        self
    }

    /// Adds a point to the line or ring that began last, or to a feature of points.
    pub fn point(&mut self, x: i32, y: i32) -> &mut Self {
        self.points(&[Point::new(x, y)])
    }

    /// Adds points. A ring closes from its last point to its first.
    pub fn points(&mut self, points: &[Point]) -> &mut Self {
        // SAFETY: the points are lent for the call.
        unsafe { sys::mvt_builder_points(&mut self.0, points.as_ptr().cast(), points.len()) };
        self
    }

    /// Adds integers to a feature of unknown geometry.
    pub fn integers(&mut self, integers: &[u32]) -> &mut Self {
        // SAFETY: the integers are lent for the call.
        unsafe { sys::mvt_builder_integers(&mut self.0, integers.as_ptr(), integers.len()) };
        self
    }

    /// Removes the feature that began last, for example if its geometry has become empty.
    pub fn drop_feature(&mut self) -> &mut Self {
        // SAFETY: the builder is this value's alone.
        unsafe { sys::mvt_builder_drop(&mut self.0) };
        self
    }

    /// The canonical bytes of the tile. The builder begins anew.
    ///
    /// # Errors
    ///
    /// [`Error::NoTile`] if the tile isn't valid, such as a line of one point or a ring that runs the wrong way round;
    /// [`Error::OutOfTurn`], [`Error::TooLarge`], [`Error::OutOfMemory`].
    pub fn finish(&mut self) -> Result<Bytes, Error> {
        // SAFETY: the builder is this value's alone.
        written(|out, fault| unsafe { sys::mvt_builder_finish(&mut self.0, out, fault) })
    }
}

impl Drop for Builder {
    fn drop(&mut self) {
        // SAFETY: a builder that is finished is none any more, and giving it back does nothing.
        unsafe { sys::mvt_builder_free(&mut self.0) }
    }
}

fn index_of(status: u32, index: u32) -> Result<u32, Error> {
    match status {
        sys::OK => Ok(index),
        // SAFETY: the status isn't that of a fault.
        status => Err(unsafe { error_of(status, &[], &no_fault()) }),
    }
}

/// A value as the library takes it. Its text is lent.
fn any_of(value: Value<'_>) -> sys::Any {
    let (kind, bits, text) = match value {
        Value::Text(text) => (sys::TEXT, 0, lent(text.as_bytes())),
        Value::Float(number) => (sys::FLOAT, number.to_bits().into(), no_bytes()),
        Value::Double(number) => (sys::DOUBLE, number.to_bits(), no_bytes()),
        Value::Int(number) => (sys::INT, number as u64, no_bytes()),
        Value::Uint(number) => (sys::UINT, number, no_bytes()),
        Value::Sint(number) => (sys::SINT, number as u64, no_bytes()),
        Value::Bool(truth) => (sys::BOOL, truth.into(), no_bytes()),
    };
    sys::Any { kind, bits, text }
}
