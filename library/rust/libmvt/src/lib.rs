//! Reads, judges and writes Mapbox Vector Tiles, by the proved library `libmvt`.
//!
//! ```
//! use libmvt::{Builder, Kind};
//!
//! let mut builder = Builder::new();
//! builder.layer("places", 4096);
//! builder.feature(Kind::Points).id(7).tag("name", "Mill Pond").tag("depth", 3.5).point(25, 17);
//! let bytes = builder.finish()?;
//!
//! let tile = libmvt::read(&bytes)?;
//! for layer in tile.layers().filter(|layer| layer.version() == 2) {
//!     println!("{}: {} features", layer.name(), layer.features().len());
//!     for (key, value) in layer.features().flat_map(|feature| feature.attributes()) {
//!         println!("  {key}: {value}");
//!     }
//! }
//! # Ok::<(), libmvt::Error>(())
//! ```
//!
//! Bytes that break a rule of the Mapbox Vector Tile Specification 2.1 give [`Error::Refused`], which tells the layer, the
//! feature, the place and the cause of the first broken rule. Each call takes the bytes of one uncompressed tile. Layers of
//! another version than 2 are carried as their bytes.

#![deny(missing_docs, unsafe_op_in_unsafe_fn, clippy::all)]

mod around;
mod builder;
mod calls;
mod decoder;
mod error;
mod feature;
mod geometry;
mod layer;
mod mending;
mod output;
mod remarks;
mod rows;
mod tile;
mod value;

use libmvt_sys as sys;

pub use around::{around, Around, Bounds, FieldRow, Integer, Step};
pub use builder::Builder;
pub use calls::{
    extract, judge, lint, looks_like, read, read_layer, read_within, report, rewrite, to_json,
    to_svg, version, write,
};
pub use decoder::Decoder;
pub use error::{Error, Refused, RowsFault};
pub use feature::{Attributes, Feature, Features};
pub use geometry::{Kind, Part, Parts, Point};
pub use layer::{Layer, Layers};
pub use libmvt_sys::{cause, lookalike, role, rows_cause, LIMIT};
pub use mending::{mend, Change, Mended};
pub use output::Bytes;
pub use remarks::{lint_rows, survey, Finding, Note, Summary};
pub use rows::{FeatureRow, LayerRow, PartRow, Rows, Span, ValueRow};
pub use tile::Tile;
pub use value::{ToValue, Value};
