//! What is noted and found of a tile that is accepted.

use crate::calls::filled;
use crate::error::words;
use crate::output::list;
use crate::{sys, Error, Point};
use std::fmt;

/// What `mvt check` says of a tile, as values.
#[derive(Clone, Debug, PartialEq, Eq)]
pub struct Summary {
    /// The layers of every version.
    pub layers: u64,
    /// The features of the layers of version 2.
    pub features: u64,
    /// Whether the bytes are those that [`rewrite`](crate::rewrite) makes.
    pub is_canonical: bool,
    /// What is worth a look.
    pub notes: Vec<Note>,
}

/// What breaks no rule, but is worth a look. Indices count from 0. `Display` says it in plain words.
#[derive(Clone, Copy, Debug, PartialEq, Eq)]
#[non_exhaustive]
#[allow(missing_docs)]
pub enum Note {
    NoLayers,
    Foreign {
        layer: u64,
        version: u32,
    },
    NoFeatures {
        layer: u64,
    },
    /// `earlier` is the feature whose id is repeated.
    RepeatedId {
        layer: u64,
        feature: u64,
        earlier: u64,
    },
    /// Rings are counted through all polygons of the feature.
    FlatRing {
        layer: u64,
        feature: u64,
        ring: u64,
    },
    ClosedTwice {
        layer: u64,
        feature: u64,
        ring: u64,
    },
}

/// What viewers stumble over in a tile that keeps every rule. Indices count from 0. `Display` says it in plain words, and
/// what happens in which viewer.
#[derive(Clone, Copy, Debug, PartialEq, Eq)]
#[non_exhaustive]
#[allow(missing_docs)]
pub enum Finding {
    ZeroExtent {
        layer: u64,
    },
    NoGeometry {
        layer: u64,
        feature: u64,
    },
    UnknownGeometry {
        layer: u64,
        feature: u64,
    },
    FarPoint {
        layer: u64,
        feature: u64,
        position: Point,
    },
    LargeId {
        layer: u64,
        feature: u64,
    },
    LargeNumber {
        layer: u64,
        feature: u64,
        attribute: u64,
    },
}

/// How many layers and features a tile has, whether its bytes are canonical, and what is worth a look.
///
/// ```
/// let tile = [0x1a, 7, 0x78, 2, 0x0a, 1, b'a', 0x28, 1];
/// let summary = libmvt::survey(&tile)?;
/// assert_eq!((summary.layers, summary.is_canonical), (1, true));
/// assert_eq!(summary.notes, [libmvt::Note::NoFeatures { layer: 0 }]);
/// # Ok::<(), libmvt::Error>(())
/// ```
///
/// # Errors
///
/// [`Error::Refused`], [`Error::OutOfMemory`].
pub fn survey(bytes: &[u8]) -> Result<Summary, Error> {
    let empty = sys::Summary {
        layers: 0,
        features: 0,
        is_canonical: 0,
        notes: std::ptr::null(),
        note_count: 0,
    };
    let mut out = filled(bytes, empty, sys::mvt_survey)?;
    // SAFETY: the call filled the list, which is given back behind this.
    let rows = unsafe { list(out.notes, out.note_count) };
    let told = Summary {
        layers: out.layers,
        features: out.features,
        is_canonical: out.is_canonical == 1,
        notes: rows.iter().filter_map(note_of).collect(),
    };
    // SAFETY: nothing looks at the list any more.
    unsafe { sys::mvt_summary_free(&mut out) };
    Ok(told)
}

/// What viewers stumble over, in the order of the layers, features and attributes.
///
/// # Errors
///
/// [`Error::Refused`], [`Error::OutOfMemory`].
pub fn lint_rows(bytes: &[u8]) -> Result<Vec<Finding>, Error> {
    let empty = sys::Findings {
        rows: std::ptr::null(),
        count: 0,
    };
    let mut out = filled(bytes, empty, sys::mvt_lint_rows)?;
    // SAFETY: the call filled the list, which is given back behind this.
    let rows = unsafe { list(out.rows, out.count) };
    let found = rows.iter().filter_map(finding_of).collect();
    // SAFETY: nothing looks at the list any more.
    unsafe { sys::mvt_findings_free(&mut out) };
    Ok(found)
}

/// `None` for a kind of a later library.
fn note_of(row: &sys::NoteRow) -> Option<Note> {
    let (layer, feature, ring) = (row.layer, row.feature, row.ring);
    Some(match row.kind {
        sys::NOTE_NO_LAYERS => Note::NoLayers,
        sys::NOTE_FOREIGN => Note::Foreign {
            layer,
            version: row.version,
        },
        sys::NOTE_NO_FEATURES => Note::NoFeatures { layer },
        sys::NOTE_REPEATED_ID => Note::RepeatedId {
            layer,
            feature,
            earlier: row.earlier,
        },
        sys::NOTE_FLAT_RING => Note::FlatRing {
            layer,
            feature,
            ring,
        },
        sys::NOTE_CLOSED_TWICE => Note::ClosedTwice {
            layer,
            feature,
            ring,
        },
        _ => return None,
    })
}

/// `None` for a kind of a later library.
fn finding_of(row: &sys::FindingRow) -> Option<Finding> {
    let (layer, feature) = (row.layer, row.feature);
    Some(match row.kind {
        sys::FINDING_ZERO_EXTENT => Finding::ZeroExtent { layer },
        sys::FINDING_NO_GEOMETRY => Finding::NoGeometry { layer, feature },
        sys::FINDING_UNKNOWN_GEOMETRY => Finding::UnknownGeometry { layer, feature },
        sys::FINDING_FAR_POINT => Finding::FarPoint {
            layer,
            feature,
            position: Point::new(row.x, row.y),
        },
        sys::FINDING_LARGE_ID => Finding::LargeId { layer, feature },
        sys::FINDING_LARGE_NUMBER => Finding::LargeNumber {
            layer,
            feature,
            attribute: row.attribute,
        },
        _ => return None,
    })
}

impl fmt::Display for Note {
    fn fmt(&self, f: &mut fmt::Formatter<'_>) -> fmt::Result {
        let kind = match self {
            Note::NoLayers => sys::NOTE_NO_LAYERS,
            Note::Foreign { .. } => sys::NOTE_FOREIGN,
            Note::NoFeatures { .. } => sys::NOTE_NO_FEATURES,
            Note::RepeatedId { .. } => sys::NOTE_REPEATED_ID,
            Note::FlatRing { .. } => sys::NOTE_FLAT_RING,
            Note::ClosedTwice { .. } => sys::NOTE_CLOSED_TWICE,
        };
        // SAFETY: the texts of notes last for good.
        f.write_str(&unsafe { words(sys::mvt_note_text(kind)) })
    }
}

impl fmt::Display for Finding {
    fn fmt(&self, f: &mut fmt::Formatter<'_>) -> fmt::Result {
        let kind = match self {
            Finding::ZeroExtent { .. } => sys::FINDING_ZERO_EXTENT,
            Finding::NoGeometry { .. } => sys::FINDING_NO_GEOMETRY,
            Finding::UnknownGeometry { .. } => sys::FINDING_UNKNOWN_GEOMETRY,
            Finding::FarPoint { .. } => sys::FINDING_FAR_POINT,
            Finding::LargeId { .. } => sys::FINDING_LARGE_ID,
            Finding::LargeNumber { .. } => sys::FINDING_LARGE_NUMBER,
        };
        // SAFETY: the texts of findings last for good.
        f.write_str(&unsafe { words(sys::mvt_finding_text(kind)) })
    }
}
