//! Tiles that are mended.

use crate::calls::{filled, no_bytes};
use crate::output::list;
use crate::{sys, Bytes, Error};
use std::fmt;

/// A tile that was mended, and what was changed.
#[derive(Debug, PartialEq, Eq)]
pub struct Mended {
    /// The canonical bytes.
    pub bytes: Bytes,
    /// The changes, in the order of the layers, features and parts.
    pub changes: Vec<Change>,
}

/// A change that [`mend`] made. Indices count from 0 in the tile as it stood; `part` is a line, or a ring through all polygons
/// of the feature. `Display` says it as `mvt mend` does.
#[derive(Clone, Copy, Debug, PartialEq, Eq)]
#[non_exhaustive]
#[allow(missing_docs)]
pub enum Change {
    /// The ring is told in the other direction, from the same first point.
    TurnedRing { layer: u64, feature: u64, part: u64 },
    /// So many points are left out: each equals the one before it, or the ring's first at its end.
    RepeatedPoint {
        layer: u64,
        feature: u64,
        part: u64,
        count: u64,
    },
    /// The line or ring has too few points then; it had so many.
    PartLeftOut {
        layer: u64,
        feature: u64,
        part: u64,
        count: u64,
    },
    /// No line or ring is left of so many points.
    FeatureLeftOut {
        layer: u64,
        feature: u64,
        count: u64,
    },
    /// The ring stands behind the exterior ring that holds it: at this index among those that stay.
    MovedRing {
        layer: u64,
        feature: u64,
        part: u64,
        to: u64,
    },
}

/// A tile with the two rules mended that producers break most: a point that equals the one before it
/// ([`cause::ZERO_SEGMENT`](crate::cause::ZERO_SEGMENT)), and a first ring that goes the wrong way round
/// ([`cause::FIRST_RING`](crate::cause::FIRST_RING)). A tile that keeps every rule comes as
/// [`rewrite`](crate::rewrite) makes it, without changes.
///
/// ```
/// // The layer "a" with a line from (2, 3) to (2, 3) and to (2, 7).
/// let tile = b"\x1a\x13\x78\x02\x0a\x01a\x12\x0c\x18\x02\x22\x08\x09\x04\x06\x12\0\0\0\x08";
/// let mended = libmvt::mend(tile)?;
/// assert_eq!(mended.changes.len(), 1);
/// assert_eq!(mended.changes[0].to_string(), "layer 0 feature 0: RepeatedPoint 0 count 1");
/// assert_eq!(libmvt::judge(&mended.bytes), Ok(()));
/// # Ok::<(), libmvt::Error>(())
/// ```
///
/// # Errors
///
/// [`Error::Refused`] with the fault of the tile as it stands, where it breaks another rule too, or its rings cross by more than
/// a unit or would take seconds (2^30 steps); [`Error::TooLarge`], [`Error::OutOfMemory`].
pub fn mend(bytes: &[u8]) -> Result<Mended, Error> {
    let empty = sys::Mended {
        bytes: no_bytes(),
        changes: std::ptr::null(),
        change_count: 0,
    };
    let mut out = filled(bytes, empty, mend_untold)?;
    // SAFETY: the call filled the list, which is given back behind this.
    let rows = unsafe { list(out.changes, out.change_count) };
    let changes = rows.iter().filter_map(change_of).collect();
    // SAFETY: the call filled the bytes, which nothing else gives back.
    let bytes = unsafe { Bytes::adopt(std::mem::replace(&mut out.bytes, no_bytes())) };
    // SAFETY: nothing looks at the list any more.
    unsafe { sys::mvt_mended_free(&mut out) };
    Ok(Mended { bytes, changes })
}

/// `mvt_mend`, which isn't asked why it refuses a tile.
///
/// # Safety
///
/// As for `mvt_mend`.
unsafe extern "C" fn mend_untold(
    bytes: *const u8,
    len: usize,
    out: *mut sys::Mended,
    fault: *mut sys::Fault,
) -> u32 {
    // SAFETY: the pointers are handed on as they came; `why` may be null.
    unsafe { sys::mvt_mend(bytes, len, out, fault, std::ptr::null_mut()) }
}

/// `None` for a kind of a later library.
fn change_of(row: &sys::ChangeRow) -> Option<Change> {
    let (layer, feature, part) = (row.layer, row.feature, row.part);
    Some(match row.kind {
        sys::CHANGE_TURNED_RING => Change::TurnedRing {
            layer,
            feature,
            part,
        },
        sys::CHANGE_REPEATED_POINT => Change::RepeatedPoint {
            layer,
            feature,
            part,
            count: row.count,
        },
        sys::CHANGE_PART_LEFT_OUT => Change::PartLeftOut {
            layer,
            feature,
            part,
            count: row.count,
        },
        sys::CHANGE_FEATURE_LEFT_OUT => Change::FeatureLeftOut {
            layer,
            feature,
            count: row.count,
        },
        sys::CHANGE_MOVED_RING => Change::MovedRing {
            layer,
            feature,
            part,
            to: row.to,
        },
        _ => return None,
    })
}

impl fmt::Display for Change {
    fn fmt(&self, f: &mut fmt::Formatter<'_>) -> fmt::Result {
        match *self {
            Change::TurnedRing {
                layer,
                feature,
                part,
            } => write!(f, "layer {layer} feature {feature}: TurnedRing {part}"),
            Change::RepeatedPoint {
                layer,
                feature,
                part,
                count,
            } => write!(
                f,
                "layer {layer} feature {feature}: RepeatedPoint {part} count {count}"
            ),
            Change::PartLeftOut {
                layer,
                feature,
                part,
                count,
            } => write!(
                f,
                "layer {layer} feature {feature}: PartLeftOut {part} count {count}"
            ),
            Change::FeatureLeftOut {
                layer,
                feature,
                count,
            } => {
                write!(
                    f,
                    "layer {layer} feature {feature}: FeatureLeftOut count {count}"
                )
            }
            Change::MovedRing {
                layer,
                feature,
                part,
                to,
            } => write!(
                f,
                "layer {layer} feature {feature}: MovedRing {part} to {to}"
            ),
        }
    }
}
