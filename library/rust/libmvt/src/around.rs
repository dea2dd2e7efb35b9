//! What there is round the fault of refused bytes.

use crate::calls::no_bytes;
use crate::output::list;
use crate::{sys, Error, Refused};

pub use crate::sys::{Bounds, Field as FieldRow, Integer, Step};

/// What there is round a fault. What can't be read isn't there. Places are those of the bytes that were given.
#[derive(Clone, Debug, PartialEq, Eq)]
pub struct Around {
    /// The bytes of the layer that the fault names.
    pub layer: Option<Bounds>,
    /// The layer's extent, as the last field says that can be read.
    pub extent: Option<u64>,
    /// The bytes of the feature that the fault names.
    pub feature: Option<Bounds>,
    /// The feature's type, as the last field says that can be read.
    pub kind: Option<u64>,
    /// The field of the feature whose integers the fault's `at` counts: 2, the tags, or 4, the geometry.
    pub list: Option<u32>,
    /// The bytes of the layer's keys, in order.
    pub keys: Vec<Bounds>,
    /// The integers of the feature's tags, with the bytes that spell them.
    pub tags: Vec<Integer>,
    /// The integers of the feature's geometry.
    pub geometry: Vec<Integer>,
    /// What each integer of the geometry is, one of [`role`](crate::role), and where the cursor stands after it.
    pub steps: Vec<Step>,
    /// The bytes of the innermost message in which the fault is.
    pub message: Bounds,
    /// The fields of this message, up to the first bytes that are none.
    pub fields: Vec<FieldRow>,
}

/// What there is round the fault of a refused tile, for any bytes and any fault.
///
/// ```
/// let tile = [0x1a, 9, 0x78, 2, 0x0a, 0, 0x12, 3, 0x20, 0x0b, 0];
/// let Err(libmvt::Error::Refused(fault)) = libmvt::judge(&tile) else { panic!() };
/// let around = libmvt::around(&tile, &fault)?;
/// assert_eq!(around.layer.map(|layer| layer.body), Some(2));
/// # Ok::<(), libmvt::Error>(())
/// ```
///
/// # Errors
///
/// [`Error::OutOfMemory`].
pub fn around(bytes: &[u8], fault: &Refused) -> Result<Around, Error> {
    let index = |of: Option<u64>| of.map_or(-1, |index| i64::try_from(index).unwrap_or(i64::MAX));
    let fault = sys::Fault {
        layer: index(fault.layer),
        feature: index(fault.feature),
        at: fault.at,
        cause: fault.cause,
        name: no_bytes(),
    };
    let mut out = nothing();
    // SAFETY: the bytes are lent for the call, and the output has room.
    if unsafe { sys::mvt_around(bytes.as_ptr(), bytes.len(), &fault, &mut out) } != sys::OK {
        return Err(Error::OutOfMemory);
    }
    // SAFETY: the call filled the lists, which are given back behind this.
    let told = unsafe { told(&out) };
    // SAFETY: nothing looks at the lists any more.
    unsafe { sys::mvt_surroundings_free(&mut out) };
    Ok(told)
}

/// # Safety
/// The library filled the lists.
unsafe fn told(out: &sys::Surroundings) -> Around {
    // SAFETY: by the condition of this function.
    unsafe {
        Around {
            layer: (out.has_layer == 1).then_some(out.layer),
            extent: (out.has_extent == 1).then_some(out.extent),
            feature: (out.has_feature == 1).then_some(out.feature),
            kind: (out.has_kind == 1).then_some(out.kind),
            list: (out.list != 0).then_some(out.list),
            keys: list(out.keys, out.key_count).to_vec(),
            tags: list(out.tags, out.tag_count).to_vec(),
            geometry: list(out.geometry, out.geometry_count).to_vec(),
            steps: list(out.steps, out.step_count).to_vec(),
            message: out.message,
            fields: list(out.fields, out.field_count).to_vec(),
        }
    }
}

/// A structure that nothing was told to.
fn nothing() -> sys::Surroundings {
    // SAFETY: zeros are numbers and null pointers.
    unsafe { std::mem::zeroed() }
}
