//! The calls of one tile.

use crate::error::error_of;
use crate::output::lent;
use crate::{sys, Bytes, Error, RowsFault, Tile};
use std::ffi::CStr;

/// A fault that nothing was told of.
pub(crate) fn no_fault() -> sys::Fault {
    sys::Fault {
        layer: -1,
        feature: -1,
        at: 0,
        cause: 0,
        name: no_bytes(),
    }
}

pub(crate) fn no_bytes() -> sys::Bytes {
    sys::Bytes {
        data: std::ptr::null(),
        len: 0,
    }
}

/// A call of the library that makes something of a tile.
type Making<T> = unsafe extern "C" fn(*const u8, usize, *mut T, *mut sys::Fault) -> u32;

/// What a call puts into `out`, which is empty, or what its status means.
pub(crate) fn filled<T>(bytes: &[u8], mut out: T, call: Making<T>) -> Result<T, Error> {
    let mut fault = no_fault();
    // SAFETY: the bytes are lent for the call, and the outputs have room.
    match unsafe { call(bytes.as_ptr(), bytes.len(), &mut out, &mut fault) } {
        sys::OK => Ok(out),
        // SAFETY: the fault is filled where the bytes are refused.
        status => Err(unsafe { error_of(status, bytes, &fault) }),
    }
}

/// The bytes that a call makes.
fn bytes_of(bytes: &[u8], call: Making<sys::Bytes>) -> Result<Bytes, Error> {
    let made = filled(bytes, no_bytes(), call)?;
    // SAFETY: the call filled the bytes, which nothing else gives back.
    Ok(unsafe { Bytes::adopt(made) })
}

/// The text that a call makes.
fn text(bytes: &[u8], call: Making<sys::Bytes>) -> Result<String, Error> {
    Ok(bytes_of(bytes, call)?.into_text())
}

/// Whether the bytes are a tile. Makes nothing, so this is the fastest check.
///
/// ```
/// match libmvt::judge(&[0x1a, 2, 0x78, 2]) {
///     Err(libmvt::Error::Refused(fault)) => {
///         assert_eq!(fault.to_string(), "layer 0 feature - at 0: 10 NoName");
///     }
///     other => panic!("{other:?}"),
/// }
/// ```
///
/// # Errors
///
/// [`Error::Refused`], [`Error::OutOfMemory`].
pub fn judge(bytes: &[u8]) -> Result<(), Error> {
    let mut fault = no_fault();
    // SAFETY: the bytes are lent for the call, and the fault has room.
    match unsafe { sys::mvt_judge(bytes.as_ptr(), bytes.len(), &mut fault) } {
        sys::OK => Ok(()),
        // SAFETY: the fault is filled where the bytes are refused.
        status => Err(unsafe { error_of(status, bytes, &fault) }),
    }
}

/// What refused bytes look like, a number of [`lookalike`](crate::lookalike); `None` if they may be
/// meant as a tile. An accepted tile may begin as something else does.
///
/// ```
/// assert_eq!(libmvt::looks_like(b"GIF89a"), Some(libmvt::lookalike::GIF));
/// ```
pub fn looks_like(bytes: &[u8]) -> Option<u32> {
    // SAFETY: the bytes are lent for the call.
    let kind = unsafe { sys::mvt_looks_like(bytes.as_ptr(), bytes.len()) };
    u32::try_from(kind).ok().filter(|kind| *kind != 0)
}

/// A tile as rows, whose layers and features are views of them.
///
/// ```
/// let bytes = [0x1a, 5, 0x78, 2, 0x0a, 1, b'a'];
/// let tile = libmvt::read(&bytes)?;
/// assert_eq!(tile.layers().map(|layer| layer.name()).collect::<Vec<_>>(), ["a"]);
/// # Ok::<(), libmvt::Error>(())
/// ```
///
/// # Errors
///
/// [`Error::Refused`], [`Error::OutOfMemory`].
pub fn read(bytes: &[u8]) -> Result<Tile, Error> {
    read_within(bytes, u64::MAX)
}

/// The same, unless its rows would have more than so many bytes.
///
/// # Errors
///
/// [`Error::Refused`], and [`Error::OutOfMemory`], also if the bound is reached.
pub fn read_within(bytes: &[u8], most: u64) -> Result<Tile, Error> {
    // SAFETY: the bytes are lent for the call, and the outputs have room.
    Tile::made(bytes, |out, fault| unsafe {
        sys::mvt_read(bytes.as_ptr(), bytes.len(), most, out, fault)
    })
}

/// The first layer of version 2 with this name, as a tile that has no other layer. Reads only as far as this layer: later
/// bytes may be broken.
///
/// # Errors
///
/// [`Error::Refused`], [`Error::NoLayer`], [`Error::OutOfMemory`].
pub fn read_layer(bytes: &[u8], name: &str) -> Result<Tile, Error> {
    let mut missed = false;
    let told = Tile::made(bytes, |out, fault| {
        // SAFETY: as in `read_within`; the name is lent for the call.
        let status = unsafe {
            sys::mvt_read_layer(
                bytes.as_ptr(),
                bytes.len(),
                lent(name.as_bytes()),
                out,
                fault,
            )
        };
        missed = status == sys::NO_LAYER;
        status
    });
    if missed {
        return Err(Error::NoLayer(name.into()));
    }
    told
}

/// The canonical bytes of a tile: equal tiles have equal bytes.
///
/// # Errors
///
/// [`Error::Refused`], [`Error::TooLarge`], [`Error::OutOfMemory`].
pub fn rewrite(bytes: &[u8]) -> Result<Bytes, Error> {
    bytes_of(bytes, sys::mvt_rewrite)
}

/// The canonical bytes of the named layers of version 2, in the order of the tile. A repeated name counts once;
/// without names the tile has no layers.
///
/// ```
/// use libmvt::Error;
///
/// let bytes = libmvt::Builder::new().layer("a", 4096).layer("b", 4096).finish()?;
/// assert_eq!(libmvt::read(&libmvt::extract(&bytes, &["b"])?)?.layers().len(), 1);
/// assert_eq!(libmvt::extract(&bytes, &["b", "c"]), Err(Error::NoLayer("c".into())));
/// # Ok::<(), Error>(())
/// ```
///
/// # Errors
///
/// [`Error::Refused`], [`Error::NoLayer`] with the first name that no layer has, [`Error::TooLarge`],
/// [`Error::OutOfMemory`].
pub fn extract(bytes: &[u8], names: &[&str]) -> Result<Bytes, Error> {
    let wanted: Vec<sys::Bytes> = names.iter().map(|name| lent(name.as_bytes())).collect();
    let (mut out, mut fault, mut missing) = (no_bytes(), no_fault(), 0);
    // SAFETY: the bytes and the names are lent for the call, and the outputs have room.
    let status = unsafe {
        sys::mvt_extract(
            bytes.as_ptr(),
            bytes.len(),
            wanted.as_ptr(),
            wanted.len(),
            &mut out,
            &mut fault,
            &mut missing,
        )
    };
    match status {
        // SAFETY: the call filled the bytes, which nothing else gives back.
        sys::OK => Ok(unsafe { Bytes::adopt(out) }),
        sys::NO_LAYER => Err(Error::NoLayer(names[missing].into())),
        // SAFETY: the fault is filled where the bytes are refused.
        status => Err(unsafe { error_of(status, bytes, &fault) }),
    }
}

/// A tile as JSON, in one line without a line end, as `mvt show` prints it. A text that many features share is repeated for
/// each.
///
/// # Errors
///
/// [`Error::Refused`], [`Error::OutOfMemory`].
pub fn to_json(bytes: &[u8]) -> Result<String, Error> {
    text(bytes, sys::mvt_json)
}

/// A picture of a tile in SVG, as `mvt draw` prints it.
///
/// # Errors
///
/// [`Error::Refused`], [`Error::OutOfMemory`].
pub fn to_svg(bytes: &[u8]) -> Result<String, Error> {
    text(bytes, sys::mvt_svg)
}

/// What `mvt check` prints: a line with the numbers of layers and features and whether its bytes are canonical,
/// and a line for each note.
///
/// # Errors
///
/// [`Error::Refused`], [`Error::OutOfMemory`].
pub fn report(bytes: &[u8]) -> Result<String, Error> {
    text(bytes, sys::mvt_report)
}

/// What `mvt lint` prints: a line for each thing that breaks no rule but that viewers stumble over.
///
/// # Errors
///
/// [`Error::Refused`], [`Error::OutOfMemory`].
pub fn lint(bytes: &[u8]) -> Result<String, Error> {
    text(bytes, sys::mvt_lint)
}

/// The canonical bytes of a tile that was read.
///
/// # Errors
///
/// [`Error::TooLarge`], [`Error::OutOfMemory`].
pub fn write(tile: &Tile) -> Result<Bytes, Error> {
    // SAFETY: the rows live as long as the tile.
    written(|out, fault| unsafe { sys::mvt_write(tile.rows(), out, fault) })
}

/// What a call makes of rows, or why they are no tile.
pub(crate) fn written(
    call: impl FnOnce(*mut sys::Bytes, *mut sys::RowsFault) -> u32,
) -> Result<Bytes, Error> {
    let (mut out, mut fault) = (no_bytes(), NO_ROWS_FAULT);
    match call(&mut out, &mut fault) {
        // SAFETY: the call filled the bytes, which nothing else gives back.
        sys::OK => Ok(unsafe { Bytes::adopt(out) }),
        status => Err(error_of_rows(status, fault)),
    }
}

/// Whether rows are a valid tile.
///
/// # Safety
/// The lists of the rows can be read.
pub(crate) unsafe fn judged(rows: &sys::Tile) -> Result<(), Error> {
    let mut fault = NO_ROWS_FAULT;
    // SAFETY: by the condition of this function; the fault has room.
    match unsafe { sys::mvt_judge_rows(rows, &mut fault) } {
        sys::OK => Ok(()),
        status => Err(error_of_rows(status, fault)),
    }
}

const NO_ROWS_FAULT: sys::RowsFault = sys::RowsFault {
    layer: 0,
    feature: 0,
    has_feature: 0,
    cause: 0,
    rule: 0,
    has_point: 0,
    part: 0,
    point: 0,
};

/// What the status of a call means that takes rows.
fn error_of_rows(status: u32, fault: sys::RowsFault) -> Error {
    if status == sys::NO_TILE {
        return Error::NoTile(RowsFault {
            layer: fault.layer,
            feature: (fault.has_feature == 1).then_some(fault.feature),
            cause: fault.cause,
            rule: (fault.rule != 0).then_some(fault.rule),
            part: (fault.rule != 0).then_some(fault.part),
            point: (fault.has_point == 1).then_some(fault.point),
        });
    }
    // SAFETY: the status isn't that of a fault.
    unsafe { error_of(status, &[], &no_fault()) }
}

/// The version of the library.
pub fn version() -> &'static str {
    // SAFETY: the text lasts for good and ends with a zero.
    let text = unsafe { CStr::from_ptr(sys::mvt_version()) };
    text.to_str().unwrap_or_default()
}
