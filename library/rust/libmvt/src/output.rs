//! Bytes that the library made.

use crate::sys;
use std::ops::Deref;
use std::{fmt, slice};

/// Bytes that the library made. They are given back when this value is dropped.
pub struct Bytes(sys::Bytes);

// SAFETY: the bytes are this value's alone, and are never changed.
unsafe impl Send for Bytes {}
unsafe impl Sync for Bytes {}

impl Bytes {
    /// # Safety
    /// A call of the library filled it, and nothing else gives it back.
    pub(crate) unsafe fn adopt(bytes: sys::Bytes) -> Self {
        Bytes(bytes)
    }

    /// The text that the library made, which is UTF-8.
    pub(crate) fn into_text(self) -> String {
        String::from_utf8_lossy(&self).into_owned()
    }
}

impl Drop for Bytes {
    fn drop(&mut self) {
        // SAFETY: the library made the bytes, and they are given back once.
        unsafe { sys::mvt_bytes_free(&mut self.0) }
    }
}

impl Deref for Bytes {
    type Target = [u8];

    fn deref(&self) -> &[u8] {
        // SAFETY: the bytes live as long as this value.
        unsafe { list(self.0.data, self.0.len) }
    }
}

impl AsRef<[u8]> for Bytes {
    fn as_ref(&self) -> &[u8] {
        self
    }
}

impl From<Bytes> for Vec<u8> {
    fn from(bytes: Bytes) -> Vec<u8> {
        bytes.to_vec()
    }
}

impl PartialEq for Bytes {
    fn eq(&self, other: &Self) -> bool {
        **self == **other
    }
}

impl Eq for Bytes {}

impl fmt::Debug for Bytes {
    fn fmt(&self, f: &mut fmt::Formatter<'_>) -> fmt::Result {
        (**self).fmt(f)
    }
}

/// A list of the library. Where it is empty, its pointer isn't followed.
///
/// # Safety
/// The library made the list, and it lives and stays as it is for `'a`.
pub(crate) unsafe fn list<'a, T>(data: *const T, len: usize) -> &'a [T] {
    if len == 0 {
        return &[];
    }
    // SAFETY: by the condition of this function.
    unsafe { slice::from_raw_parts(data, len) }
}

/// Bytes that are lent to the library for a call.
pub(crate) fn lent(bytes: &[u8]) -> sys::Bytes {
    sys::Bytes {
        data: bytes.as_ptr(),
        len: bytes.len(),
    }
}
