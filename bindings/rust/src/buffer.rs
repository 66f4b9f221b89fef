//! What the library made: bytes that are let go with their owner.

use crate::ffi;
use std::fmt;
use std::ops::Deref;
use std::{slice, str};

/// Bytes that the library made. They are read as a slice, and let go with this value.
pub struct Bytes(pub(crate) ffi::Buffer);

// SAFETY: the bytes are plain data on malloc's heap, which belongs to no thread, and nothing changes them.
unsafe impl Send for Bytes {}
// SAFETY: as above; a shared reference only reads them.
unsafe impl Sync for Bytes {}

impl Deref for Bytes {
    type Target = [u8];

    fn deref(&self) -> &[u8] {
        if self.0.size == 0 {
            return &[];
        }
        // SAFETY: a buffer's pointer is that of `size` bytes, which stay as they are until it is deleted.
        unsafe { slice::from_raw_parts(self.0.data, self.0.size) }
    }
}

impl AsRef<[u8]> for Bytes {
    fn as_ref(&self) -> &[u8] {
        self
    }
}

impl fmt::Debug for Bytes {
    fn fmt(&self, f: &mut fmt::Formatter<'_>) -> fmt::Result {
        fmt::Debug::fmt(&**self, f)
    }
}

impl Drop for Bytes {
    fn drop(&mut self) {
        // SAFETY: the buffer is empty or the library's, and is deleted once.
        unsafe { ffi::spvk_raw_buffer_delete(&mut self.0) }
    }
}

/// A text that the library made. It is read as a `str`, and let go with this value.
pub struct Text(Bytes);

impl Text {
    /// The text of these bytes, which must be UTF-8: so the library promises of its texts.
    pub(crate) fn of(bytes: Bytes) -> Text {
        Text(bytes)
    }
}

impl Deref for Text {
    type Target = str;

    fn deref(&self) -> &str {
        // SAFETY: the library's texts are UTF-8 (include/spvk.h, `spvk_buffer`).
        unsafe { str::from_utf8_unchecked(&self.0) }
    }
}

impl AsRef<str> for Text {
    fn as_ref(&self) -> &str {
        self
    }
}

impl fmt::Debug for Text {
    fn fmt(&self, f: &mut fmt::Formatter<'_>) -> fmt::Result {
        fmt::Debug::fmt(&**self, f)
    }
}

impl fmt::Display for Text {
    fn fmt(&self, f: &mut fmt::Formatter<'_>) -> fmt::Result {
        f.pad(self)
    }
}
