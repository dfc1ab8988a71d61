// @generated from proved source. It is not edited.

#[cfg(feature = "alloc")]
use alloc::vec::Vec;

#[cfg(feature = "alloc")]
use crate::formats::uefi_path::load_option::LoadOption;

/// A load option that owns its bytes, as [`LoadOption::new_in_box`] makes it.
#[cfg(feature = "alloc")]
pub struct BoxedLoadOption {
    bytes: Vec<u8>,
}

#[cfg(feature = "alloc")]
impl core::fmt::Debug for BoxedLoadOption {
    fn fmt(&self, f: &mut core::fmt::Formatter<'_>) -> core::fmt::Result {
        f.debug_struct("BoxedLoadOption")
            .field("bytes", &crate::support::debug::Bytes(&self.bytes))
            .finish()
    }
}

#[cfg(feature = "alloc")]
impl BoxedLoadOption {
    /// Returns the load option that `bytes`, which are known to be one, encode.
    #[inline]
    pub(crate) fn new_unchecked(bytes: Vec<u8>) -> BoxedLoadOption {
        BoxedLoadOption { bytes }
    }

    /// Returns the option, as a view of the bytes that this one owns.
    #[must_use]
    #[inline]
    pub fn as_load_option(&self) -> LoadOption<'_> {
        LoadOption::new_unchecked(self.bytes.as_slice())
    }

    /// Returns all bytes of the option: the value of a variable such as `Boot0000`.
    #[must_use]
    #[inline]
    pub fn as_bytes(&self) -> &[u8] {
        self.bytes.as_slice()
    }
}
