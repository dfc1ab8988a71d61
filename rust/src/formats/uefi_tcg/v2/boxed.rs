// @generated from proved source. It is not edited.

#[cfg(feature = "alloc")]
use alloc::vec::Vec;

#[cfg(feature = "alloc")]
use crate::formats::uefi_tcg::v2::inputs::PcrEventInputs;

/// Inputs for an event that own their bytes, as [`PcrEventInputs::new_in_box`] makes them.
#[cfg(feature = "alloc")]
pub struct BoxedPcrEventInputs {
    bytes: Vec<u8>,
}

#[cfg(feature = "alloc")]
impl core::fmt::Debug for BoxedPcrEventInputs {
    fn fmt(&self, f: &mut core::fmt::Formatter<'_>) -> core::fmt::Result {
        f.debug_struct("BoxedPcrEventInputs")
            .field("bytes", &crate::support::debug::Bytes(&self.bytes))
            .finish()
    }
}

#[cfg(feature = "alloc")]
impl BoxedPcrEventInputs {
    /// Returns the inputs with these bytes.
    #[inline]
    pub(crate) fn from_bytes(bytes: Vec<u8>) -> BoxedPcrEventInputs {
        BoxedPcrEventInputs { bytes }
    }

    /// Returns the inputs, as a view of the bytes that these own.
    #[must_use]
    #[inline]
    pub fn as_inputs(&self) -> PcrEventInputs<'_> {
        PcrEventInputs::from_bytes(self.bytes.as_slice())
    }
}
