// @generated from proved source. It is not edited.

#[cfg(feature = "alloc")]
use alloc::vec::Vec;

#[cfg(feature = "alloc")]
use crate::formats::uefi_tcg::v1::event::PcrEvent;

/// An event of version 1 that owns its bytes, as [`PcrEvent::new_in_box`] makes it.
#[cfg(feature = "alloc")]
pub struct BoxedPcrEvent {
    bytes: Vec<u8>,
}

#[cfg(feature = "alloc")]
impl BoxedPcrEvent {
    /// Returns the event with these bytes.
    #[inline]
    pub(crate) fn from_bytes(bytes: Vec<u8>) -> BoxedPcrEvent {
        BoxedPcrEvent { bytes }
    }

    /// Returns the event, as a view of the bytes that this one owns.
    #[must_use]
    #[inline]
    pub fn as_event(&self) -> PcrEvent<'_> {
        PcrEvent::from_bytes(self.bytes.as_slice())
    }
}
