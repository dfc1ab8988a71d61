// @generated from proved source. It is not edited.

use crate::formats::uefi_base::Guid;

/// The length of a GUID: the least of a signature.
pub(crate) const GUID_LENGTH: usize = 16;

/// A signature of a database (UEFI 2.10, 32.4.1, `EFI_SIGNATURE_DATA`), and the data of events of
/// the type `EV_EFI_VARIABLE_AUTHORITY` that name one.
///
/// | offset | bytes | field |
/// |---|---|---|
/// | 0 | 16 | GUID of the owner |
/// | 16 | the rest | data: a hash or a certificate, as the type of its list says |
///
/// A view: the data lives as long as the bytes that it was read from.
#[non_exhaustive]
#[derive(Clone, Copy)]
pub struct SignatureData<'a> {
    /// The agent that added the signature to its database.
    pub owner: Guid,
    /// The signature without its owner.
    pub data: &'a [u8],
}

impl core::fmt::Debug for SignatureData<'_> {
    fn fmt(&self, f: &mut core::fmt::Formatter<'_>) -> core::fmt::Result {
        f.debug_struct("SignatureData")
            .field("owner", &self.owner)
            .field("data", &crate::support::debug::Bytes(self.data))
            .finish()
    }
}

impl<'a> SignatureData<'a> {
    /// Returns the signature that the bytes are, or `None` if there are fewer than sixteen.
    #[must_use]
    #[inline]
    pub fn read(bytes: &'a [u8]) -> Option<SignatureData<'a>> {
        if bytes.len() < GUID_LENGTH {
            return None;
        }
        Some(SignatureData::new(bytes))
    }

    /// Returns the signature in the bytes, which are known to have room for an owner.
    #[inline]
    pub(crate) fn new(bytes: &'a [u8]) -> SignatureData<'a> {
        let (guid, data) = bytes.split_at(GUID_LENGTH);
        let mut owner = [0; 16];
        owner.copy_from_slice(guid);
        SignatureData {
            owner: Guid(owner),
            data,
        }
    }
}
