// @generated from proved source. It is not edited.

/// The most bytes that a PCR has.
pub(crate) const ROOM: usize = 64;

/// What a PCR holds: as many bytes as its bank's digests have.
///
/// Two are equal if all their bytes are.
#[derive(Clone, Copy)]
pub struct PcrValue {
    bytes: [u8; ROOM],
    length: usize,
}

impl PcrValue {
    /// Returns the value with these bytes, of which there are at most 64.
    ///
    /// # Panics
    ///
    /// If there are more than 64 bytes.
    #[must_use]
    #[inline]
    pub fn new(bytes: &[u8]) -> PcrValue {
        assert!(bytes.len() <= 64);
        let mut room = [0; ROOM];
        room[..bytes.len()].copy_from_slice(bytes);
        PcrValue {
            bytes: room,
            length: bytes.len(),
        }
    }

    /// Returns the bytes.
    #[must_use]
    #[inline]
    pub fn as_bytes(&self) -> &[u8] {
        &self.bytes[..self.length]
    }
}

/// Equality of all bytes.
impl PartialEq for PcrValue {
    #[inline]
    fn eq(&self, other: &Self) -> bool {
        self.as_bytes() == other.as_bytes()
    }
}

impl Eq for PcrValue {}
