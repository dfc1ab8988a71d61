//! `cast_signed`, which rustc 1.85 hasn't yet.

/// The signed number with the same bits.
pub(crate) trait ToSigned {
    /// The signed type of as many bits.
    type Signed;

    /// Returns the signed number with the same bits.
    fn to_signed(self) -> Self::Signed;
}

impl ToSigned for u16 {
    type Signed = i16;

    #[inline]
    fn to_signed(self) -> i16 {
        self as i16
    }
}
