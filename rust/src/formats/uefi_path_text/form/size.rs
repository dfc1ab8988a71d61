// @generated from proved source. It is not edited.

/// How many bytes a number has.
#[derive(Clone, Copy, Debug)]
pub(crate) enum Size {
    /// One byte.
    One,
    /// Two bytes.
    Two,
    /// Four bytes.
    Four,
    /// Eight bytes.
    Eight,
}

impl Size {
    /// Returns the number of bytes.
    #[inline]
    pub(crate) fn bytes(self) -> usize {
        match self {
            Size::One => 1,
            Size::Two => 2,
            Size::Four => 4,
            Size::Eight => 8,
        }
    }
}
