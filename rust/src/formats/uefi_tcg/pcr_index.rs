// @generated from proved source. It is not edited.

/// The index of a platform configuration register: 0 to 23 in a PC.
///
/// Equality, order and hash are those of the number.
///
/// Its layout is that of the `u32`.
#[derive(Clone, Copy, PartialEq, Eq, PartialOrd, Ord, Hash, Debug)]
#[repr(transparent)]
pub struct PcrIndex(pub u32);
