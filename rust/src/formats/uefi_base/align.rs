// @generated from proved source. It is not edited.

/// A type whose records start at a multiple of an alignment.
///
/// No call looks at an address. The alignment says how the size of a record is
/// rounded up, and at which addresses firmware places it.
pub trait Align {
    /// Returns the alignment in bytes.
    #[must_use]
    fn alignment() -> usize;
}
