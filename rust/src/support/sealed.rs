//! What seals a trait.

/// A type of this package.
pub trait Sealed {}
