// @generated from proved source. It is not edited.

/// What the calls of a set of flags return, and those with another set, all as bits.
#[derive(Clone, Copy, Debug)]
pub struct Sets {
    /// The set of the same bits, if each of them has a name.
    pub from_bits: Option<u64>,
    /// Whether it has no bit.
    pub is_empty: bool,
    /// Whether it has each bit with a name.
    pub is_all: bool,
    /// The bits with a name that it doesn't have.
    pub not: u64,
    /// Whether it has a bit of the other set.
    pub intersects: bool,
    /// Whether it has each bit of the other set.
    pub contains: bool,
    /// The bits of either set, by `union`, by `|` and by `insert`.
    pub union: [u64; 3],
    /// The bits that the other set doesn't have, by `difference` and by `remove`.
    pub difference: [u64; 2],
    /// Whether it comes before the other set.
    pub is_less: bool,
}
