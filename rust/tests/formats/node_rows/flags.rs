// @generated from proved source. It is not edited.

use crate::rows::Sets;
use crate::uefi_node::messaging::{InfinibandResourceFlags, IscsiLoginOptions};

/// Returns what the calls of two sets of resources return: the bits of each are four bytes.
pub(crate) fn infiniband_flags(input: &[u8]) -> Option<Sets> {
    let [a, b, c, d, e, f, g, h] = input else {
        return None;
    };
    let bits = u32::from_le_bytes([*a, *b, *c, *d]);
    let set = InfinibandResourceFlags::from_bits_retain(bits);
    let other = InfinibandResourceFlags::from_bits_retain(u32::from_le_bytes([*e, *f, *g, *h]));
    let (mut inserted, mut removed) = (set, set);
    inserted.insert(other);
    removed.remove(other);
    let union = [set.union(other), set | other, inserted];
    let difference = [set.difference(other), removed];
    Some(Sets {
        from_bits: InfinibandResourceFlags::from_bits(bits).map(|set| u64::from(set.bits())),
        is_empty: set.is_empty(),
        is_all: set.is_all(),
        not: u64::from((!set).bits()),
        intersects: set.intersects(other),
        contains: set.contains(other),
        union: union.map(|set| u64::from(set.bits())),
        difference: difference.map(|set| u64::from(set.bits())),
        is_less: set < other,
    })
}

/// Returns what the calls of two sets of login options return: the bits of each are two bytes.
pub(crate) fn iscsi_flags(input: &[u8]) -> Option<Sets> {
    let [a, b, c, d] = input else {
        return None;
    };
    let bits = u16::from_le_bytes([*a, *b]);
    let set = IscsiLoginOptions::from_bits_retain(bits);
    let other = IscsiLoginOptions::from_bits_retain(u16::from_le_bytes([*c, *d]));
    let (mut inserted, mut removed) = (set, set);
    inserted.insert(other);
    removed.remove(other);
    let union = [set.union(other), set | other, inserted];
    let difference = [set.difference(other), removed];
    Some(Sets {
        from_bits: IscsiLoginOptions::from_bits(bits).map(|set| u64::from(set.bits())),
        is_empty: set.is_empty(),
        is_all: set.is_all(),
        not: u64::from((!set).bits()),
        intersects: set.intersects(other),
        contains: set.contains(other),
        union: union.map(|set| u64::from(set.bits())),
        difference: difference.map(|set| u64::from(set.bits())),
        is_less: set < other,
    })
}
