// @generated from proved source. It is not edited.

use crate::rows::Sets;
use crate::uefi_path::LoadOptionAttributes;

/// Returns the set that has a name, as `Debug` prints it.
pub(crate) fn named(name: &str) -> Option<String> {
    let set = match name {
        "LoadOptionAttributes::ACTIVE" => LoadOptionAttributes::ACTIVE,
        "LoadOptionAttributes::FORCE_RECONNECT" => LoadOptionAttributes::FORCE_RECONNECT,
        "LoadOptionAttributes::HIDDEN" => LoadOptionAttributes::HIDDEN,
        "LoadOptionAttributes::CATEGORY" => LoadOptionAttributes::CATEGORY,
        "LoadOptionAttributes::CATEGORY_APP" => LoadOptionAttributes::CATEGORY_APP,
        "LoadOptionAttributes::empty" => LoadOptionAttributes::empty(),
        "LoadOptionAttributes::default" => LoadOptionAttributes::default(),
        _ => return fallible_format!("there is no such name").ok(),
    };
    fallible_format!("{set:?}").ok()
}

/// Returns what the calls of two sets of attributes return: the bits of each are four bytes.
pub(crate) fn attributes(input: &[u8]) -> Option<Sets> {
    let [a, b, c, d, e, f, g, h] = input else {
        return None;
    };
    let bits = u32::from_le_bytes([*a, *b, *c, *d]);
    let set = LoadOptionAttributes::from_bits_retain(bits);
    let other = LoadOptionAttributes::from_bits_retain(u32::from_le_bytes([*e, *f, *g, *h]));
    let (mut inserted, mut removed) = (set, set);
    inserted.insert(other);
    removed.remove(other);
    let union = [set.union(other), set | other, inserted];
    let difference = [set.difference(other), removed];
    Some(Sets {
        from_bits: LoadOptionAttributes::from_bits(bits).map(|set| u64::from(set.bits())),
        is_empty: set.is_empty(),
        is_all: set.is_all(),
        not: u64::from((!set).bits()),
        intersects: set.intersects(other),
        contains: set.contains(other),
        union: union.map(|set| u64::from(set.bits())),
        difference: difference.map(|set| u64::from(set.bits())),
        is_less: set < other,
    })
}
