// @generated from proved source. It is not edited.

use crate::rows::Sets;
use crate::uefi_records::{Daylight, FileAttribute};

/// Returns the set that has a name, as `Debug` prints it.
pub(crate) fn named(name: &str) -> Option<String> {
    let (Some(bits), Some((type_name, _))) = (bits_of(name), name.split_once("::")) else {
        return fallible_format!("there is no such name").ok();
    };
    fallible_format!("{type_name}({bits})").ok()
}

/// Returns the bits of the set that has a name.
fn bits_of(name: &str) -> Option<u64> {
    Some(match name {
        "FileAttribute::READ_ONLY" => FileAttribute::READ_ONLY.bits(),
        "FileAttribute::HIDDEN" => FileAttribute::HIDDEN.bits(),
        "FileAttribute::SYSTEM" => FileAttribute::SYSTEM.bits(),
        "FileAttribute::DIRECTORY" => FileAttribute::DIRECTORY.bits(),
        "FileAttribute::ARCHIVE" => FileAttribute::ARCHIVE.bits(),
        "FileAttribute::VALID_ATTR" => FileAttribute::VALID_ATTR.bits(),
        "FileAttribute::empty" => FileAttribute::empty().bits(),
        "FileAttribute::default" => FileAttribute::default().bits(),
        "Daylight::ADJUST_DAYLIGHT" => u64::from(Daylight::ADJUST_DAYLIGHT.bits()),
        "Daylight::IN_DAYLIGHT" => u64::from(Daylight::IN_DAYLIGHT.bits()),
        "Daylight::empty" => u64::from(Daylight::empty().bits()),
        "Daylight::default" => u64::from(Daylight::default().bits()),
        _ => return None,
    })
}

/// Returns what the calls of two sets of attributes return: the bits of each are eight bytes.
pub(crate) fn file_attribute(input: &[u8]) -> Option<Sets> {
    let [a, b, c, d, e, f, g, h, others @ ..] = input else {
        return None;
    };
    let [i, j, k, l, m, n, o, p] = others else {
        return None;
    };
    let bits = u64::from_le_bytes([*a, *b, *c, *d, *e, *f, *g, *h]);
    let set = FileAttribute::from_bits_retain(bits);
    let other = u64::from_le_bytes([*i, *j, *k, *l, *m, *n, *o, *p]);
    let other = FileAttribute::from_bits_retain(other);
    let (mut inserted, mut removed) = (set, set);
    inserted.insert(other);
    removed.remove(other);
    let union = [set.union(other), set | other, inserted];
    let difference = [set.difference(other), removed];
    Some(Sets {
        from_bits: FileAttribute::from_bits(bits).map(|set| set.bits()),
        is_empty: set.is_empty(),
        is_all: set.is_all(),
        not: (!set).bits(),
        intersects: set.intersects(other),
        contains: set.contains(other),
        union: union.map(|set| set.bits()),
        difference: difference.map(|set| set.bits()),
        is_less: set < other,
    })
}

/// Returns what the calls of two sets of daylight return: the bits of each are one byte.
pub(crate) fn daylight(input: &[u8]) -> Option<Sets> {
    let [bits, other] = input else {
        return None;
    };
    let set = Daylight::from_bits_retain(*bits);
    let other = Daylight::from_bits_retain(*other);
    let (mut inserted, mut removed) = (set, set);
    inserted.insert(other);
    removed.remove(other);
    let union = [set.union(other), set | other, inserted];
    let difference = [set.difference(other), removed];
    Some(Sets {
        from_bits: Daylight::from_bits(*bits).map(|set| u64::from(set.bits())),
        is_empty: set.is_empty(),
        is_all: set.is_all(),
        not: u64::from((!set).bits()),
        intersects: set.intersects(other),
        contains: set.contains(other),
        union: union.map(|set| u64::from(set.bits())),
        difference: difference.map(|set| u64::from(set.bits())),
        is_less: set < other,
    })
}
