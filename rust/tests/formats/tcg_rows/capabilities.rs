// @generated from proved source. It is not edited.

use crate::rows::Sets;
use crate::uefi_tcg::v2::EventLogFormat;
use crate::uefi_tcg::{HashAlgorithm, v1, v2};

/// Returns whether a value is less than another, whether it is greater, and whether it is equal.
fn order_of<T: PartialOrd>(one: &T, other: &T) -> [bool; 3] {
    [*one < *other, *other < *one, *one == *other]
}

/// Returns the version of version 1 with these four fields.
fn v1_version(bytes: &[u8]) -> Option<v1::Version> {
    let [major, minor, rev_major, rev_minor] = bytes else {
        return None;
    };
    Some(v1::Version {
        major: *major,
        minor: *minor,
        rev_major: *rev_major,
        rev_minor: *rev_minor,
    })
}

/// Returns the version of version 2 with these two fields.
fn v2_version(bytes: &[u8]) -> Option<v2::Version> {
    let [major, minor] = bytes else {
        return None;
    };
    Some(v2::Version {
        major: *major,
        minor: *minor,
    })
}

/// Returns the order of two versions of version 1, and whether the first one is the default.
pub(crate) fn v1_version_order(one: &[u8], other: &[u8]) -> Option<([bool; 3], bool)> {
    let one = v1_version(one)?;
    let order = order_of(&one, &v1_version(other)?);
    Some((order, one == v1::Version::default()))
}

/// Returns the same of version 2.
pub(crate) fn v2_version_order(one: &[u8], other: &[u8]) -> Option<([bool; 3], bool)> {
    let one = v2_version(one)?;
    let order = order_of(&one, &v2_version(other)?);
    Some((order, one == v2::Version::default()))
}

/// Returns the capability of version 1 with the eleven bytes of its fields, in the order of its
/// parameters.
fn v1_made(bytes: &[u8]) -> Option<v1::BootServiceCapability> {
    let (structure, rest) = bytes.split_at_checked(4)?;
    let (protocol, rest) = rest.split_at_checked(4)?;
    let [algorithms, present, deactivated] = rest else {
        return None;
    };
    Some(v1::BootServiceCapability::new(
        v1_version(structure)?,
        v1_version(protocol)?,
        *algorithms,
        *present,
        *deactivated,
    ))
}

/// The fields of a capability of version 1: two versions, the bits of its algorithms, and two flags.
type V1Fields = ([v1::Version; 2], u32, [bool; 2]);

/// Returns the fields of a capability of version 1, and whether it is the default.
pub(crate) fn v1_capability(bytes: &[u8]) -> Option<(V1Fields, bool)> {
    let capability = v1_made(bytes)?;
    let versions = [
        capability.structure_version(),
        capability.protocol_spec_version(),
    ];
    let bits = capability.hash_algorithm().bits();
    let flags = [capability.tpm_present(), capability.tpm_deactivated()];
    let is_default = capability == v1::BootServiceCapability::default();
    Some(((versions, bits, flags), is_default))
}

/// Returns the order of two capabilities of version 1.
pub(crate) fn v1_capability_order(one: &[u8], other: &[u8]) -> Option<[bool; 3]> {
    Some(order_of(&v1_made(one)?, &v1_made(other)?))
}

/// Returns the capability of version 2 with ten numbers as its fields, in the order of its parameters.
/// The versions have them as their major numbers.
fn v2_made(numbers: &[u8]) -> Option<v2::BootServiceCapability> {
    let [
        structure,
        protocol,
        algorithms,
        logs,
        present,
        command,
        response,
        manufacturer,
        banks,
        active,
    ] = numbers
    else {
        return None;
    };
    Some(v2::BootServiceCapability::new(
        v2_version(&[*structure, 0])?,
        v2_version(&[*protocol, 0])?,
        HashAlgorithm::from_bits_retain(u32::from(*algorithms)),
        EventLogFormat::from_bits_retain(u32::from(*logs)),
        *present,
        u16::from(*command),
        u16::from(*response),
        u32::from(*manufacturer),
        u32::from(*banks),
        HashAlgorithm::from_bits_retain(u32::from(*active)),
    ))
}

/// The fields of a capability of version 2: the versions, the bits of its algorithms, formats and
/// active banks, whether there is a TPM, and the other numbers.
type V2Fields = ([v2::Version; 2], [u32; 3], bool, [u32; 4]);

/// Returns the fields of a capability of version 2, and whether it is the default.
pub(crate) fn v2_capability(numbers: &[u8]) -> Option<(V2Fields, bool)> {
    let capability = v2_made(numbers)?;
    let versions = [capability.structure_version, capability.protocol_version];
    let bits = [
        capability.hash_algorithm_bitmap.bits(),
        capability.supported_event_logs.bits(),
        capability.active_pcr_banks.bits(),
    ];
    let numbers = [
        u32::from(capability.max_command_size),
        u32::from(capability.max_response_size),
        capability.manufacturer_id,
        capability.number_of_pcr_banks,
    ];
    let is_default = capability == v2::BootServiceCapability::default();
    Some((
        (versions, bits, capability.tpm_present(), numbers),
        is_default,
    ))
}

/// Returns the order of two capabilities of version 2.
pub(crate) fn v2_capability_order(one: &[u8], other: &[u8]) -> Option<[bool; 3]> {
    Some(order_of(&v2_made(one)?, &v2_made(other)?))
}

/// Returns the numbers that eight bytes have.
fn two_numbers(input: &[u8]) -> Option<(u32, u32)> {
    let [a, b, c, d, e, f, g, h] = input else {
        return None;
    };
    Some((
        u32::from_le_bytes([*a, *b, *c, *d]),
        u32::from_le_bytes([*e, *f, *g, *h]),
    ))
}

/// Returns what the calls of two sets of algorithms return, and the bits of both sets by `&` and by
/// `&=`, and of either by `|=`: the bits of each are four bytes.
pub(crate) fn algorithm_sets(input: &[u8]) -> Option<(Sets, [u32; 3])> {
    let (bits, other) = two_numbers(input)?;
    let set = HashAlgorithm::from_bits_retain(bits);
    let other = HashAlgorithm::from_bits_retain(other);
    let (mut inserted, mut removed, mut kept, mut joined) = (set, set, set, set);
    inserted.insert(other);
    removed.remove(other);
    kept &= other;
    joined |= other;
    let union = [set.union(other), set | other, inserted];
    let difference = [set.difference(other), removed];
    let sets = Sets {
        from_bits: HashAlgorithm::from_bits(bits).map(|set| u64::from(set.bits())),
        is_empty: set.is_empty(),
        is_all: set.is_all(),
        not: u64::from((!set).bits()),
        intersects: set.intersects(other),
        contains: set.contains(other),
        union: union.map(|set| u64::from(set.bits())),
        difference: difference.map(|set| u64::from(set.bits())),
        is_less: set < other,
    };
    Some((sets, [set & other, kept, joined].map(|set| set.bits())))
}

/// Returns what the calls of two sets of formats return: the bits of each are four bytes.
pub(crate) fn format_sets(input: &[u8]) -> Option<Sets> {
    let (bits, other) = two_numbers(input)?;
    let set = EventLogFormat::from_bits_retain(bits);
    let other = EventLogFormat::from_bits_retain(other);
    let (mut inserted, mut removed) = (set, set);
    inserted.insert(other);
    removed.remove(other);
    let union = [set.union(other), set | other, inserted];
    let difference = [set.difference(other), removed];
    Some(Sets {
        from_bits: EventLogFormat::from_bits(bits).map(|set| u64::from(set.bits())),
        is_empty: set.is_empty(),
        is_all: set.is_all(),
        not: u64::from((!set).bits()),
        intersects: set.intersects(other),
        contains: set.contains(other),
        union: union.map(|set| u64::from(set.bits())),
        difference: difference.map(|set| u64::from(set.bits())),
        is_less: set < other,
    })
}

/// Returns whether a log of version 1, and one of version 2, says of itself that it is truncated, as
/// it was told by a byte that isn't 0.
pub(crate) fn is_truncated(input: &[u8]) -> Option<[bool; 2]> {
    let is_truncated = *input.first()? != 0;
    Some([
        v1::EventLog::new(None, Some(0), is_truncated).is_truncated(),
        v2::EventLog::new(None, Some(0), is_truncated).is_truncated(),
    ])
}
