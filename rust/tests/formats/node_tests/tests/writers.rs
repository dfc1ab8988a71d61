// @generated from proved source. It is not edited.

use crate::support::fallible::*;

use crate::support::test::Fail;
use crate::test_support::{holds, same};
use crate::uefi_base::Guid;
use crate::uefi_node::acpi::Expanded;
use crate::uefi_node::media::{HardDrive, PartitionFormat, PartitionSignature};
use crate::uefi_node::messaging::{RestService, RestServiceAccessMode, RestServiceType};
use crate::uefi_path::build::{BuildError, BuildNode};

/// How many bytes each buffer has, which is more than any of the nodes.
const SIZE: usize = 50;

/// Checks that no node has a value: it isn't written, and each byte of the buffer stays.
fn has_no_node<N: BuildNode>(value: &N) -> Result<(), Fail> {
    let mut buffer = Vec::fallible_from_elem(0xeeu8, SIZE)?;
    same(
        "the error",
        &value.write(&mut buffer),
        &Err(BuildError::Form),
    )?;
    holds("each byte", buffer.iter().all(|byte| *byte == 0xee))
}

/// Returns a partition with this signature.
fn partition(partition_signature: PartitionSignature) -> HardDrive {
    HardDrive {
        partition_number: 1,
        partition_start: 2,
        partition_size: 3,
        partition_signature,
        partition_format: PartitionFormat::GPT,
    }
}

/// Returns a signature that is given as unknown.
fn unknown(signature_type: u8, signature: [u8; 16]) -> PartitionSignature {
    PartitionSignature::Unknown {
        signature_type,
        signature,
    }
}

#[test]
fn a_known_signature_is_not_written_as_an_unknown_one() -> Result<(), Fail> {
    let known = [
        unknown(0, [0; 16]),
        unknown(1, *b"abcd\0\0\0\0\0\0\0\0\0\0\0\0"),
        unknown(2, *b"0123456789abcdef"),
    ];
    for signature in known {
        holds("no value", !signature.is_valid())?;
        has_no_node(&partition(signature))?;
    }
    let mut buffer = Vec::fallible_from_elem(0xeeu8, SIZE)?;
    let other = partition(unknown(3, *b"0123456789abcdef"));
    same("another type", &other.write(&mut buffer), &Ok(42))
}

/// Returns an ACPI device with these strings.
fn expanded<'a>(hid_str: &'a [u8], uid_str: &'a [u8], cid_str: &'a [u8]) -> Expanded<'a> {
    Expanded {
        hid: 1,
        uid: 2,
        cid: 3,
        hid_str,
        uid_str,
        cid_str,
    }
}

#[test]
fn a_string_with_a_nul_is_not_written() -> Result<(), Fail> {
    has_no_node(&expanded(b"A\0", b"B", b"C"))?;
    has_no_node(&expanded(b"A", b"\0", b"C"))?;
    has_no_node(&expanded(b"A", b"B", b"\0C"))
}

/// Returns a service with or without the data of a vendor.
fn service<'a>(service_type: RestServiceType, data: Option<&'a [u8]>) -> RestService<'a> {
    RestService {
        service_type,
        access_mode: RestServiceAccessMode::IN_BAND,
        vendor_guid_and_data: data.map(|data| (Guid(*b"0123456789abcdef"), data)),
    }
}

#[test]
fn a_vendor_has_a_guid_and_no_other_service_has_one() -> Result<(), Fail> {
    let vendor = service(RestServiceType::VENDOR, None);
    has_no_node(&vendor)?;
    let other = service(RestServiceType::REDFISH, Some(b"xyz"));
    has_no_node(&other)
}
