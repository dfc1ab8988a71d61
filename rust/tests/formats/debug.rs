//! `Debug` is short: bytes are in hex, a view has its length and count, flags have their names.

use crate::test_support::bytes;
use std::fmt::Debug;
use uefi_formats::mem::memory_map::MemoryAttribute;
use uefi_formats::proto::device_path::media::Vendor;
use uefi_formats::proto::device_path::{DevicePath, LoadOptionAttributes};
use uefi_formats::proto::tcg::{LastEntry, Log};
use uefi_formats::runtime::Daylight;
use uefi_formats::{Guid, UnalignedSlice, cstr16};

#[track_caller]
fn shows(value: impl Debug, expected: &str) {
    assert_eq!(format!("{value:?}"), expected);
}

#[test]
fn bytes_are_in_hex_up_to_64() {
    let (short, long) = ([0x0a, 0xff], [0x11; 65]);
    let vendor = |data| Vendor { vendor_guid: Guid([0; 16]), vendor_defined_data: data };
    let head = "Vendor { vendor_guid: Guid(00000000-0000-0000-0000-000000000000), vendor_defined_data:";
    shows(vendor(&short), &format!("{head} [0aff] }}"));
    shows(vendor(&[]), &format!("{head} [] }}"));
    shows(vendor(&long), &format!("{head} [{}.. of 65 bytes] }}", "11".repeat(64)));
    shows(vendor(&long[1..]), &format!("{head} [{}] }}", "11".repeat(64)));
}

#[test]
fn views_have_a_length_and_a_count() {
    let path = bytes("0201 0c00 d0410a03 00000000 7fff 0400").unwrap();
    let path = DevicePath::try_from(&path[..]).unwrap();
    shows(path, "DevicePath { length: 16, nodes: 1 }");
    shows(
        path.node_iter().next(),
        "Some(DevicePathNode { device_type: DeviceType(ACPI Device Path), sub_type: DeviceSubType(1), \
         data: [d0410a0300000000] })",
    );
    let mut log = vec![0; 64];
    log[4] = 4;
    log[36] = 4;
    shows(
        Log::new(&log, LastEntry::Unknown),
        "Log { version: 1, length: 64, last_entry: Unknown, events: 2 }",
    );
}

#[test]
fn flags_have_their_names() {
    shows(LoadOptionAttributes::ACTIVE, "LoadOptionAttributes(ACTIVE)");
    shows(Daylight::empty(), "Daylight(0x0)");
    shows(Daylight::from_bits_retain(0x43), "Daylight(ADJUST_DAYLIGHT | IN_DAYLIGHT | 0x40)");
    shows(MemoryAttribute::RUNTIME | MemoryAttribute::UNCACHEABLE, "MemoryAttribute(UNCACHEABLE | RUNTIME)");
}

#[test]
fn texts_are_in_quotation_marks() {
    shows(cstr16!("a\"b"), "CStr16(\"a\\\"b\")");
    let units: Vec<u8> = "boot".repeat(17).encode_utf16().flat_map(u16::to_le_bytes).collect();
    shows(UnalignedSlice::new(&units[..8]), "UnalignedSlice(\"boot\")");
    shows(UnalignedSlice::new(&units[..128]), &format!("UnalignedSlice(\"{}\")", "boot".repeat(16)));
    shows(UnalignedSlice::new(&units), &format!("UnalignedSlice(\"{}..\")", "boot".repeat(16)));
}
