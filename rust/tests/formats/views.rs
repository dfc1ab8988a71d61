//! What views have in Rust alone: their bytes, and the node of a file's path that is built from a text.

use crate::test_support::bytes;
use uefi_formats::proto::device_path::acpi::AdrList;
use uefi_formats::proto::device_path::build::{self, BuildError, BuildNode, DevicePathBuilder};
use uefi_formats::proto::device_path::{BoxedDevicePath, DevicePath, DevicePathNode, media};
use uefi_formats::proto::tcg::{EventType, PcrIndex, v1, v2};
use uefi_formats::{CStr16, UnalignedSlice, cstr16};

#[track_caller]
fn has_bytes(view: impl AsRef<[u8]>, expected: &[u8]) {
    assert_eq!(view.as_ref(), expected);
}

#[test]
fn views_have_their_bytes() {
    let input = bytes("0201 0c00 d041030a 00000000 7fff 0400").unwrap();
    let path = DevicePath::try_from(&input[..]).unwrap();
    has_bytes(path, &input);
    has_bytes(path.instance_iter().next().unwrap(), &input);
    has_bytes(path.node_iter().next().unwrap(), &input[..12]);
    has_bytes(UnalignedSlice::new(b"b\0o\0"), b"b\0o\0");
    assert_eq!(UnalignedSlice::new(b"b\0o\0").as_bytes(), b"b\0o\0");
    has_bytes(AdrList::new(&input[4..8]).unwrap(), &input[4..8]);
    let event = v1::PcrEvent::new_in_box(PcrIndex(0), EventType(0), [0; 20], &[]).unwrap();
    has_bytes(event.as_event(), &[0; 32]);
    let inputs = v2::PcrEventInputs::new_in_box(PcrIndex(4), EventType::IPL, &[0x12]).unwrap();
    has_bytes(inputs.as_inputs(), b"\x13\0\0\0\x0e\0\0\0\x01\0\x04\0\0\0\x0d\0\0\0\x12");
}

#[test]
fn a_file_is_named_by_a_text() {
    let path_name = cstr16!("\\a");
    let node = build::media::FilePath::from(path_name);
    let mut buffer = [0xee; 14];
    assert_eq!(node.write(&mut buffer[..13]).unwrap(), 10);
    assert_eq!(buffer, *b"\x04\x04\x0a\0\\\0a\0\0\0\xee\xee\xee\xee");
    let read = media::FilePath::try_from(DevicePathNode::try_from(&buffer[..]).unwrap()).unwrap();
    assert_eq!(read.path_name.as_bytes(), b"\\\0a\0\0\0");
    let mut again = [0; 10];
    assert_eq!((read.write(&mut again), &again), (Ok(10), &buffer[..10].try_into().unwrap()));

    let path = DevicePathBuilder::with_buf(&mut buffer).push(&node).unwrap().finalize().unwrap();
    assert_eq!(path, "\\a".parse::<BoxedDevicePath>().unwrap().as_path());
}

#[test]
fn a_file_that_is_not_written_changes_no_byte() {
    let mut buffer = [0xee; 9];
    let node = build::media::FilePath { path_name: cstr16!("\\a") };
    assert_eq!(node.write(&mut buffer), Err(BuildError::BufferTooSmall(10)));
    assert_eq!(buffer, [0xee; 9]);

    // The longest node has 65534 bytes: two a unit, and four of the header.
    for (units, written) in [(32765, Ok(65534)), (32766, Err(BuildError::NodeTooBig))] {
        let mut text = vec![0x61; units];
        text[units - 1] = 0;
        let path_name = CStr16::from_u16_with_nul(&text).unwrap();
        let found = build::media::FilePath { path_name }.write(&mut vec![0; 65535]);
        assert_eq!(found, written, "{units} units");
    }
}
