//! Conversions that only Rust's traits have.

use uefi_formats::proto::device_path::{DevicePathNode, DevicePathNodeEnum, NodeConversionError};
use uefi_formats::{Error, Result, Status};

#[test]
fn a_node_is_converted_as_as_enum_reads_it() {
    for (bytes, fault) in [
        (&[1, 1, 6, 0, 0, 2][..], None),
        (&[1, 1, 5, 0, 0], Some(NodeConversionError::Length)),
        (&[0x33, 1, 4, 0], Some(NodeConversionError::UnsupportedType)),
    ] {
        let node = DevicePathNode::try_from(bytes).unwrap();
        let found = DevicePathNodeEnum::try_from(node);
        assert_eq!(found, node.as_enum(), "{bytes:?}");
        assert_eq!(found.err(), fault, "{bytes:?}");
    }
}

#[test]
fn a_status_is_an_error_without_data() {
    fn failed() -> Result {
        Err(Status::BAD_BUFFER_SIZE)?
    }
    assert_eq!(failed(), Err(Error::new(Status::BAD_BUFFER_SIZE, ())));
}
