//! Paths, instances and nodes display their text, and a text is read back.

use crate::test_support::bytes;
use uefi_formats::proto::device_path::text::{
    AllowShortcuts, DisplayOnly, FromTextError, instance_to_text, node_to_text, to_text,
};
use uefi_formats::proto::device_path::{BoxedDevicePath, DevicePath, DevicePathNode};

/// Two instances: a function of a root bridge, and a CD-ROM, whose text for display is shorter, with a node of no form.
const PATH: &str = "0201 0c00 d041030a 00000000  0101 0600 0002  7f01 0400  \
                    0402 1800 0a000000 17744087b43092f5 0100000000000000  \
                    a0b0 0600 0a0b  7fff 0400";
const TEXT: &str = "PciRoot(0x0)/Pci(0x2,0x0),CDROM(0xA,0xF59230B487407417,0x1)/Path(160,176,0A0B)";

#[test]
fn a_path_displays_its_text() {
    let input = bytes(PATH).unwrap();
    let path = DevicePath::try_from(&input[..]).unwrap();
    assert_eq!(path.to_string(), TEXT);
    assert_eq!(path.to_string(), to_text(path, DisplayOnly(false), AllowShortcuts(false)).to_string());
    assert_eq!(path.to_boxed().unwrap().to_string(), TEXT);
}

#[test]
fn an_instance_displays_its_text() {
    let input = bytes(PATH).unwrap();
    let path = DevicePath::try_from(&input[..]).unwrap();
    let texts: Vec<String> = path.instance_iter().map(|it| it.to_string()).collect();
    assert_eq!(texts.join(","), TEXT);
    for instance in path.instance_iter() {
        let text = instance_to_text(instance, DisplayOnly(false), AllowShortcuts(false)).to_string();
        assert_eq!(instance.to_string(), text);
        assert_eq!(instance.to_boxed().unwrap().to_string(), text);
    }
}

#[test]
fn a_node_displays_its_text() {
    for (input, text) in [
        ("a0b0 0600 0a0b", "Path(160,176,0A0B)"),
        ("0101 0600 0002", "Pci(0x2,0x0)"),
        // With shortcuts it has another text.
        ("030a 1400 5347c1e0 bef9d211 9a0c0090 273fc14d", "VenMsg(E0C14753-F9BE-11D2-9A0C-0090273FC14D)"),
    ] {
        let input = bytes(input).unwrap();
        let node = DevicePathNode::try_from(&input[..]).unwrap();
        assert_eq!(node.to_string(), text);
        assert_eq!(node_to_text(node, DisplayOnly(false), AllowShortcuts(false)).to_string(), text);
    }
}

#[test]
fn a_text_is_read_back() {
    let path: BoxedDevicePath = TEXT.parse().unwrap();
    assert_eq!(path.as_path().as_bytes(), bytes(PATH).unwrap());
    assert_eq!("PciRoot(0x0)/Pcj(0x1F,0x0)".parse::<BoxedDevicePath>(), Err(FromTextError::UnknownNode(16)));
}
