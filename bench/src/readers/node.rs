//! Nodes of device paths as values: a plain match over the types that boot options have.

use super::path::Node;

/// Types, subtypes and lengths of data: the length that a file path is made with, as it has any.
pub const ACPI: (u8, u8, usize) = (2, 1, 8);
pub const PCI: (u8, u8, usize) = (1, 1, 2);
pub const NVME: (u8, u8, usize) = (3, 23, 12);
pub const HARD_DRIVE: (u8, u8, usize) = (4, 1, 38);
pub const FILE_PATH: (u8, u8, usize) = (4, 4, 50);

/// A node as a value of its type.
#[derive(Clone, Copy)]
pub enum Value<'a> {
    Acpi { hid: u32, uid: u32 },
    Pci { function: u8, device: u8 },
    Nvme { namespace: u32 },
    HardDrive { start: u64, size: u64 },
    FilePath { name: &'a [u8] },
}

impl<'a> Value<'a> {
    pub fn read(node: &Node<'a>) -> Option<Value<'a>> {
        let data = node.data();
        let number = |at: usize| Some(u32::from_le_bytes(*data.get(at..)?.first_chunk()?));
        let long = |at: usize| Some(u64::from_le_bytes(*data.get(at..)?.first_chunk()?));
        Some(match (node.device_type(), node.sub_type(), data.len()) {
            ACPI => Value::Acpi { hid: number(0)?, uid: number(4)? },
            PCI => Value::Pci { function: data[0], device: data[1] },
            NVME => Value::Nvme { namespace: number(0)? },
            HARD_DRIVE => Value::HardDrive { start: long(4)?, size: long(12)? },
            (4, 4, length) if length % 2 == 0 => Value::FilePath { name: data },
            _ => return None,
        })
    }
}
