// @generated from proved source. It is not edited.

use core::fmt;

/// What a range of memory is for (UEFI 2.10, 7.2.1 `EFI_BOOT_SERVICES.AllocatePages()`,
/// `EFI_MEMORY_TYPE`). A number without a name here is kept as it is. The layout is that of `u32`.
#[derive(Clone, Copy, PartialEq, Eq, PartialOrd, Ord, Hash)]
#[repr(transparent)]
pub struct MemoryType(pub u32);

impl MemoryType {
    /// Memory that isn't to be used.
    pub const RESERVED: MemoryType = MemoryType(0);
    /// The code of a loaded application.
    pub const LOADER_CODE: MemoryType = MemoryType(1);
    /// The data and the allocations of a loaded application.
    pub const LOADER_DATA: MemoryType = MemoryType(2);
    /// The code of a boot services driver.
    pub const BOOT_SERVICES_CODE: MemoryType = MemoryType(3);
    /// The data and the allocations of a boot services driver.
    pub const BOOT_SERVICES_DATA: MemoryType = MemoryType(4);
    /// The code of a runtime services driver.
    pub const RUNTIME_SERVICES_CODE: MemoryType = MemoryType(5);
    /// The data and the allocations of a runtime services driver.
    pub const RUNTIME_SERVICES_DATA: MemoryType = MemoryType(6);
    /// Free memory.
    pub const CONVENTIONAL: MemoryType = MemoryType(7);
    /// Memory in which errors were found.
    pub const UNUSABLE: MemoryType = MemoryType(8);
    /// ACPI tables. The memory is free once they are read.
    pub const ACPI_RECLAIM: MemoryType = MemoryType(9);
    /// Memory that the firmware keeps for its own use.
    pub const ACPI_NON_VOLATILE: MemoryType = MemoryType(10);
    /// Memory-mapped registers of devices.
    pub const MMIO: MemoryType = MemoryType(11);
    /// Memory that is translated to cycles of an I/O port.
    pub const MMIO_PORT_SPACE: MemoryType = MemoryType(12);
    /// Code of the firmware that is part of the processor.
    pub const PAL_CODE: MemoryType = MemoryType(13);
    /// Free memory that keeps its bytes without power.
    pub const PERSISTENT_MEMORY: MemoryType = MemoryType(14);
    /// Memory that a guest has to accept before it is used.
    pub const UNACCEPTED: MemoryType = MemoryType(15);

    /// Returns the standard's name of the type, such as `EfiLoaderCode`; `None` for a number without
    /// a constant here.
    #[must_use]
    #[inline]
    pub const fn name(self) -> Option<&'static str> {
        match self {
            MemoryType::RESERVED => Some("EfiReservedMemoryType"),
            MemoryType::LOADER_CODE => Some("EfiLoaderCode"),
            MemoryType::LOADER_DATA => Some("EfiLoaderData"),
            MemoryType::BOOT_SERVICES_CODE => Some("EfiBootServicesCode"),
            MemoryType::BOOT_SERVICES_DATA => Some("EfiBootServicesData"),
            MemoryType::RUNTIME_SERVICES_CODE => Some("EfiRuntimeServicesCode"),
            MemoryType::RUNTIME_SERVICES_DATA => Some("EfiRuntimeServicesData"),
            MemoryType::CONVENTIONAL => Some("EfiConventionalMemory"),
            MemoryType::UNUSABLE => Some("EfiUnusableMemory"),
            MemoryType::ACPI_RECLAIM => Some("EfiACPIReclaimMemory"),
            MemoryType::ACPI_NON_VOLATILE => Some("EfiACPIMemoryNVS"),
            MemoryType::MMIO => Some("EfiMemoryMappedIO"),
            MemoryType::MMIO_PORT_SPACE => Some("EfiMemoryMappedIOPortSpace"),
            MemoryType::PAL_CODE => Some("EfiPalCode"),
            MemoryType::PERSISTENT_MEMORY => Some("EfiPersistentMemory"),
            MemoryType::UNACCEPTED => Some("EfiUnacceptedMemoryType"),
            _ => None,
        }
    }

    /// Returns whether the number is one of those that the standard leaves to OEMs: from
    /// 0x70000000 to 0x7fffffff.
    #[must_use]
    #[inline]
    pub const fn is_oem(self) -> bool {
        matches!(self.0, 0x7000_0000..=0x7fff_ffff)
    }

    /// Returns whether the number is one of those that the standard leaves to loaders of operating
    /// systems: from 0x80000000 on.
    #[must_use]
    #[inline]
    pub const fn is_os_loader(self) -> bool {
        self.0 > 0x7fff_ffff
    }

    /// Returns whether the number is one of those that the standard leaves to OEMs or to loaders of
    /// operating systems.
    #[must_use]
    #[inline]
    pub const fn is_custom(self) -> bool {
        self.is_oem() || self.is_os_loader()
    }
}

/// Writes the name, such as `MemoryType(EfiLoaderCode)`, or the number, such as
/// `MemoryType(0x70000000)`.
impl fmt::Debug for MemoryType {
    fn fmt(&self, f: &mut fmt::Formatter<'_>) -> fmt::Result {
        match self.name() {
            Some(name) => write!(f, "MemoryType({name})"),
            None => write!(f, "MemoryType(0x{:x})", self.0),
        }
    }
}
