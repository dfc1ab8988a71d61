// @generated from proved source. It is not edited.

use core::fmt;

/// The type of a device path node, its first byte (UEFI 2.10, 10.3).
///
/// Numbers without a constant here are valid too.
#[derive(Clone, Copy, PartialEq, Eq, PartialOrd, Ord, Hash)]
#[repr(transparent)]
pub struct DeviceType(pub u8);

impl DeviceType {
    /// A device on a bus, such as a PCI function (UEFI 2.10, 10.3.2).
    pub const HARDWARE: DeviceType = DeviceType(0x01);

    /// A device that an ACPI identifier names (UEFI 2.10, 10.3.3).
    pub const ACPI: DeviceType = DeviceType(0x02);

    /// A connection to a device outside the system, such as SATA, USB or TCP/IP (UEFI 2.10,
    /// 10.3.4).
    pub const MESSAGING: DeviceType = DeviceType(0x03);

    /// A part of a medium, such as a partition or a file (UEFI 2.10, 10.3.5).
    pub const MEDIA: DeviceType = DeviceType(0x04);

    /// A boot device of the BIOS Boot Specification (UEFI 2.10, 10.3.6).
    pub const BIOS_BOOT_SPEC: DeviceType = DeviceType(0x05);

    /// The end of an instance or of the whole path (UEFI 2.10, 10.3.1).
    pub const END: DeviceType = DeviceType(0x7f);

    /// Returns the standard's name of the type, such as `Hardware Device Path`; `None` for a number
    /// without a constant here.
    #[must_use]
    #[inline]
    pub const fn name(self) -> Option<&'static str> {
        match self {
            DeviceType::HARDWARE => Some("Hardware Device Path"),
            DeviceType::ACPI => Some("ACPI Device Path"),
            DeviceType::MESSAGING => Some("Messaging Device Path"),
            DeviceType::MEDIA => Some("Media Device Path"),
            DeviceType::BIOS_BOOT_SPEC => Some("BIOS Boot Specification Device Path"),
            DeviceType::END => Some("End of Hardware Device Path"),
            _ => None,
        }
    }
}

/// Writes the name, such as `DeviceType(Media Device Path)`, or the number, such as
/// `DeviceType(0xa0)`.
impl fmt::Debug for DeviceType {
    fn fmt(&self, f: &mut fmt::Formatter<'_>) -> fmt::Result {
        match self.name() {
            Some(name) => write!(f, "DeviceType({name})"),
            None => write!(f, "DeviceType(0x{:x})", self.0),
        }
    }
}

/// The subtype of a device path node, its second byte (UEFI 2.10, 10.3).
///
/// Its meaning depends on the type. Numbers without a constant here are valid too.
#[derive(Clone, Copy, PartialEq, Eq, PartialOrd, Ord, Hash, Debug)]
#[repr(transparent)]
pub struct DeviceSubType(pub u8);

impl DeviceSubType {
    /// With the type HARDWARE: a PCI function (UEFI 2.10, 10.3.2.1).
    pub const HARDWARE_PCI: DeviceSubType = DeviceSubType(0x01);

    /// With the type HARDWARE: a PC Card (UEFI 2.10, 10.3.2.2).
    pub const HARDWARE_PCCARD: DeviceSubType = DeviceSubType(0x02);

    /// With the type HARDWARE: a range of memory (UEFI 2.10, 10.3.2.3).
    pub const HARDWARE_MEMORY_MAPPED: DeviceSubType = DeviceSubType(0x03);

    /// With the type HARDWARE: a device that its vendor describes (UEFI 2.10, 10.3.2.4).
    pub const HARDWARE_VENDOR: DeviceSubType = DeviceSubType(0x04);

    /// With the type HARDWARE: a controller (UEFI 2.10, 10.3.2.5).
    pub const HARDWARE_CONTROLLER: DeviceSubType = DeviceSubType(0x05);

    /// With the type HARDWARE: a baseboard management controller (UEFI 2.10, 10.3.2.6).
    pub const HARDWARE_BMC: DeviceSubType = DeviceSubType(0x06);

    /// With the type ACPI: a device that a number names (UEFI 2.10, 10.3.3).
    pub const ACPI: DeviceSubType = DeviceSubType(0x01);

    /// With the type ACPI: a device that numbers and strings name (UEFI 2.10, 10.3.3).
    pub const ACPI_EXPANDED: DeviceSubType = DeviceSubType(0x02);

    /// With the type ACPI: addresses of video outputs (UEFI 2.10, 10.3.3.1).
    pub const ACPI_ADR: DeviceSubType = DeviceSubType(0x03);

    /// With the type ACPI: an NVDIMM (UEFI 2.10, 10.3.3.2).
    pub const ACPI_NVDIMM: DeviceSubType = DeviceSubType(0x04);

    /// With the type MESSAGING: an ATAPI device (UEFI 2.10, 10.3.4.1).
    pub const MESSAGING_ATAPI: DeviceSubType = DeviceSubType(0x01);

    /// With the type MESSAGING: a SCSI device (UEFI 2.10, 10.3.4.2).
    pub const MESSAGING_SCSI: DeviceSubType = DeviceSubType(0x02);

    /// With the type MESSAGING: a Fibre Channel device (UEFI 2.10, 10.3.4.3).
    pub const MESSAGING_FIBRE_CHANNEL: DeviceSubType = DeviceSubType(0x03);

    /// With the type MESSAGING: an IEEE 1394 device (UEFI 2.10, 10.3.4.4).
    pub const MESSAGING_1394: DeviceSubType = DeviceSubType(0x04);

    /// With the type MESSAGING: a USB device, by its port (UEFI 2.10, 10.3.4.5).
    pub const MESSAGING_USB: DeviceSubType = DeviceSubType(0x05);

    /// With the type MESSAGING: an I2O device (UEFI 2.10, 10.3.4.10).
    pub const MESSAGING_I2O: DeviceSubType = DeviceSubType(0x06);

    /// With the type MESSAGING: an InfiniBand device (UEFI 2.10, 10.3.4.15).
    pub const MESSAGING_INFINIBAND: DeviceSubType = DeviceSubType(0x09);

    /// With the type MESSAGING: a connection that its vendor describes (UEFI 2.10, 10.3.4.17).
    pub const MESSAGING_VENDOR: DeviceSubType = DeviceSubType(0x0a);

    /// With the type MESSAGING: the address of a network interface (UEFI 2.10, 10.3.4.11).
    pub const MESSAGING_MAC_ADDRESS: DeviceSubType = DeviceSubType(0x0b);

    /// With the type MESSAGING: an IPv4 connection (UEFI 2.10, 10.3.4.12).
    pub const MESSAGING_IPV4: DeviceSubType = DeviceSubType(0x0c);

    /// With the type MESSAGING: an IPv6 connection (UEFI 2.10, 10.3.4.13).
    pub const MESSAGING_IPV6: DeviceSubType = DeviceSubType(0x0d);

    /// With the type MESSAGING: a serial port (UEFI 2.10, 10.3.4.16).
    pub const MESSAGING_UART: DeviceSubType = DeviceSubType(0x0e);

    /// With the type MESSAGING: USB devices of a class (UEFI 2.10, 10.3.4.9).
    pub const MESSAGING_USB_CLASS: DeviceSubType = DeviceSubType(0x0f);

    /// With the type MESSAGING: a USB device, by its serial number (UEFI 2.10, 10.3.4.7).
    pub const MESSAGING_USB_WWID: DeviceSubType = DeviceSubType(0x10);

    /// With the type MESSAGING: a logical unit of a device (UEFI 2.10, 10.3.4.8).
    pub const MESSAGING_DEVICE_LOGICAL_UNIT: DeviceSubType = DeviceSubType(0x11);

    /// With the type MESSAGING: a SATA device (UEFI 2.10, 10.3.4.6).
    pub const MESSAGING_SATA: DeviceSubType = DeviceSubType(0x12);

    /// With the type MESSAGING: an iSCSI target (UEFI 2.10, 10.3.4.21).
    pub const MESSAGING_ISCSI: DeviceSubType = DeviceSubType(0x13);

    /// With the type MESSAGING: a virtual LAN (UEFI 2.10, 10.3.4.14).
    pub const MESSAGING_VLAN: DeviceSubType = DeviceSubType(0x14);

    /// With the type MESSAGING: a Fibre Channel device, with its addresses as bytes (UEFI 2.10,
    /// 10.3.4.3).
    pub const MESSAGING_FIBRE_CHANNEL_EX: DeviceSubType = DeviceSubType(0x15);

    /// With the type MESSAGING: a Serial Attached SCSI device (UEFI 2.10, 10.3.4.20).
    pub const MESSAGING_SCSI_SAS_EX: DeviceSubType = DeviceSubType(0x16);

    /// With the type MESSAGING: a namespace of an NVM Express device (UEFI 2.10, 10.3.4.22).
    pub const MESSAGING_NVME_NAMESPACE: DeviceSubType = DeviceSubType(0x17);

    /// With the type MESSAGING: a URI (UEFI 2.10, 10.3.4.23).
    pub const MESSAGING_URI: DeviceSubType = DeviceSubType(0x18);

    /// With the type MESSAGING: a Universal Flash Storage device (UEFI 2.10, 10.3.4.24).
    pub const MESSAGING_UFS: DeviceSubType = DeviceSubType(0x19);

    /// With the type MESSAGING: an SD card (UEFI 2.10, 10.3.4.25).
    pub const MESSAGING_SD: DeviceSubType = DeviceSubType(0x1a);

    /// With the type MESSAGING: a Bluetooth device (UEFI 2.10, 10.3.4.26).
    pub const MESSAGING_BLUETOOTH: DeviceSubType = DeviceSubType(0x1b);

    /// With the type MESSAGING: a wireless network (UEFI 2.10, 10.3.4.27).
    pub const MESSAGING_WIFI: DeviceSubType = DeviceSubType(0x1c);

    /// With the type MESSAGING: an embedded MMC device (UEFI 2.10, 10.3.4.28).
    pub const MESSAGING_EMMC: DeviceSubType = DeviceSubType(0x1d);

    /// With the type MESSAGING: a Bluetooth Low Energy device (UEFI 2.10, 10.3.4.29).
    pub const MESSAGING_BLUETOOTH_LE: DeviceSubType = DeviceSubType(0x1e);

    /// With the type MESSAGING: addresses of DNS servers (UEFI 2.10, 10.3.4.30).
    pub const MESSAGING_DNS: DeviceSubType = DeviceSubType(0x1f);

    /// With the type MESSAGING: a namespace of an NVDIMM (UEFI 2.10, 10.3.4.31).
    pub const MESSAGING_NVDIMM_NAMESPACE: DeviceSubType = DeviceSubType(0x20);

    /// With the type MESSAGING: a REST service (UEFI 2.10, 10.3.4.32).
    pub const MESSAGING_REST_SERVICE: DeviceSubType = DeviceSubType(0x21);

    /// With the type MESSAGING: a namespace of an NVMe-oF subsystem (UEFI 2.10, 10.3.4.33).
    pub const MESSAGING_NVME_OF_NAMESPACE: DeviceSubType = DeviceSubType(0x22);

    /// With the type MEDIA: a partition of a hard drive (UEFI 2.10, 10.3.5.1).
    pub const MEDIA_HARD_DRIVE: DeviceSubType = DeviceSubType(0x01);

    /// With the type MEDIA: a boot entry of a CD-ROM (UEFI 2.10, 10.3.5.2).
    pub const MEDIA_CD_ROM: DeviceSubType = DeviceSubType(0x02);

    /// With the type MEDIA: a medium that its vendor describes (UEFI 2.10, 10.3.5.3).
    pub const MEDIA_VENDOR: DeviceSubType = DeviceSubType(0x03);

    /// With the type MEDIA: the path of a file (UEFI 2.10, 10.3.5.4).
    pub const MEDIA_FILE_PATH: DeviceSubType = DeviceSubType(0x04);

    /// With the type MEDIA: a protocol of a medium (UEFI 2.10, 10.3.5.5).
    pub const MEDIA_PROTOCOL: DeviceSubType = DeviceSubType(0x05);

    /// With the type MEDIA: a file of a firmware volume (UEFI 2.10, 10.3.5.6).
    pub const MEDIA_PIWG_FIRMWARE_FILE: DeviceSubType = DeviceSubType(0x06);

    /// With the type MEDIA: a firmware volume (UEFI 2.10, 10.3.5.7).
    pub const MEDIA_PIWG_FIRMWARE_VOLUME: DeviceSubType = DeviceSubType(0x07);

    /// With the type MEDIA: a range of a medium (UEFI 2.10, 10.3.5.8).
    pub const MEDIA_RELATIVE_OFFSET_RANGE: DeviceSubType = DeviceSubType(0x08);

    /// With the type MEDIA: a RAM disk (UEFI 2.10, 10.3.5.9).
    pub const MEDIA_RAM_DISK: DeviceSubType = DeviceSubType(0x09);

    /// With the type BIOS_BOOT_SPEC: a boot device of the BIOS Boot Specification (UEFI 2.10,
    /// 10.3.6).
    pub const BIOS_BOOT_SPECIFICATION: DeviceSubType = DeviceSubType(0x01);

    /// With the type END: the instance ends here, and another one starts (UEFI 2.10, 10.3.1).
    pub const END_INSTANCE: DeviceSubType = DeviceSubType(0x01);

    /// With the type END: the whole path ends here (UEFI 2.10, 10.3.1).
    pub const END_ENTIRE: DeviceSubType = DeviceSubType(0xff);
}
