// @generated from proved source. It is not edited.

use crate::formats::uefi_node::as_enum::as_enum;
use crate::formats::uefi_node::error::NodeConversionError;
use crate::formats::uefi_node::{acpi, bios_boot_spec, end, hardware, media, messaging};
use crate::formats::uefi_path::DevicePathNode;

/// A node of a path, as the value of its type (UEFI 2.10, 10.3).
#[non_exhaustive]
#[derive(Clone, Copy, PartialEq, Eq, Debug)]
pub enum DevicePathNodeEnum<'a> {
    /// The end of an instance: another one follows.
    EndInstance(end::Instance),
    /// The end of the whole path.
    EndEntire(end::Entire),
    /// A PCI function.
    HardwarePci(hardware::Pci),
    /// A PC Card.
    HardwarePccard(hardware::Pccard),
    /// A range of memory.
    HardwareMemoryMapped(hardware::MemoryMapped),
    /// A device that its vendor describes.
    HardwareVendor(hardware::Vendor<'a>),
    /// A controller.
    HardwareController(hardware::Controller),
    /// A baseboard management controller (BMC).
    HardwareBmc(hardware::Bmc),
    /// A device that numbers of its ACPI object name.
    AcpiAcpi(acpi::Acpi),
    /// A device that numbers and strings of its ACPI object name.
    AcpiExpanded(acpi::Expanded<'a>),
    /// Video outputs, by the addresses (`_ADR`) of their ACPI objects.
    AcpiAdr(acpi::Adr<'a>),
    /// An NVDIMM.
    AcpiNvdimm(acpi::Nvdimm),
    /// An ATAPI device.
    MessagingAtapi(messaging::Atapi),
    /// A SCSI device.
    MessagingScsi(messaging::Scsi),
    /// A Fibre Channel device.
    MessagingFibreChannel(messaging::FibreChannel),
    /// A Fibre Channel device, with its addresses as bytes.
    MessagingFibreChannelEx(messaging::FibreChannelEx),
    /// An IEEE 1394 device.
    MessagingIeee1394(messaging::Ieee1394),
    /// A USB device, by its port.
    MessagingUsb(messaging::Usb),
    /// A SATA device.
    MessagingSata(messaging::Sata),
    /// A USB device, by its serial number.
    MessagingUsbWwid(messaging::UsbWwid<'a>),
    /// A logical unit of a device.
    MessagingDeviceLogicalUnit(messaging::DeviceLogicalUnit),
    /// USB devices of a class.
    MessagingUsbClass(messaging::UsbClass),
    /// An I2O device.
    MessagingI2o(messaging::I2o),
    /// The address of a network interface.
    MessagingMacAddress(messaging::MacAddress),
    /// An IPv4 connection.
    MessagingIpv4(messaging::Ipv4),
    /// An IPv6 connection.
    MessagingIpv6(messaging::Ipv6),
    /// A virtual LAN.
    MessagingVlan(messaging::Vlan),
    /// An InfiniBand device.
    MessagingInfiniband(messaging::Infiniband),
    /// A serial port.
    MessagingUart(messaging::Uart),
    /// A connection that its vendor describes.
    MessagingVendor(messaging::Vendor<'a>),
    /// A Serial Attached SCSI device.
    MessagingSasEx(messaging::SasEx),
    /// An iSCSI target.
    MessagingIscsi(messaging::Iscsi<'a>),
    /// A namespace of an NVM Express device.
    MessagingNvmeNamespace(messaging::NvmeNamespace),
    /// A URI.
    MessagingUri(messaging::Uri<'a>),
    /// A Universal Flash Storage device.
    MessagingUfs(messaging::Ufs),
    /// An SD card.
    MessagingSd(messaging::Sd),
    /// A Bluetooth device.
    MessagingBluetooth(messaging::Bluetooth),
    /// A wireless network.
    MessagingWifi(messaging::Wifi),
    /// An embedded MMC device.
    MessagingEmmc(messaging::Emmc),
    /// A Bluetooth Low Energy device.
    MessagingBluetoothLe(messaging::BluetoothLe),
    /// Addresses of DNS servers.
    MessagingDns(messaging::Dns<'a>),
    /// A namespace of an NVDIMM.
    MessagingNvdimmNamespace(messaging::NvdimmNamespace),
    /// A REST service.
    MessagingRestService(messaging::RestService<'a>),
    /// A namespace of an NVMe over Fabrics subsystem.
    MessagingNvmeOfNamespace(messaging::NvmeOfNamespace<'a>),
    /// A partition of a hard drive.
    MediaHardDrive(media::HardDrive),
    /// A boot entry of a CD-ROM.
    MediaCdRom(media::CdRom),
    /// A medium that its vendor describes.
    MediaVendor(media::Vendor<'a>),
    /// The path of a file.
    MediaFilePath(media::FilePath<'a>),
    /// A protocol of a medium.
    MediaProtocol(media::Protocol),
    /// A file of a firmware volume.
    MediaPiwgFirmwareFile(media::PiwgFirmwareFile<'a>),
    /// A firmware volume.
    MediaPiwgFirmwareVolume(media::PiwgFirmwareVolume<'a>),
    /// A range of a medium.
    MediaRelativeOffsetRange(media::RelativeOffsetRange),
    /// A RAM disk.
    MediaRamDisk(media::RamDisk),
    /// A boot device of the BIOS Boot Specification.
    BiosBootSpecBootSpecification(bios_boot_spec::BootSpecification<'a>),
}

/// Nodes by their types, for [`DevicePathNode`].
pub(crate) trait DevicePathNodeExt<'a> {
    /// Returns the value that the node is, of the type that its type and subtype state.
    ///
    /// # Errors
    ///
    /// - [`NodeConversionError::UnsupportedType`] if and only if UEFI 2.10 has no node of this type
    ///   and subtype.
    /// - [`NodeConversionError::Length`] if the data have another length than the type has.
    /// - [`NodeConversionError::Form`] if they have the length, and not the form of the type.
    fn as_enum(&self) -> Result<DevicePathNodeEnum<'a>, NodeConversionError>;
}

impl<'a> DevicePathNodeExt<'a> for DevicePathNode<'a> {
    #[inline]
    fn as_enum(&self) -> Result<DevicePathNodeEnum<'a>, NodeConversionError> {
        as_enum(*self)
    }
}
