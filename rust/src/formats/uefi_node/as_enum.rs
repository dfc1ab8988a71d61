// @generated from proved source. It is not edited.

use crate::formats::uefi_node::error::NodeConversionError;
use crate::formats::uefi_node::node_enum::DevicePathNodeEnum::{self, *};
use crate::formats::uefi_path::{DevicePathNode, DeviceSubType, DeviceType};

/// Returns the value that the node is, or why it is none.
#[inline]
pub(crate) fn as_enum(
    node: DevicePathNode<'_>,
) -> Result<DevicePathNodeEnum<'_>, NodeConversionError> {
    match node.device_type() {
        DeviceType::END => end(node),
        DeviceType::HARDWARE => hardware(node),
        DeviceType::ACPI => acpi(node),
        DeviceType::MESSAGING => messaging(node),
        DeviceType::MEDIA => media(node),
        DeviceType::BIOS_BOOT_SPEC => bios_boot_spec(node),
        _ => Err(NodeConversionError::UnsupportedType),
    }
}

/// The same for a node of the type END.
#[inline]
fn end(node: DevicePathNode<'_>) -> Result<DevicePathNodeEnum<'_>, NodeConversionError> {
    Ok(match node.sub_type() {
        DeviceSubType::END_INSTANCE => EndInstance(node.try_into()?),
        DeviceSubType::END_ENTIRE => EndEntire(node.try_into()?),
        _ => return Err(NodeConversionError::UnsupportedType),
    })
}

/// The same for a node of the type HARDWARE.
#[inline]
fn hardware(node: DevicePathNode<'_>) -> Result<DevicePathNodeEnum<'_>, NodeConversionError> {
    Ok(match node.sub_type() {
        DeviceSubType::HARDWARE_PCI => HardwarePci(node.try_into()?),
        DeviceSubType::HARDWARE_PCCARD => HardwarePccard(node.try_into()?),
        DeviceSubType::HARDWARE_MEMORY_MAPPED => HardwareMemoryMapped(node.try_into()?),
        DeviceSubType::HARDWARE_VENDOR => HardwareVendor(node.try_into()?),
        DeviceSubType::HARDWARE_CONTROLLER => HardwareController(node.try_into()?),
        DeviceSubType::HARDWARE_BMC => HardwareBmc(node.try_into()?),
        _ => return Err(NodeConversionError::UnsupportedType),
    })
}

/// The same for a node of the type ACPI.
#[inline]
fn acpi(node: DevicePathNode<'_>) -> Result<DevicePathNodeEnum<'_>, NodeConversionError> {
    Ok(match node.sub_type() {
        DeviceSubType::ACPI => AcpiAcpi(node.try_into()?),
        DeviceSubType::ACPI_EXPANDED => AcpiExpanded(node.try_into()?),
        DeviceSubType::ACPI_ADR => AcpiAdr(node.try_into()?),
        DeviceSubType::ACPI_NVDIMM => AcpiNvdimm(node.try_into()?),
        _ => return Err(NodeConversionError::UnsupportedType),
    })
}

/// The same for a node of the type MESSAGING.
#[inline]
fn messaging(node: DevicePathNode<'_>) -> Result<DevicePathNodeEnum<'_>, NodeConversionError> {
    Ok(match node.sub_type() {
        DeviceSubType::MESSAGING_ATAPI => MessagingAtapi(node.try_into()?),
        DeviceSubType::MESSAGING_SCSI => MessagingScsi(node.try_into()?),
        DeviceSubType::MESSAGING_FIBRE_CHANNEL => MessagingFibreChannel(node.try_into()?),
        DeviceSubType::MESSAGING_FIBRE_CHANNEL_EX => MessagingFibreChannelEx(node.try_into()?),
        DeviceSubType::MESSAGING_1394 => MessagingIeee1394(node.try_into()?),
        DeviceSubType::MESSAGING_USB => MessagingUsb(node.try_into()?),
        DeviceSubType::MESSAGING_SATA => MessagingSata(node.try_into()?),
        DeviceSubType::MESSAGING_USB_WWID => MessagingUsbWwid(node.try_into()?),
        DeviceSubType::MESSAGING_DEVICE_LOGICAL_UNIT => MessagingDeviceLogicalUnit(
            node.try_into()?,
        ),
        DeviceSubType::MESSAGING_USB_CLASS => MessagingUsbClass(node.try_into()?),
        DeviceSubType::MESSAGING_I2O => MessagingI2o(node.try_into()?),
        DeviceSubType::MESSAGING_MAC_ADDRESS => MessagingMacAddress(node.try_into()?),
        DeviceSubType::MESSAGING_IPV4 => MessagingIpv4(node.try_into()?),
        DeviceSubType::MESSAGING_IPV6 => MessagingIpv6(node.try_into()?),
        DeviceSubType::MESSAGING_VLAN => MessagingVlan(node.try_into()?),
        DeviceSubType::MESSAGING_INFINIBAND => MessagingInfiniband(node.try_into()?),
        DeviceSubType::MESSAGING_UART => MessagingUart(node.try_into()?),
        DeviceSubType::MESSAGING_VENDOR => MessagingVendor(node.try_into()?),
        DeviceSubType::MESSAGING_SCSI_SAS_EX => MessagingSasEx(node.try_into()?),
        DeviceSubType::MESSAGING_ISCSI => MessagingIscsi(node.try_into()?),
        DeviceSubType::MESSAGING_NVME_NAMESPACE => MessagingNvmeNamespace(node.try_into()?),
        DeviceSubType::MESSAGING_URI => MessagingUri(node.try_into()?),
        DeviceSubType::MESSAGING_UFS => MessagingUfs(node.try_into()?),
        DeviceSubType::MESSAGING_SD => MessagingSd(node.try_into()?),
        DeviceSubType::MESSAGING_BLUETOOTH => MessagingBluetooth(node.try_into()?),
        DeviceSubType::MESSAGING_WIFI => MessagingWifi(node.try_into()?),
        DeviceSubType::MESSAGING_EMMC => MessagingEmmc(node.try_into()?),
        DeviceSubType::MESSAGING_BLUETOOTH_LE => MessagingBluetoothLe(node.try_into()?),
        DeviceSubType::MESSAGING_DNS => MessagingDns(node.try_into()?),
        DeviceSubType::MESSAGING_NVDIMM_NAMESPACE => MessagingNvdimmNamespace(node.try_into()?),
        DeviceSubType::MESSAGING_REST_SERVICE => MessagingRestService(node.try_into()?),
        DeviceSubType::MESSAGING_NVME_OF_NAMESPACE => MessagingNvmeOfNamespace(node.try_into()?),
        _ => return Err(NodeConversionError::UnsupportedType),
    })
}

/// The same for a node of the type MEDIA.
#[inline]
fn media(node: DevicePathNode<'_>) -> Result<DevicePathNodeEnum<'_>, NodeConversionError> {
    Ok(match node.sub_type() {
        DeviceSubType::MEDIA_HARD_DRIVE => MediaHardDrive(node.try_into()?),
        DeviceSubType::MEDIA_CD_ROM => MediaCdRom(node.try_into()?),
        DeviceSubType::MEDIA_VENDOR => MediaVendor(node.try_into()?),
        DeviceSubType::MEDIA_FILE_PATH => MediaFilePath(node.try_into()?),
        DeviceSubType::MEDIA_PROTOCOL => MediaProtocol(node.try_into()?),
        DeviceSubType::MEDIA_PIWG_FIRMWARE_FILE => MediaPiwgFirmwareFile(node.try_into()?),
        DeviceSubType::MEDIA_PIWG_FIRMWARE_VOLUME => MediaPiwgFirmwareVolume(node.try_into()?),
        DeviceSubType::MEDIA_RELATIVE_OFFSET_RANGE => MediaRelativeOffsetRange(node.try_into()?),
        DeviceSubType::MEDIA_RAM_DISK => MediaRamDisk(node.try_into()?),
        _ => return Err(NodeConversionError::UnsupportedType),
    })
}

/// The same for a node of the type BIOS_BOOT_SPEC.
#[inline]
fn bios_boot_spec(node: DevicePathNode<'_>) -> Result<DevicePathNodeEnum<'_>, NodeConversionError> {
    Ok(match node.sub_type() {
        DeviceSubType::BIOS_BOOT_SPECIFICATION => BiosBootSpecBootSpecification(node.try_into()?),
        _ => return Err(NodeConversionError::UnsupportedType),
    })
}
