// @generated from proved source. It is not edited.

use crate::support::fallible::*;

use crate::node_rows::nodes::{fault_of, shown};
use crate::uefi_node::DevicePathNodeEnum;
use crate::uefi_node::DevicePathNodeEnum::*;
use crate::uefi_node::messaging::UsbWwid;
use crate::uefi_path::DevicePathNode;

/// Returns a USB device by its serial number, whose type has no `Debug`.
fn usb_wwid<'a>(node: DevicePathNode<'a>, value: &UsbWwid<'a>) -> Option<String> {
    if let Err(fault) = fault_of(node, value)? {
        return fallible_format!("{fault}").ok();
    }
    let (interface_number, vendor) = (value.interface_number, value.device_vendor_id);
    let product = value.device_product_id;
    let serial_number = value.serial_number.iter().fallible_collect::<Vec<u16>>().ok()?;
    fallible_format!("MessagingUsbWwid(UsbWwid {{ interface_number: {interface_number}, \
         device_vendor_id: {vendor}, device_product_id: {product}, \
         serial_number: {serial_number:?} }})"
    )
    .ok()
}

/// Returns the value of a node that is a connection, with the name of its variant.
pub(crate) fn messaging<'a>(
    node: DevicePathNode<'a>,
    value: DevicePathNodeEnum<'a>,
) -> Option<String> {
    match value {
        MessagingAtapi(value) => shown(node, "MessagingAtapi", &value),
        MessagingScsi(value) => shown(node, "MessagingScsi", &value),
        MessagingFibreChannel(value) => shown(node, "MessagingFibreChannel", &value),
        MessagingFibreChannelEx(value) => shown(node, "MessagingFibreChannelEx", &value),
        MessagingIeee1394(value) => shown(node, "MessagingIeee1394", &value),
        MessagingUsb(value) => shown(node, "MessagingUsb", &value),
        MessagingSata(value) => shown(node, "MessagingSata", &value),
        MessagingDeviceLogicalUnit(value) => shown(
            node,
            "MessagingDeviceLogicalUnit",
            &value,
        ),
        MessagingUsbWwid(value) => usb_wwid(node, &value),
        MessagingUsbClass(value) => shown(node, "MessagingUsbClass", &value),
        MessagingI2o(value) => shown(node, "MessagingI2o", &value),
        MessagingUart(value) => shown(node, "MessagingUart", &value),
        MessagingSasEx(value) => shown(node, "MessagingSasEx", &value),
        MessagingNvmeNamespace(value) => shown(node, "MessagingNvmeNamespace", &value),
        MessagingUfs(value) => shown(node, "MessagingUfs", &value),
        MessagingSd(value) => shown(node, "MessagingSd", &value),
        MessagingEmmc(value) => shown(node, "MessagingEmmc", &value),
        MessagingNvdimmNamespace(value) => shown(node, "MessagingNvdimmNamespace", &value),
        MessagingNvmeOfNamespace(value) => shown(node, "MessagingNvmeOfNamespace", &value),
        _ => network(node, value),
    }
}

/// The same of a connection of a network, or of a vendor.
fn network<'a>(
    node: DevicePathNode<'a>,
    value: DevicePathNodeEnum<'a>,
) -> Option<String> {
    match value {
        MessagingMacAddress(value) => shown(node, "MessagingMacAddress", &value),
        MessagingIpv4(value) => shown(node, "MessagingIpv4", &value),
        MessagingIpv6(value) => shown(node, "MessagingIpv6", &value),
        MessagingVlan(value) => shown(node, "MessagingVlan", &value),
        MessagingInfiniband(value) => shown(node, "MessagingInfiniband", &value),
        MessagingVendor(value) => shown(node, "MessagingVendor", &value),
        MessagingIscsi(value) => shown(node, "MessagingIscsi", &value),
        MessagingUri(value) => shown(node, "MessagingUri", &value),
        MessagingBluetooth(value) => shown(node, "MessagingBluetooth", &value),
        MessagingWifi(value) => shown(node, "MessagingWifi", &value),
        MessagingBluetoothLe(value) => shown(node, "MessagingBluetoothLe", &value),
        MessagingDns(value) => shown(node, "MessagingDns", &value),
        MessagingRestService(value) => shown(node, "MessagingRestService", &value),
        _ => fallible_format!("no type").ok(),
    }
}
