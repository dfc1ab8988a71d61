/* A program without a C library, which ends with status 0: structures of nodes by their types are laid out as the header
 * says, and each type is read and written. The nodes are rows of crates/node_rows. Each is read as its fields; with
 * another type, subtype or length it is other data, and what was read stays. It is written where there is room, and where
 * a byte is lacking no byte is.
 */
#include "bare.h"

/* Bytes that count up from the first one. */
#define FOUR(first) (first), (first) + 1, (first) + 2, (first) + 3
#define SIXTEEN(first) FOUR(first), FOUR((first) + 4), FOUR((first) + 8), FOUR((first) + 12)

HAS(UefiPciNode, 2, device, 1, "a PCI function");
HAS(UefiAcpiNode, 8, uid, 4, "an ACPI device");
HAS(UefiUsbNode, 2, interface_number, 1, "a USB device");
HAS(UefiSataNode, 6, logical_unit_number, 4, "a SATA device");
HAS(UefiNvmeNode, EITHER(16, 12), namespace_identifier, 8, "an NVM Express namespace");
HAS(UefiMacNode, 33, interface_type, 32, "a network interface");
HAS(UefiIpv4Node, 24, gateway_ip_address, 15, "an IPv4 connection");
HAS(UefiIpv6Node, 56, gateway_ip_address, 40, "an IPv6 connection");
HAS(UefiUriNode, EITHER(16, 8), uri, 0, "a URI");
HAS(UefiHardDriveNode, 40, signature_type, 37, "a partition");
HAS(UefiFilePathNode, EITHER(16, 8), path_name, 0, "the path of a file");
HAS(UefiVendorNode, EITHER(40, 28), device_type, EITHER(32, 24), "what a vendor describes");

static bool same_bytes(UefiBytes one, UefiBytes other) {
    return one.n == other.n && are_same(one.at, other.at, one.n);
}

static bool same_pci(const UefiPciNode *one, const UefiPciNode *other) {
    return one->function == other->function && one->device == other->device;
}

static bool same_acpi(const UefiAcpiNode *one, const UefiAcpiNode *other) {
    return one->hid == other->hid && one->uid == other->uid;
}

static bool same_usb(const UefiUsbNode *one, const UefiUsbNode *other) {
    return one->parent_port_number == other->parent_port_number && one->interface_number == other->interface_number;
}

static bool same_sata(const UefiSataNode *one, const UefiSataNode *other) {
    return one->hba_port_number == other->hba_port_number && one->logical_unit_number == other->logical_unit_number
        && one->port_multiplier_port_number == other->port_multiplier_port_number;
}

static bool same_nvme(const UefiNvmeNode *one, const UefiNvmeNode *other) {
    return one->namespace_identifier == other->namespace_identifier
        && one->ieee_extended_unique_identifier == other->ieee_extended_unique_identifier;
}

static bool same_mac(const UefiMacNode *one, const UefiMacNode *other) {
    return are_same(one->mac_address, other->mac_address, 32) && one->interface_type == other->interface_type;
}

static bool same_ipv4(const UefiIpv4Node *one, const UefiIpv4Node *other) {
    return are_same(one->local_ip_address, other->local_ip_address, 4)
        && are_same(one->remote_ip_address, other->remote_ip_address, 4) && one->local_port == other->local_port
        && one->remote_port == other->remote_port && one->protocol == other->protocol
        && one->ip_address_origin == other->ip_address_origin
        && are_same(one->gateway_ip_address, other->gateway_ip_address, 4)
        && are_same(one->subnet_mask, other->subnet_mask, 4);
}

static bool same_ipv6(const UefiIpv6Node *one, const UefiIpv6Node *other) {
    return are_same(one->local_ip_address, other->local_ip_address, 16)
        && are_same(one->remote_ip_address, other->remote_ip_address, 16) && one->local_port == other->local_port
        && one->remote_port == other->remote_port && one->protocol == other->protocol
        && one->ip_address_origin == other->ip_address_origin && one->prefix_length == other->prefix_length
        && are_same(one->gateway_ip_address, other->gateway_ip_address, 16);
}

static bool same_hard_drive(const UefiHardDriveNode *one, const UefiHardDriveNode *other) {
    return one->partition_start == other->partition_start && one->partition_size == other->partition_size
        && one->partition_number == other->partition_number && one->partition_format == other->partition_format
        && are_same(one->partition_signature, other->partition_signature, 16)
        && one->signature_type == other->signature_type;
}

static bool same_file_path(const UefiFilePathNode *one, const UefiFilePathNode *other) {
    return same_bytes(one->path_name, other->path_name);
}

static bool same_vendor(const UefiVendorNode *one, const UefiVendorNode *other) {
    return same_bytes(one->vendor_defined_data, other->vendor_defined_data)
        && are_same(one->vendor_guid, other->vendor_guid, 16) && one->device_type == other->device_type;
}

static uint8_t room[80];

/* Reads and writes the node that the bytes are, whose fields these are; data of the length `other` are none of the type. */
#define NODE(name, type)                                                                                        \
    static int name##_node(UefiBytes bytes, size_t other, const type *fields, type *out) {                      \
        size_t at = 0, size = 0, n = bytes.n;                                                                   \
        UefiNode node;                                                                                          \
        if (uefi_path_next_node(bytes, &at, &node) != UEFI_OK || at != n)                                       \
            return 1;                                                                                           \
        if (uefi_##name##_node(&node, out) != UEFI_OK || !same_##name(out, fields))                             \
            return 2;                                                                                           \
        node.device_type ^= 0x80;                                                                               \
        if (uefi_##name##_node(&node, out) != UEFI_OTHER_DATA || !same_##name(out, fields))                     \
            return 3;                                                                                           \
        node.device_type ^= 0x80, node.sub_type ^= 0x80;                                                        \
        if (uefi_##name##_node(&node, out) != UEFI_OTHER_DATA || !same_##name(out, fields))                     \
            return 4;                                                                                           \
        node.sub_type ^= 0x80, node.data.n = other;                                                             \
        if (uefi_##name##_node(&node, out) != UEFI_OTHER_DATA || !same_##name(out, fields))                     \
            return 5;                                                                                           \
        room[0] = room[n - 1] = room[n] = 0xcc;                                                                 \
        if (uefi_write_##name##_node(uefi_buffer(room, n - 1), fields, &size) != UEFI_BUFFER_TOO_SMALL)         \
            return 6;                                                                                           \
        if (size != n || room[0] != 0xcc || room[n - 1] != 0xcc || room[n] != 0xcc)                             \
            return 7;                                                                                           \
        if (uefi_write_##name##_node(uefi_buffer(room, n + 1), fields, &size) != UEFI_OK || size != n)          \
            return 8;                                                                                           \
        return are_same(room, bytes.at, n) && room[n] == 0xcc ? 0 : 9;                                          \
    }

NODE(pci, UefiPciNode)
NODE(acpi, UefiAcpiNode)
NODE(usb, UefiUsbNode)
NODE(sata, UefiSataNode)
NODE(nvme, UefiNvmeNode)
NODE(mac, UefiMacNode)
NODE(ipv4, UefiIpv4Node)
NODE(ipv6, UefiIpv6Node)
NODE(hard_drive, UefiHardDriveNode)
NODE(file_path, UefiFilePathNode)
NODE(vendor, UefiVendorNode)

#define BYTES(text) uefi_bytes(text, sizeof text - 1)

static int hardware(void) {
    static const UefiPciNode pci = {.function = 0x1f, .device = 2};
    static const UefiAcpiNode acpi = {.hid = 0x4030201, .uid = 0x14131211};
    static const UefiUsbNode usb = {.parent_port_number = 1, .interface_number = 2};
    static const UefiSataNode sata = {0x201, 0x1211, 0x2221};
    static const UefiNvmeNode nvme = {.namespace_identifier = 0x4030201, .ieee_extended_unique_identifier = 0x1817161514131211};
    static UefiPciNode read_pci;
    static UefiAcpiNode read_acpi;
    static UefiUsbNode read_usb;
    static UefiSataNode read_sata;
    static UefiNvmeNode read_nvme;
    int status = pci_node(BYTES("\1\1\6\0\x1f\2"), 1, &pci, &read_pci);
    if (status)
        return status;
    status = acpi_node(BYTES("\2\1\14\0\1\2\3\4\x11\x12\x13\x14"), 7, &acpi, &read_acpi);
    if (status)
        return status + 10;
    status = usb_node(BYTES("\3\5\6\0\1\2"), 1, &usb, &read_usb);
    if (status)
        return status + 20;
    status = sata_node(BYTES("\3\x12\12\0\1\2\x11\x12\x21\x22"), 5, &sata, &read_sata);
    if (status)
        return status + 30;
    status = nvme_node(BYTES("\3\x17\20\0\1\2\3\4\x11\x12\x13\x14\x15\x16\x17\x18"), 11, &nvme, &read_nvme);
    return status ? status + 40 : 0;
}

static int network(void) {
    static const UefiMacNode mac = {.mac_address = {SIXTEEN('A'), SIXTEEN('a')}, .interface_type = 6};
    static const UefiIpv4Node ipv4 = {{FOUR('a')}, {FOUR('e')}, 0x201, 0x1211, 0x2221, 1, {FOUR('i')}, {FOUR('m')}};
    static const UefiIpv6Node ipv6 = {{SIXTEEN('A')}, {SIXTEEN('a')}, 0x201, 0x1211, 0x2221, 2, 64, {SIXTEEN('0')}};
    static UefiMacNode read_mac;
    static UefiIpv4Node read_ipv4;
    static UefiIpv6Node read_ipv6;
    int status = mac_node(BYTES("\3\13\45\0" "ABCDEFGHIJKLMNOPabcdefghijklmnop" "\6"), 32, &mac, &read_mac);
    if (status)
        return status + 50;
    status = ipv4_node(BYTES("\3\14\33\0" "abcdefgh" "\1\2\x11\x12\x21\x22\1" "ijklmnop"), 22, &ipv4, &read_ipv4);
    if (status)
        return status + 60;
    status = ipv6_node(BYTES("\3\15\74\0" "ABCDEFGHIJKLMNOPabcdefghijklmnop" "\1\2\x11\x12\x21\x22\2\x40" "0123456789:;<=>?"), 55, &ipv6, &read_ipv6);
    return status ? status + 70 : 0;
}

static int media(void) {
    static const UefiHardDriveNode drive = {0x1817161514131211, 0x2827262524232221, 0x4030201, {SIXTEEN('a')}, 1, 2};
    static UefiHardDriveNode read_drive;
    UefiFilePathNode file = {BYTES("\134\0a\0AB\0\0")}, read_file;
    int status = hard_drive_node(BYTES("\4\1\52\0\1\2\3\4\x11\x12\x13\x14\x15\x16\x17\x18\x21\x22\x23\x24\x25\x26\x27\x28" "abcdefghijklmnop" "\1\2"), 37, &drive, &read_drive);
    if (status)
        return status + 80;
    status = file_path_node(BYTES("\4\4\14\0\134\0a\0AB\0\0"), 7, &file, &read_file);
    if (status)
        return status + 90;
    file.path_name.n = 7;
    size_t size = 7;
    room[0] = 0xcc;
    if (uefi_write_file_path_node(uefi_buffer(room, sizeof room), &file, &size) != UEFI_OTHER_DATA || size || room[0] != 0xcc)
        return 100;
    file.path_name.n = 65532;
    if (uefi_write_file_path_node(uefi_buffer(room, sizeof room), &file, &size) != UEFI_TOO_LONG || size || room[0] != 0xcc)
        return 101;
    return 0;
}

/* The three types of what a vendor describes, and one that is none. */
static int vendors(void) {
    UefiVendorNode vendor = {BYTES("xyz"), {SIXTEEN('a')}, 1}, read;
    size_t size = 7;
    int status = vendor_node(BYTES("\1\4\27\0" "abcdefghijklmnopxyz"), 15, &vendor, &read);
    if (status)
        return status + 110;
    vendor.device_type = 3;
    status = vendor_node(BYTES("\3\12\27\0" "abcdefghijklmnopxyz"), 15, &vendor, &read);
    if (status)
        return status + 120;
    vendor.device_type = 4;
    status = vendor_node(BYTES("\4\3\27\0" "abcdefghijklmnopxyz"), 15, &vendor, &read);
    if (status)
        return status + 130;
    vendor.device_type = 2, room[0] = 0xcc;
    if (uefi_write_vendor_node(uefi_buffer(room, sizeof room), &vendor, &size) != UEFI_OTHER_DATA || size || room[0] != 0xcc)
        return 140;
    vendor.device_type = 1, vendor.vendor_defined_data.n = 65516;
    if (uefi_write_vendor_node(uefi_buffer(room, sizeof room), &vendor, &size) != UEFI_TOO_LONG || size || room[0] != 0xcc)
        return 141;
    return 0;
}

/* A URI, which may be empty: its data have any length. */
static int uris(void) {
    UefiNode node = {.data = BYTES("http://x"), .device_type = 3, .sub_type = 24};
    UefiUriNode uri = {BYTES("y")};
    size_t size = 7;
    node.sub_type = 23;
    if (uefi_uri_node(&node, &uri) != UEFI_OTHER_DATA || uri.uri.n != 1)
        return 150;
    node.sub_type = 24;
    if (uefi_uri_node(&node, &uri) != UEFI_OK || uri.uri.at != node.data.at || uri.uri.n != 8)
        return 151;
    room[0] = room[12] = 0xcc;
    if (uefi_write_uri_node(uefi_buffer(room, 11), &uri, &size) != UEFI_BUFFER_TOO_SMALL || size != 12 || room[0] != 0xcc)
        return 152;
    if (uefi_write_uri_node(uefi_buffer(room, 13), &uri, &size) != UEFI_OK || size != 12 || !are_same(room, "\3\30\14\0http://x\xcc", 13))
        return 153;
    uri.uri.n = 0;
    if (uefi_write_uri_node(uefi_buffer(room, 4), &uri, &size) != UEFI_OK || size != 4 || !are_same(room, "\3\30\4\0h", 5))
        return 154;
    uri.uri.n = 65532;
    return uefi_write_uri_node(uefi_buffer(room, 4), &uri, &size) != UEFI_TOO_LONG || size ? 155 : 0;
}

__attribute__((used)) static void run(void) {
    int status = hardware();
    status = status ? status : network();
    status = status ? status : media();
    status = status ? status : vendors();
    end(status ? status : uris());
}
