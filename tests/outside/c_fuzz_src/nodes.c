/* Nodes by their types, read and written. */
#include "fuzz.h"

enum { HARDWARE = 1, ACPI = 2, MESSAGING = 3, MEDIA = 4 };

static bool is(const UefiNode *node, int type, int sub_type) {
    return node->device_type == type && node->sub_type == sub_type;
}

static bool has(const UefiNode *node, int type, int sub_type, size_t n) {
    return is(node, type, sub_type) && node->data.n == n;
}

static uint8_t *number(uint8_t *at, uint64_t number, size_t n) {
    for (size_t i = 0; i < n; i++) at[i] = number >> 8 * i;
    return at + n;
}

static uint8_t *bytes(uint8_t *at, const void *from, size_t n) { return memcpy(at, from, n), at + n; }

/* A node whose data end there. */
static UefiStatus written(UefiBuffer buffer, int type, int sub_type, const uint8_t *data, const uint8_t *end, size_t *size) {
    UefiNode node = {{data, end - data}, type, sub_type};
    return plain_write_node(buffer, &node, size);
}

static UefiStatus plain_pci_node(const UefiNode *node, UefiPciNode *out) {
    if (!has(node, HARDWARE, 1, 2)) return UEFI_OTHER_DATA;
    return *out = (UefiPciNode){node->data.at[0], node->data.at[1]}, UEFI_OK;
}

static UefiStatus plain_write_pci_node(UefiBuffer buffer, const UefiPciNode *node, size_t *size) {
    const uint8_t b[] = {node->function, node->device};
    return written(buffer, HARDWARE, 1, b, b + 2, size);
}

static UefiStatus plain_acpi_node(const UefiNode *node, UefiAcpiNode *out) {
    if (!has(node, ACPI, 1, 8)) return UEFI_OTHER_DATA;
    return *out = (UefiAcpiNode){u32_at(node->data.at), u32_at(node->data.at + 4)}, UEFI_OK;
}

static UefiStatus plain_write_acpi_node(UefiBuffer buffer, const UefiAcpiNode *node, size_t *size) {
    uint8_t b[8];
    return written(buffer, ACPI, 1, b, number(number(b, node->hid, 4), node->uid, 4), size);
}

static UefiStatus plain_usb_node(const UefiNode *node, UefiUsbNode *out) {
    if (!has(node, MESSAGING, 5, 2)) return UEFI_OTHER_DATA;
    return *out = (UefiUsbNode){node->data.at[0], node->data.at[1]}, UEFI_OK;
}

static UefiStatus plain_write_usb_node(UefiBuffer buffer, const UefiUsbNode *node, size_t *size) {
    const uint8_t b[] = {node->parent_port_number, node->interface_number};
    return written(buffer, MESSAGING, 5, b, b + 2, size);
}

static UefiStatus plain_sata_node(const UefiNode *node, UefiSataNode *out) {
    const uint8_t *b = node->data.at;
    if (!has(node, MESSAGING, 18, 6)) return UEFI_OTHER_DATA;
    return *out = (UefiSataNode){u16_at(b), u16_at(b + 2), u16_at(b + 4)}, UEFI_OK;
}

static UefiStatus plain_write_sata_node(UefiBuffer buffer, const UefiSataNode *node, size_t *size) {
    uint8_t b[6], *at = number(b, node->hba_port_number, 2);
    at = number(number(at, node->port_multiplier_port_number, 2), node->logical_unit_number, 2);
    return written(buffer, MESSAGING, 18, b, at, size);
}

static UefiStatus plain_nvme_node(const UefiNode *node, UefiNvmeNode *out) {
    const uint8_t *b = node->data.at;
    if (!has(node, MESSAGING, 23, 12)) return UEFI_OTHER_DATA;
    return *out = (UefiNvmeNode){.namespace_identifier = u32_at(b), .ieee_extended_unique_identifier = u64_at(b + 4)}, UEFI_OK;
}

static UefiStatus plain_write_nvme_node(UefiBuffer buffer, const UefiNvmeNode *node, size_t *size) {
    uint8_t b[12], *at = number(b, node->namespace_identifier, 4);
    return written(buffer, MESSAGING, 23, b, number(at, node->ieee_extended_unique_identifier, 8), size);
}

static UefiStatus plain_mac_node(const UefiNode *node, UefiMacNode *out) {
    if (!has(node, MESSAGING, 11, 33)) return UEFI_OTHER_DATA;
    memcpy(out->mac_address, node->data.at, 32), out->interface_type = node->data.at[32];
    return UEFI_OK;
}

static UefiStatus plain_write_mac_node(UefiBuffer buffer, const UefiMacNode *node, size_t *size) {
    uint8_t b[33];
    return written(buffer, MESSAGING, 11, b, number(bytes(b, node->mac_address, 32), node->interface_type, 1), size);
}

static UefiStatus plain_ipv4_node(const UefiNode *node, UefiIpv4Node *out) {
    const uint8_t *b = node->data.at;
    if (!has(node, MESSAGING, 12, 23)) return UEFI_OTHER_DATA;
    memcpy(out->local_ip_address, b, 4), memcpy(out->remote_ip_address, b + 4, 4);
    out->local_port = u16_at(b + 8), out->remote_port = u16_at(b + 10), out->protocol = u16_at(b + 12);
    out->ip_address_origin = b[14];
    memcpy(out->gateway_ip_address, b + 15, 4), memcpy(out->subnet_mask, b + 19, 4);
    return UEFI_OK;
}

static UefiStatus plain_write_ipv4_node(UefiBuffer buffer, const UefiIpv4Node *node, size_t *size) {
    uint8_t b[23], *at = bytes(bytes(b, node->local_ip_address, 4), node->remote_ip_address, 4);
    at = number(number(number(at, node->local_port, 2), node->remote_port, 2), node->protocol, 2);
    at = number(at, node->ip_address_origin, 1);
    at = bytes(bytes(at, node->gateway_ip_address, 4), node->subnet_mask, 4);
    return written(buffer, MESSAGING, 12, b, at, size);
}

static UefiStatus plain_ipv6_node(const UefiNode *node, UefiIpv6Node *out) {
    const uint8_t *b = node->data.at;
    if (!has(node, MESSAGING, 13, 56)) return UEFI_OTHER_DATA;
    memcpy(out->local_ip_address, b, 16), memcpy(out->remote_ip_address, b + 16, 16);
    out->local_port = u16_at(b + 32), out->remote_port = u16_at(b + 34), out->protocol = u16_at(b + 36);
    out->ip_address_origin = b[38], out->prefix_length = b[39];
    memcpy(out->gateway_ip_address, b + 40, 16);
    return UEFI_OK;
}

static UefiStatus plain_write_ipv6_node(UefiBuffer buffer, const UefiIpv6Node *node, size_t *size) {
    uint8_t b[56], *at = bytes(bytes(b, node->local_ip_address, 16), node->remote_ip_address, 16);
    at = number(number(number(at, node->local_port, 2), node->remote_port, 2), node->protocol, 2);
    at = number(number(at, node->ip_address_origin, 1), node->prefix_length, 1);
    return written(buffer, MESSAGING, 13, b, bytes(at, node->gateway_ip_address, 16), size);
}

static UefiStatus plain_uri_node(const UefiNode *node, UefiUriNode *out) {
    if (!is(node, MESSAGING, 24)) return UEFI_OTHER_DATA;
    return *out = (UefiUriNode){node->data}, UEFI_OK;
}

static UefiStatus plain_write_uri_node(UefiBuffer buffer, const UefiUriNode *node, size_t *size) {
    return written(buffer, MESSAGING, 24, node->uri.at, node->uri.at + node->uri.n, size);
}

static UefiStatus plain_hard_drive_node(const UefiNode *node, UefiHardDriveNode *out) {
    const uint8_t *b = node->data.at;
    if (!has(node, MEDIA, 1, 38)) return UEFI_OTHER_DATA;
    out->partition_number = u32_at(b), out->partition_start = u64_at(b + 4), out->partition_size = u64_at(b + 12);
    memcpy(out->partition_signature, b + 20, 16);
    out->partition_format = b[36], out->signature_type = b[37];
    return UEFI_OK;
}

static UefiStatus plain_write_hard_drive_node(UefiBuffer buffer, const UefiHardDriveNode *node, size_t *size) {
    uint8_t b[38], *at = number(number(number(b, node->partition_number, 4), node->partition_start, 8), node->partition_size, 8);
    at = number(bytes(at, node->partition_signature, 16), node->partition_format, 1);
    return written(buffer, MEDIA, 1, b, number(at, node->signature_type, 1), size);
}

static UefiStatus plain_file_path_node(const UefiNode *node, UefiFilePathNode *out) {
    if (!is(node, MEDIA, 4) || node->data.n % 2) return UEFI_OTHER_DATA;
    return *out = (UefiFilePathNode){node->data}, UEFI_OK;
}

static UefiStatus plain_write_file_path_node(UefiBuffer buffer, const UefiFilePathNode *node, size_t *size) {
    if (node->path_name.n % 2) return *size = 0, UEFI_OTHER_DATA;
    return written(buffer, MEDIA, 4, node->path_name.at, node->path_name.at + node->path_name.n, size);
}

/* The subtype of a vendor's nodes by their type, or -1. */
static int vendors(int type) { return type == HARDWARE ? 4 : type == MESSAGING ? 10 : type == MEDIA ? 3 : -1; }

static UefiStatus plain_vendor_node(const UefiNode *node, UefiVendorNode *out) {
    if (vendors(node->device_type) != node->sub_type || node->data.n < 16) return UEFI_OTHER_DATA;
    out->device_type = node->device_type, out->vendor_defined_data = from(node->data, 16);
    memcpy(out->vendor_guid, node->data.at, 16);
    return UEFI_OK;
}

static UefiStatus plain_write_vendor_node(UefiBuffer buffer, const UefiVendorNode *node, size_t *size) {
    static uint8_t room[1 << 17];
    int sub_type = vendors(node->device_type);
    if (sub_type < 0) return *size = 0, UEFI_OTHER_DATA;
    uint8_t *end = bytes(bytes(room, node->vendor_guid, 16), node->vendor_defined_data.at, node->vendor_defined_data.n);
    return written(buffer, node->device_type, sub_type, room, end, size);
}

/* Types with the length of their data, or of the least, and how many bytes more there can be. */
static const struct {
    uint8_t type, sub_type, size, more;
} kinds[] = {
    {HARDWARE, 1, 2, 0}, {ACPI, 1, 8, 0}, {MESSAGING, 5, 2, 0}, {MESSAGING, 18, 6, 0}, {MESSAGING, 23, 12, 0},
    {MESSAGING, 11, 33, 0}, {MESSAGING, 12, 23, 0}, {MESSAGING, 13, 56, 0}, {MESSAGING, 24, 0, 40}, {MEDIA, 1, 38, 0},
    {MEDIA, 4, 0, 40}, {HARDWARE, 4, 16, 20}, {MESSAGING, 10, 16, 20}, {MEDIA, 3, 16, 20},
};

/* A node of a type, mostly, whose data are at the end of the bytes. */
static UefiNode make_node(UefiBytes part) {
    size_t kind = below(sizeof kinds / sizeof *kinds), n = kinds[kind].size + below(kinds[kind].more + 1);
    if (!(any() & 7)) n = below(n + 3);
    if (n > part.n) n = part.n;
    UefiNode node = {from(part, part.n - n), kinds[kind].type, kinds[kind].sub_type};
    if (!(any() & 15)) node.device_type = any() & 7;
    if (!(any() & 15)) node.sub_type = any() & 31;
    return node;
}

static void read(const UefiNode *node) {
    READ(UefiPciNode, pci_node, node), READ(UefiAcpiNode, acpi_node, node), READ(UefiUsbNode, usb_node, node);
    READ(UefiSataNode, sata_node, node), READ(UefiNvmeNode, nvme_node, node), READ(UefiMacNode, mac_node, node);
    READ(UefiIpv4Node, ipv4_node, node), READ(UefiIpv6Node, ipv6_node, node), READ(UefiUriNode, uri_node, node);
    READ(UefiHardDriveNode, hard_drive_node, node), READ(UefiFilePathNode, file_path_node, node);
    READ(UefiVendorNode, vendor_node, node);
}

/* A structure of numbers alone, with any fields. */
#define ANY_OF(type)                                                                                \
    ({                                                                                              \
        type value_;                                                                                \
        for (size_t i_ = 0; i_ < sizeof value_; i_++) ((uint8_t *)&value_)[i_] = any() & 3 ? any() : 0; \
        value_;                                                                                     \
    })
#define WRITE_ANY(type, call)                                                                       \
    ({                                                                                              \
        type node_ = ANY_OF(type);                                                                  \
        WRITE(call, buffer, &node_, &size);                                                         \
    })

void nodes_of(UefiBytes part) {
    static const uint8_t long_data[1 << 16];
    UefiNode node = make_node(part);
    read(&node);
    WRITE_ANY(UefiPciNode, write_pci_node), WRITE_ANY(UefiAcpiNode, write_acpi_node);
    WRITE_ANY(UefiUsbNode, write_usb_node), WRITE_ANY(UefiSataNode, write_sata_node);
    WRITE_ANY(UefiNvmeNode, write_nvme_node), WRITE_ANY(UefiMacNode, write_mac_node);
    WRITE_ANY(UefiIpv4Node, write_ipv4_node), WRITE_ANY(UefiIpv6Node, write_ipv6_node);
    UefiHardDriveNode drive = ANY_OF(UefiHardDriveNode);
    drive.signature_type &= 3;
    if (any() & 1) memset(drive.partition_signature + 4 * (any() & 1), 0, 12);
    WRITE(write_hard_drive_node, buffer, &drive, &size);
    UefiBytes text = any() & 31 ? from(part, part.n - below(part.n < 60 ? part.n + 1 : 60)) : (UefiBytes){long_data, 65510 + below(24)};
    UefiUriNode uri = {text};
    UefiFilePathNode file = {text};
    UefiVendorNode vendor = {.vendor_defined_data = text, .device_type = any() & 7};
    memcpy(vendor.vendor_guid, &(uint64_t[2]){any(), any()}, 16);
    WRITE(write_uri_node, buffer, &uri, &size), WRITE(write_file_path_node, buffer, &file, &size);
    WRITE(write_vendor_node, buffer, &vendor, &size);
}
