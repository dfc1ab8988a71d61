/* Nodes of device paths by their types (UEFI 2.10, 10.3): their fields, read and
 * written.
 *
 *     // The first partition that a path goes over.
 *     while (uefi_path_next_node(path, &at, &node) == UEFI_OK)
 *         if (uefi_hard_drive_node(&node, &drive) == UEFI_OK)
 *             return mount(drive.partition_number);
 *
 * A function uefi_NAME_node reads a node that uefi_path_next_node returned. It fails
 * with UEFI_OTHER_DATA, and only so, if the node has another type or subtype, or its
 * data aren't as long as those of the type.
 *
 * A function uefi_write_NAME_node writes the node with these fields to the beginning
 * of the buffer, which may not overlap what is read. The values of fields are any, if
 * nothing else is said. uefi_path_append_node takes nodes from uefi_path_next_node.
 */
#ifndef UEFI_FORMATS_NODE_H
#define UEFI_FORMATS_NODE_H

#include "path.h"

#ifdef __cplusplus
extern "C" {
#endif

/* A PCI function (10.3.2.1). */
typedef struct {
    uint8_t function;
    uint8_t device;
} UefiPciNode;

UEFI_CALL UEFI_NODISCARD UEFI_NONNULL UefiStatus
uefi_pci_node(const UefiNode *node, UefiPciNode *out);

UEFI_CALL UEFI_NODISCARD UEFI_NONNULL UefiStatus
uefi_write_pci_node(UefiBuffer buffer, const UefiPciNode *node, size_t *size);

/* A device of ACPI (10.3.3), without its names in texts. */
typedef struct {
    uint32_t hid; /* an EISA identifier, compressed: 0x0a0341d0 is PNP0A03 */
    uint32_t uid;
} UefiAcpiNode;

UEFI_CALL UEFI_NODISCARD UEFI_NONNULL UefiStatus
uefi_acpi_node(const UefiNode *node, UefiAcpiNode *out);

UEFI_CALL UEFI_NODISCARD UEFI_NONNULL UefiStatus
uefi_write_acpi_node(UefiBuffer buffer, const UefiAcpiNode *node, size_t *size);

/* A USB device, by its port (10.3.4.5). */
typedef struct {
    uint8_t parent_port_number;
    uint8_t interface_number;
} UefiUsbNode;

UEFI_CALL UEFI_NODISCARD UEFI_NONNULL UefiStatus
uefi_usb_node(const UefiNode *node, UefiUsbNode *out);

UEFI_CALL UEFI_NODISCARD UEFI_NONNULL UefiStatus
uefi_write_usb_node(UefiBuffer buffer, const UefiUsbNode *node, size_t *size);

/* A SATA device (10.3.4.6). */
typedef struct {
    uint16_t hba_port_number;
    uint16_t port_multiplier_port_number; /* 0xffff: none */
    uint16_t logical_unit_number;
} UefiSataNode;

UEFI_CALL UEFI_NODISCARD UEFI_NONNULL UefiStatus
uefi_sata_node(const UefiNode *node, UefiSataNode *out);

UEFI_CALL UEFI_NODISCARD UEFI_NONNULL UefiStatus
uefi_write_sata_node(UefiBuffer buffer, const UefiSataNode *node, size_t *size);

/* A namespace of an NVM Express device (10.3.4.22). */
typedef struct {
    uint64_t ieee_extended_unique_identifier; /* EUI-64, or 0 */
    uint32_t namespace_identifier;
} UefiNvmeNode;

UEFI_CALL UEFI_NODISCARD UEFI_NONNULL UefiStatus
uefi_nvme_node(const UefiNode *node, UefiNvmeNode *out);

UEFI_CALL UEFI_NODISCARD UEFI_NONNULL UefiStatus
uefi_write_nvme_node(UefiBuffer buffer, const UefiNvmeNode *node, size_t *size);

/* The address of a network interface (10.3.4.11). */
typedef struct {
    uint8_t mac_address[32]; /* with zeros after it */
    uint8_t interface_type;  /* RFC 3232: 0 or 1 for Ethernet, whose address has 6 bytes */
} UefiMacNode;

UEFI_CALL UEFI_NODISCARD UEFI_NONNULL UefiStatus
uefi_mac_node(const UefiNode *node, UefiMacNode *out);

UEFI_CALL UEFI_NODISCARD UEFI_NONNULL UefiStatus
uefi_write_mac_node(UefiBuffer buffer, const UefiMacNode *node, size_t *size);

/* An IPv4 connection (10.3.4.12). */
typedef struct {
    uint8_t local_ip_address[4];
    uint8_t remote_ip_address[4];
    uint16_t local_port;
    uint16_t remote_port;
    uint16_t protocol;         /* RFC 3232 */
    uint8_t ip_address_origin; /* 0: DHCP, 1: set by hand */
    uint8_t gateway_ip_address[4];
    uint8_t subnet_mask[4];
} UefiIpv4Node;

UEFI_CALL UEFI_NODISCARD UEFI_NONNULL UefiStatus
uefi_ipv4_node(const UefiNode *node, UefiIpv4Node *out);

UEFI_CALL UEFI_NODISCARD UEFI_NONNULL UefiStatus
uefi_write_ipv4_node(UefiBuffer buffer, const UefiIpv4Node *node, size_t *size);

/* An IPv6 connection (10.3.4.13). */
typedef struct {
    uint8_t local_ip_address[16];
    uint8_t remote_ip_address[16];
    uint16_t local_port;
    uint16_t remote_port;
    uint16_t protocol;         /* RFC 3232 */
    uint8_t ip_address_origin; /* 0: set by hand, 1: stateless, 2: stateful configuration */
    uint8_t prefix_length;     /* in bits */
    uint8_t gateway_ip_address[16];
} UefiIpv6Node;

UEFI_CALL UEFI_NODISCARD UEFI_NONNULL UefiStatus
uefi_ipv6_node(const UefiNode *node, UefiIpv6Node *out);

UEFI_CALL UEFI_NODISCARD UEFI_NONNULL UefiStatus
uefi_write_ipv6_node(UefiBuffer buffer, const UefiIpv6Node *node, size_t *size);

/* A URI (10.3.4.23): any bytes, also none. */
typedef struct {
    UefiBytes uri; /* RFC 3986, without a NUL */
} UefiUriNode;

UEFI_CALL UEFI_NODISCARD UEFI_NONNULL UefiStatus
uefi_uri_node(const UefiNode *node, UefiUriNode *out);

/* UEFI_TOO_LONG if the node would have more than 65535 bytes. */
UEFI_CALL UEFI_NODISCARD UEFI_NONNULL UefiStatus
uefi_write_uri_node(UefiBuffer buffer, const UefiUriNode *node, size_t *size);

/* A partition of a hard drive (10.3.5.1). */
typedef struct {
    uint64_t partition_start;  /* the first block */
    uint64_t partition_size;   /* in blocks */
    uint32_t partition_number; /* from 1 on, or 0: the whole drive */
    uint8_t partition_signature[16];
    uint8_t partition_format; /* 1: a master boot record, 2: a GUID partition table */
    uint8_t signature_type;   /* 0: none, 1: four bytes of a master boot record, 2: a GUID */
} UefiHardDriveNode;

UEFI_CALL UEFI_NODISCARD UEFI_NONNULL UefiStatus
uefi_hard_drive_node(const UefiNode *node, UefiHardDriveNode *out);

UEFI_CALL UEFI_NODISCARD UEFI_NONNULL UefiStatus
uefi_write_hard_drive_node(UefiBuffer buffer, const UefiHardDriveNode *node, size_t *size);

/* The path of a file (10.3.5.4): units of two bytes, little-endian, as uefi_ucs2_text
 * reads them. They are any, also without a NUL. Data of an odd length have none. */
typedef struct {
    UefiBytes path_name;
} UefiFilePathNode;

UEFI_CALL UEFI_NODISCARD UEFI_NONNULL UefiStatus
uefi_file_path_node(const UefiNode *node, UefiFilePathNode *out);

/* UEFI_OTHER_DATA if the name has an odd length, else UEFI_TOO_LONG if the node would
 * have more than 65535 bytes. */
UEFI_CALL UEFI_NODISCARD UEFI_NONNULL UefiStatus
uefi_write_file_path_node(UefiBuffer buffer, const UefiFilePathNode *node, size_t *size);

/* What a vendor describes: a device (10.3.2.4), a connection (10.3.4.17) or a medium
 * (10.3.5.3). The type is UEFI_HARDWARE_DEVICE_PATH, UEFI_MESSAGING_DEVICE_PATH or
 * UEFI_MEDIA_DEVICE_PATH. */
typedef struct {
    UefiBytes vendor_defined_data; /* what follows the GUID, also nothing */
    uint8_t vendor_guid[16];
    uint8_t device_type;
} UefiVendorNode;

UEFI_CALL UEFI_NODISCARD UEFI_NONNULL UefiStatus
uefi_vendor_node(const UefiNode *node, UefiVendorNode *out);

/* UEFI_OTHER_DATA if the type is none of the three, else UEFI_TOO_LONG if the node
 * would have more than 65535 bytes. */
UEFI_CALL UEFI_NODISCARD UEFI_NONNULL UefiStatus
uefi_write_vendor_node(UefiBuffer buffer, const UefiVendorNode *node, size_t *size);

#ifdef __cplusplus
}
#endif

#endif
