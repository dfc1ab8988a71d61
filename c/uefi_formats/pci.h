/* PCI resources (UEFI 2.10, 14.2 Configuration; ACPI 6.5, 6.4.3.5.1). */
#ifndef UEFI_FORMATS_PCI_H
#define UEFI_FORMATS_PCI_H

#include "status.h"

#ifdef __cplusplus
extern "C" {
#endif

typedef struct {
    uint64_t granularity;
    uint64_t address_min;
    uint64_t address_max;
    uint64_t translation_offset;
    uint64_t address_length;
    uint8_t range_type; /* 0: memory, 1: I/O ports, 2: bus numbers */
    uint8_t general_flags;
    uint8_t type_specific_flags;
} UefiResource;

/* The next resource of a list. UEFI_END at the end tag: the list is whole, and
 * any bytes may follow. Else UEFI_NO_END, UEFI_CUT or UEFI_UNKNOWN_TAG. */
UEFI_CALL UEFI_NODISCARD UEFI_NONNULL UefiStatus
uefi_pci_next(UefiBytes list, size_t *offset, UefiResource *out);

#ifdef __cplusplus
}
#endif

#endif
