/* Memory maps (UEFI 2.10, 7.2 GetMemoryMap). */
#ifndef UEFI_FORMATS_MAP_H
#define UEFI_FORMATS_MAP_H

#include "status.h"

#ifdef __cplusplus
extern "C" {
#endif

/* What memory is used for (EFI_MEMORY_TYPE). */
#define UEFI_EfiReservedMemoryType 0u
#define UEFI_EfiLoaderCode 1u
#define UEFI_EfiLoaderData 2u
#define UEFI_EfiBootServicesCode 3u
#define UEFI_EfiBootServicesData 4u
#define UEFI_EfiRuntimeServicesCode 5u
#define UEFI_EfiRuntimeServicesData 6u
#define UEFI_EfiConventionalMemory 7u /* free memory */
#define UEFI_EfiUnusableMemory 8u
#define UEFI_EfiACPIReclaimMemory 9u
#define UEFI_EfiACPIMemoryNVS 10u
#define UEFI_EfiMemoryMappedIO 11u
#define UEFI_EfiMemoryMappedIOPortSpace 12u
#define UEFI_EfiPalCode 13u
#define UEFI_EfiPersistentMemory 14u
#define UEFI_EfiUnacceptedMemoryType 15u

/* The standard's name of a type, such as `EfiLoaderCode`, in ASCII without a
 * NUL, or UEFI_NO_NAME. */
UEFI_CALL UEFI_NODISCARD UEFI_NONNULL UefiStatus
uefi_memory_type_name(uint32_t memory_type, UefiBytes *name);

typedef struct {
    uint32_t memory_type; /* what the memory is used for, such as UEFI_EfiConventionalMemory */
    uint32_t padding;
    uint64_t phys_start;
    uint64_t virt_start;
    uint64_t page_count; /* of 4096 bytes each */
    uint64_t attribute;
} UefiDescriptor;

/* UEFI_OK if all the bytes are a map whose descriptors are `stride` bytes apart,
 * firmware's DescriptorSize: at least 40, a multiple of 8, and a divisor of
 * their number. Else UEFI_NOT_MAP. 0 bytes are a map too, without descriptors. */
UEFI_CALL UEFI_NODISCARD UefiStatus
uefi_map_check(UefiBytes map, size_t stride);

/* Descriptor `index` of the map. UEFI_NOT_MAP as for uefi_map_check, UEFI_END if
 * the map has no such descriptor. */
UEFI_CALL UEFI_NODISCARD UEFI_NONNULL UefiStatus
uefi_map_entry(UefiBytes map, size_t stride, size_t index, UefiDescriptor *out);

/* Writes descriptor `index` of the map that all of the buffer is: its forty
 * bytes. The statuses are those of uefi_map_entry. */
UEFI_CALL UEFI_NODISCARD UEFI_NONNULL UefiStatus
uefi_map_set(UefiBuffer map, size_t stride, size_t index, const UefiDescriptor *entry);

/* Whether the bytes are a map in which no descriptor begins at a lower
 * physical address than the one before it. */
UEFI_CALL bool uefi_map_is_sorted(UefiBytes map, size_t stride);

#ifdef __cplusplus
}
#endif

#endif
