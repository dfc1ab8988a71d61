/* Records of files and volumes (UEFI 2.10, 13.5 GetInfo). */
#ifndef UEFI_FORMATS_RECORD_H
#define UEFI_FORMATS_RECORD_H

#include "time.h"

#ifdef __cplusplus
extern "C" {
#endif

/* `written` is how many bytes of the buffer firmware wrote. A name is its
 * bytes: units of two bytes, little-endian, of which the last is zero and no
 * other. At UEFI_BUFFER_TOO_SMALL `*needed` is the size that the buffer needs.
 * UEFI_NOT_NUL_TERMINATED if no name ends in the bytes that were written: then
 * `*needed` is 0. */

typedef struct {
    UefiBytes name;
    uint64_t size; /* what the record states; it isn't trusted */
    uint64_t file_size;
    uint64_t physical_size;
    uint64_t attribute;
    UefiTime create_time; /* the times may have any fields */
    UefiTime last_access_time;
    UefiTime modification_time;
} UefiFileInfo;

UEFI_CALL UEFI_NODISCARD UEFI_NONNULL UefiStatus
uefi_file_info(UefiBytes buffer, size_t written, UefiFileInfo *out, size_t *needed);

typedef struct {
    UefiBytes label;
    uint64_t size;
    uint64_t volume_size;
    uint64_t free_space;
    uint32_t block_size;
    bool read_only;
} UefiFileSystemInfo;

UEFI_CALL UEFI_NODISCARD UEFI_NONNULL UefiStatus
uefi_file_system_info(UefiBytes buffer, size_t written, UefiFileSystemInfo *out, size_t *needed);

UEFI_CALL UEFI_NODISCARD UEFI_NONNULL UefiStatus
uefi_volume_label(UefiBytes buffer, size_t written, UefiBytes *label, size_t *needed);

/* These write a record. A name is all of its bytes, up to and with the NUL, and
 * UCS-2 text: uefi_ucs2_units makes it of UTF-8. UEFI_NOT_TEXT if it isn't. The
 * record states its own size, and `size` of the structure isn't read. The times may
 * have any fields, and get zeros as padding.
 *
 * The bytes after the name stay as they were, also those that round the size of
 * the first two up to a multiple of 8, and so do the bytes 9 to 15 of the second,
 * which have no meaning. */
UEFI_CALL UEFI_NODISCARD UEFI_NONNULL UefiStatus
uefi_write_file_info(UefiBuffer buffer, const UefiFileInfo *info, size_t *size);
UEFI_CALL UEFI_NODISCARD UEFI_NONNULL UefiStatus
uefi_write_file_system_info(UefiBuffer buffer, const UefiFileSystemInfo *info, size_t *size);
UEFI_CALL UEFI_NODISCARD UEFI_NONNULL UefiStatus
uefi_write_volume_label(UefiBuffer buffer, UefiBytes label, size_t *size);

#ifdef __cplusplus
}
#endif

#endif
