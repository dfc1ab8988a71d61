/* What the data of an event say (TCG PC Client Platform Firmware Profile 1.06, 10). */
#ifndef UEFI_FORMATS_EVENT_DATA_H
#define UEFI_FORMATS_EVENT_DATA_H

#include "status.h"

#ifdef __cplusplus
extern "C" {
#endif

/* The type of an event says which function reads its data:
 *
 *     UEFI_EV_EFI_VARIABLE_DRIVER_CONFIG, .._BOOT, .._BOOT2, .._AUTHORITY    uefi_variable
 *     UEFI_EV_EFI_BOOT_SERVICES_APPLICATION, .._DRIVER                      uefi_image
 *     UEFI_EV_EFI_RUNTIME_SERVICES_DRIVER                                   uefi_image
 *     UEFI_EV_EFI_PLATFORM_FIRMWARE_BLOB, UEFI_EV_POST_CODE                 uefi_blob
 *     UEFI_EV_EFI_PLATFORM_FIRMWARE_BLOB2, UEFI_EV_POST_CODE2               uefi_blob2
 *     UEFI_EV_IPL                                                           uefi_event_text
 *     UEFI_EV_S_CRTM_VERSION                                                uefi_event_crtm_version
 *     UEFI_EV_EVENT_TAG                                                     uefi_tagged_next
 *     UEFI_EV_EFI_GPT_EVENT, .._GPT_EVENT2                                  uefi_gpt_header, uefi_gpt_entry
 *
 * The value of a variable may be a load option (uefi_load_option), an order of
 * boot options (uefi_boot_order), a signature database
 * (uefi_signature_list_next) or, of the type UEFI_EV_EFI_VARIABLE_AUTHORITY, a
 * signature (uefi_signature).
 *
 * A function returns UEFI_OK if the data are that structure, whole and alone, and
 * UEFI_OTHER_DATA if they aren't. Where it returns other statuses, its comment
 * says so. The data of UEFI_EV_POST_CODE may also be a text.
 *
 * A parameter uintn_size is that of the log's UefiLogHeader: UEFI_UINTN_FOUR, as
 * in logs of 32-bit firmware. Every other number is read as UEFI_UINTN_EIGHT. Pass
 * that for a log without a header, which doesn't state it. */

typedef struct {
    UefiBytes name;  /* units of two bytes, little-endian, without a NUL; the description of a
                      * load option includes its own */
    UefiBytes value;
    uint8_t guid[16];
} UefiVariable;

/* The variable that the data are (UEFI_VARIABLE_DATA). */
UEFI_CALL UEFI_NODISCARD UEFI_NONNULL UefiStatus
uefi_variable(UefiBytes event_data, UefiVariable *out);

typedef struct {
    UefiBytes device_path; /* as many bytes as are stated, which needn't be a path */
    UefiBytes rest;        /* what follows; where firmware states a length of 0, the path is here */
    uint64_t location_in_memory;
    uint64_t length_in_memory;
    uint64_t link_time_address;
} UefiImage;

/* The image that the data are (UEFI_IMAGE_LOAD_EVENT). */
UEFI_CALL UEFI_NODISCARD UEFI_NONNULL UefiStatus
uefi_image(UefiBytes event_data, uint8_t uintn_size, UefiImage *out);

typedef struct {
    UefiBytes description; /* ASCII as a rule, at most 255 bytes; of uefi_blob no bytes */
    uint64_t base;
    uint64_t length;
} UefiBlob;

/* The blob of firmware that the data are (UEFI_PLATFORM_FIRMWARE_BLOB), and
 * that with a description (UEFI_PLATFORM_FIRMWARE_BLOB2). */
UEFI_CALL UEFI_NODISCARD UEFI_NONNULL UefiStatus
uefi_blob(UefiBytes event_data, UefiBlob *out);
UEFI_CALL UEFI_NODISCARD UEFI_NONNULL UefiStatus
uefi_blob2(UefiBytes event_data, UefiBlob *out);

typedef struct {
    UefiBytes text; /* without the NUL: UTF-8, or units of two bytes, little-endian */
    bool is_utf16;  /* units of Latin text: tabs, line ends, U+0020-7E, U+00A0-17F */
    bool has_nul;   /* a NUL follows the text */
} UefiEventText;

/* The text that the data are (10.4.1 EV_IPL): UTF-8, or else UTF-16, without a
 * NUL but at its end. UEFI_OTHER_DATA if they are no text. */
UEFI_CALL UEFI_NODISCARD UEFI_NONNULL UefiStatus
uefi_event_text(UefiBytes event_data, UefiEventText *out);

#define UEFI_CRTM_VERSION_UCS2 0u  /* units of two bytes, after which a NUL follows */
#define UEFI_CRTM_VERSION_GUID 1u  /* text.text is the sixteen bytes of a GUID */
#define UEFI_CRTM_VERSION_OTHER 2u /* another text, which the profile doesn't have */

typedef struct {
    UefiEventText text;
    uint32_t form;
} UefiCrtmVersion;

/* The version of the root of trust for measurement that the data are (10.4.1
 * EV_S_CRTM_VERSION). */
UEFI_CALL UEFI_NODISCARD UEFI_NONNULL UefiStatus
uefi_event_crtm_version(UefiBytes event_data, UefiCrtmVersion *out);

typedef struct {
    UefiBytes value;
    uint32_t id; /* says what the value is */
} UefiTaggedEvent;

/* The next tagged event of the data (TCG_PCClientTaggedEvent), UEFI_END at the
 * end of the data, or UEFI_CUT. */
UEFI_CALL UEFI_NODISCARD UEFI_NONNULL UefiStatus
uefi_tagged_next(UefiBytes event_data, size_t *offset, UefiTaggedEvent *out);

/* The number at an index of an order of boot options, the value of BootOrder:
 * 1 is that of Boot0001. UEFI_OTHER_DATA if the bytes are odd in number, UEFI_END
 * if the order has no such index. */
UEFI_CALL UEFI_NODISCARD UEFI_NONNULL UefiStatus
uefi_boot_order(UefiBytes bytes, size_t index, uint16_t *out);

/* ---- Signature databases (UEFI 2.10, 32.4.1): the values of PK, KEK, db and dbx ----
 *
 * A database is lists, one after another. It is whole if the walk over them ends
 * with UEFI_END. */

typedef struct {
    UefiBytes header;     /* its meaning depends on the type; empty for the standard's types */
    UefiBytes signatures; /* for uefi_signature_next */
    uint32_t signature_size; /* of each, with the sixteen bytes of its owner */
    uint8_t signature_type[16]; /* a GUID */
} UefiSignatureList;

/* The next list (EFI_SIGNATURE_LIST), UEFI_END at the end of the bytes, or
 * UEFI_BAD_SIGNATURE_LIST. */
UEFI_CALL UEFI_NODISCARD UEFI_NONNULL UefiStatus
uefi_signature_list_next(UefiBytes lists, size_t *offset, UefiSignatureList *out);

typedef struct {
    UefiBytes value; /* a hash or a certificate, as the type of the list says */
    uint8_t owner[16];
} UefiSignature;

/* The signature that all the bytes are (EFI_SIGNATURE_DATA), such as the value
 * of a variable that was measured as an authority. UEFI_OTHER_DATA if they are
 * fewer than sixteen. */
UEFI_CALL UEFI_NODISCARD UEFI_NONNULL UefiStatus
uefi_signature(UefiBytes bytes, UefiSignature *out);

/* The next signature of a list, whose signatures and signature_size these are
 * (EFI_SIGNATURE_DATA). UEFI_BAD_SIGNATURE_SIZE if the size is below 16, also at
 * the end; else UEFI_END at the end of the bytes; else UEFI_CUT. The signatures
 * of a list that was read are whole. */
UEFI_CALL UEFI_NODISCARD UEFI_NONNULL UefiStatus
uefi_signature_next(UefiBytes signatures, uint32_t signature_size, size_t *offset, UefiSignature *out);

/* ---- Partition tables (10.4.1 UEFI_GPT_DATA; UEFI 2.10, 5.3) ---- */

typedef struct {
    uint64_t signature;
    uint64_t my_lba;
    uint64_t alternate_lba;
    uint64_t first_usable_lba;
    uint64_t last_usable_lba;
    uint64_t partition_entry_lba;
    uint32_t revision;
    uint32_t header_size;
    uint32_t header_crc32;
    uint32_t reserved;
    uint32_t entry_count; /* on the disk; firmware measures those that are used */
    uint32_t entry_size;  /* at least 128 */
    uint32_t entries_crc32;
    uint8_t disk_guid[16];
} UefiGptHeader;

/* The header of the partition table that the data of an event are, of type
 * UEFI_EV_EFI_GPT_EVENT. No CRC32 is compared. */
UEFI_CALL UEFI_NODISCARD UEFI_NONNULL UefiStatus
uefi_gpt_header(UefiBytes event_data, uint8_t uintn_size, UefiGptHeader *out);

typedef struct {
    UefiBytes rest; /* what an entry of more than 128 bytes has */
    uint64_t first_lba;
    uint64_t last_lba;
    uint64_t attributes;
    uint8_t type_guid[16];
    uint8_t unique_guid[16];
    uint16_t name[36]; /* with a NUL if it is shorter */
} UefiGptEntry;

/* The entry at an index of that table. UEFI_OTHER_DATA if the data are no table,
 * UEFI_END if it has no such entry. A call goes over the entries before it. */
UEFI_CALL UEFI_NODISCARD UEFI_NONNULL UefiStatus
uefi_gpt_entry(UefiBytes event_data, uint8_t uintn_size, size_t index, UefiGptEntry *out);

#ifdef __cplusplus
}
#endif

#endif
