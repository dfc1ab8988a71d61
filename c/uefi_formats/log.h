/* Event logs of measured boot (TCG EFI Protocol Specification). */
#ifndef UEFI_FORMATS_LOG_H
#define UEFI_FORMATS_LOG_H

#include "status.h"

#ifdef __cplusplus
extern "C" {
#endif

/* What an event is about (TCG PC Client Platform Firmware Profile 1.06, 10.4.1 "Event Types"). */
#define UEFI_EV_PREBOOT_CERT 0x00000000u
#define UEFI_EV_POST_CODE 0x00000001u
#define UEFI_EV_UNUSED 0x00000002u
#define UEFI_EV_NO_ACTION 0x00000003u
#define UEFI_EV_SEPARATOR 0x00000004u
#define UEFI_EV_ACTION 0x00000005u
#define UEFI_EV_EVENT_TAG 0x00000006u
#define UEFI_EV_S_CRTM_CONTENTS 0x00000007u
#define UEFI_EV_S_CRTM_VERSION 0x00000008u
#define UEFI_EV_CPU_MICROCODE 0x00000009u
#define UEFI_EV_PLATFORM_CONFIG_FLAGS 0x0000000au
#define UEFI_EV_TABLE_OF_DEVICES 0x0000000bu
#define UEFI_EV_COMPACT_HASH 0x0000000cu
#define UEFI_EV_IPL 0x0000000du
#define UEFI_EV_IPL_PARTITION_DATA 0x0000000eu
#define UEFI_EV_NONHOST_CODE 0x0000000fu
#define UEFI_EV_NONHOST_CONFIG 0x00000010u
#define UEFI_EV_NONHOST_INFO 0x00000011u
#define UEFI_EV_OMIT_BOOT_DEVICE_EVENTS 0x00000012u
#define UEFI_EV_POST_CODE2 0x00000013u
#define UEFI_EV_EFI_VARIABLE_DRIVER_CONFIG 0x80000001u
#define UEFI_EV_EFI_VARIABLE_BOOT 0x80000002u
#define UEFI_EV_EFI_BOOT_SERVICES_APPLICATION 0x80000003u
#define UEFI_EV_EFI_BOOT_SERVICES_DRIVER 0x80000004u
#define UEFI_EV_EFI_RUNTIME_SERVICES_DRIVER 0x80000005u
#define UEFI_EV_EFI_GPT_EVENT 0x80000006u
#define UEFI_EV_EFI_ACTION 0x80000007u
#define UEFI_EV_EFI_PLATFORM_FIRMWARE_BLOB 0x80000008u
#define UEFI_EV_EFI_HANDOFF_TABLES 0x80000009u
#define UEFI_EV_EFI_PLATFORM_FIRMWARE_BLOB2 0x8000000au
#define UEFI_EV_EFI_HANDOFF_TABLES2 0x8000000bu
#define UEFI_EV_EFI_VARIABLE_BOOT2 0x8000000cu
#define UEFI_EV_EFI_GPT_EVENT2 0x8000000du
#define UEFI_EV_EFI_HCRTM_EVENT 0x80000010u
#define UEFI_EV_EFI_VARIABLE_AUTHORITY 0x800000e0u
#define UEFI_EV_EFI_SPDM_FIRMWARE_BLOB 0x800000e1u
#define UEFI_EV_EFI_SPDM_FIRMWARE_CONFIG 0x800000e2u
#define UEFI_EV_EFI_SPDM_DEVICE_POLICY 0x800000e3u
#define UEFI_EV_EFI_SPDM_DEVICE_AUTHORITY 0x800000e4u

/* The standard's name of a type of events, such as `EV_IPL`, in ASCII without a
 * NUL, or UEFI_NO_NAME. */
UEFI_CALL UEFI_NODISCARD UEFI_NONNULL UefiStatus
uefi_event_type_name(uint32_t event_type, UefiBytes *name);

/* Algorithms of digests (TCG Algorithm Registry, TPM_ALG_ID), and how many bytes each digest has. */
#define UEFI_TPM_ALG_SHA1 0x0004u     /* 20 */
#define UEFI_TPM_ALG_SHA256 0x000bu   /* 32 */
#define UEFI_TPM_ALG_SHA384 0x000cu   /* 48 */
#define UEFI_TPM_ALG_SHA512 0x000du   /* 64 */
#define UEFI_TPM_ALG_SM3_256 0x0012u  /* 32 */
#define UEFI_TPM_ALG_SHA3_256 0x0027u /* 32 */
#define UEFI_TPM_ALG_SHA3_384 0x0028u /* 48 */
#define UEFI_TPM_ALG_SHA3_512 0x0029u /* 64 */

/* The standard's name of an algorithm, such as `TPM_ALG_SHA256`, in ASCII without
 * a NUL, or UEFI_NO_NAME. */
UEFI_CALL UEFI_NODISCARD UEFI_NONNULL UefiStatus
uefi_algorithm_name(uint16_t algorithm, UefiBytes *name);

/* `last_entry` is the offset at which the last event starts, firmware's
 * EventLogLastEntry less EventLogLocation. An event that starts there may end
 * at any later offset of the log's bytes; an event that starts before it also
 * ends there or before; none starts after it. If it isn't known, pass
 * UEFI_UNKNOWN_LAST_ENTRY.
 *
 * A log without events, for which firmware's EventLogLastEntry is 0, has the
 * last entry UEFI_EMPTY_LOG. uefi_last_entry() makes either from what
 * GetEventLog returned.
 *
 * The area that has the log may be longer than the log. The bytes after the last
 * event, which firmware never wrote, are then all 0, or all 0xff: padding. */

/* Last entries at which no event starts: that of a log without events, and one
 * that isn't known. */
#define UEFI_EMPTY_LOG UEFI_CAST(size_t, 1)
#define UEFI_UNKNOWN_LAST_ENTRY UEFI_CAST(size_t, -1)

/* The last entry of the log at `location`, firmware's EventLogLocation, whose
 * EventLogLastEntry is `last`. */
static inline size_t uefi_last_entry(uint64_t location, uint64_t last) {
#ifdef __i386__
    return last ? UEFI_CAST(size_t, last - location) : UEFI_EMPTY_LOG;
#else
    return last ? last - location : UEFI_EMPTY_LOG;
#endif
}

/* A log of either version, which was judged whole, and how far it was read. A copy
 * keeps a place in it. The bytes aren't copied: they stay as they are while a log
 * or an event of them is used.
 *
 * Set no field. The calls that take a log or an event say what they return for
 * fields that no call gave. They read no byte outside of the slices. A call that
 * takes bytes and a last entry, such as uefi_log2_header, takes those of a log. */
typedef struct {
    UefiBytes bytes;
    UefiBytes rows;    /* of the table of the log's header: see below; none in version 1 */
    size_t last_entry; /* the offset at which the last event starts, also if it wasn't known */
    size_t offset;     /* at which the next event starts */
    uint32_t version;  /* 1 or 2 */
} UefiLog;

/* Judges a log, and gives it at its first event. A log that begins with a header is
 * of version 2, and its events follow the one that has the header. Another is of
 * version 1.
 *
 * UEFI_OK if the log is whole: it has an event, and the last one starts at
 * `last_entry`. What follows it isn't judged. If the last entry isn't known, the
 * log is whole if it has an event, and nothing but padding follows the last. A log
 * that was cut between two events, or after zeros with which an event begins, then
 * looks like a whole one of fewer events.
 *
 * Else the first of these that holds:
 *
 *     UEFI_TOO_MANY_ALGORITHMS    the header's table has more than 256 rows
 *     UEFI_NO_EVENT               there is no whole event, or none but the header's
 *     UEFI_LEFT_OVER              the log doesn't end with its last whole event
 *
 * uefi_log_read (log_at.h) says where that one ends. */
UEFI_CALL UEFI_NODISCARD UEFI_NONNULL UefiStatus
uefi_log(UefiBytes bytes, size_t last_entry, UefiLog *log);

typedef struct {
    UefiBytes event_data;
    UefiBytes digests; /* version 1: SHA-1's digest; version 2: for uefi_digest_next */
    UefiBytes rows;    /* for uefi_digest_next; none in version 1 */
    size_t offset;     /* in the log, at which the event starts */
    uint32_t digest_count;
    uint32_t pcr_index;
    uint32_t event_type;
    uint32_t version; /* 1 or 2 */
} UefiEvent;

/* The next event of a log. UEFI_END if the last one was read.
 *
 * Of fields that no call gave: UEFI_NO_EVENT if the version is neither 1 nor 2,
 * else what uefi_log1_next or uefi_log2_next (log_at.h) returns there. */
UEFI_CALL UEFI_NODISCARD UEFI_NONNULL UefiStatus
uefi_log_next(UefiLog *log, UefiEvent *event);

/* The first digest of an algorithm in an event. In version 1 it has that of SHA-1
 * alone. UEFI_NO_DIGEST if it has none of the algorithm.
 *
 * Of fields that no call gave: UEFI_NO_EVENT if the version is neither 1 nor 2,
 * UEFI_CUT if there aren't twenty bytes in version 1, and in version 2 what
 * uefi_digest_next returns where the digests before are of other algorithms. */
UEFI_CALL UEFI_NODISCARD UEFI_NONNULL UefiStatus
uefi_event_digest(const UefiEvent *event, uint16_t algorithm, UefiBytes *digest);

typedef struct {
    UefiBytes rows;   /* of the table of algorithms: see below */
    UefiBytes vendor; /* at most 255 bytes */
    size_t events_start; /* where the header's own bytes end: see uefi_log2_next */
    size_t event_end;    /* where the event ends that has the header, and the first of the log starts */
    uint32_t platform_class;
    uint8_t major;
    uint8_t minor;
    uint8_t errata;
    uint8_t uintn_size; /* UEFI_UINTN_FOUR or UEFI_UINTN_EIGHT; there is firmware of 64 bits that writes 0 */
} UefiLogHeader;

/* How many bytes a UINTN has, in some data of events: uefi_image, uefi_gpt_header. */
#define UEFI_UINTN_FOUR 1u
#define UEFI_UINTN_EIGHT 2u

typedef struct {
    UefiBytes bytes;
    uint16_t algorithm; /* such as UEFI_TPM_ALG_SHA256 */
} UefiDigest;

/* The table of a log's header says what size the digests of each algorithm
 * have. It is kept as the bytes of its rows, four each: the algorithm in two
 * bytes and the size in two, both little-endian. The first row of an algorithm
 * decides, and bytes after the last whole row are no row.
 *
 * The table of a real log has one to five rows. One of many rows makes a log
 * slow to read: a call for an event goes over them once, and once more for each
 * of its digests; a call for a digest goes over them twice. So a walk over a log
 * of E events with D digests each, under a table with R rows, takes up to
 * E * (3 * D + 2) * R steps. uefi_log refuses a table of more than 256 rows before
 * it reads an event. For a lower limit, read the header before, and write
 *
 *     if (header.rows.n / 4 > 8)
 *         return refused;
 */

/* The header of a version 2 log. It is in the log's first event, which is one of
 * version 1, of type EV_NO_ACTION. UEFI_NO_HEADER if the log has no such event, or
 * no event at all. uefi_log1_next, from 0 on, then says what the log begins with:
 * UEFI_OK if it is of version 1, or its header is damaged. */
UEFI_CALL UEFI_NODISCARD UEFI_NONNULL UefiStatus
uefi_log2_header(UefiBytes log, size_t last_entry, UefiLogHeader *out);

/* The next digest of an event of version 2, under its rows. UEFI_END at the end of
 * the bytes, UEFI_CUT, UEFI_UNKNOWN_ALGORITHM, or UEFI_TOO_MANY_ALGORITHMS as for
 * uefi_log2_next (log_at.h). The digests of an event that was read are whole. */
UEFI_CALL UEFI_NODISCARD UEFI_NONNULL UefiStatus
uefi_digest_next(UefiBytes digests, UefiBytes rows, size_t *offset, UefiDigest *out);

/* Writes an event of a version 1 log. UEFI_TOO_LONG if the data have 2^32 bytes or
 * more. */
UEFI_CALL UEFI_NODISCARD UEFI_NONNULL UefiStatus
uefi_write_event(UefiBuffer buffer, UefiBytes event_data, const uint8_t digest[UEFI_AT_LEAST(20)], uint32_t pcr_index,
                 uint32_t event_type, size_t *size);

/* Writes what firmware is handed to log an event (EFI_TCG2_EVENT). UEFI_TOO_LONG if
 * it has 2^32 bytes or more: 18, and the data. */
UEFI_CALL UEFI_NODISCARD UEFI_NONNULL UefiStatus
uefi_write_event_inputs(UefiBuffer buffer, UefiBytes event_data, uint32_t pcr_index, uint32_t event_type,
                        size_t *size);

#ifdef __cplusplus
}
#endif

#endif
