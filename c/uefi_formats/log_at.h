/* Logs by offsets: a log that is damaged is read up to the damage, and judged by its caller. */
#ifndef UEFI_FORMATS_LOG_AT_H
#define UEFI_FORMATS_LOG_AT_H

#include "log.h"

#ifdef __cplusplus
extern "C" {
#endif

/* The last entry is as for uefi_log, and the log's length also says that it isn't
 * known. UefiLog is for a log that is whole, and keeps these numbers itself.
 *
 * A walk calls the function for the next event, from the first event on, until it
 * returns another status than UEFI_OK. That status says why the walk ended, and
 * UEFI_END alone doesn't say that the last event was read: a log that is cut
 * between two events ends so too.
 *
 * A walk with the log's own last entry ends before padding. A walk without one
 * reads zeros as events whose fields are all 0. So end it where all bytes from the
 * offset on are 0, or all are 0xff: look before each call. uefi_log_read and the
 * functions in pcr.h do so themselves. */

/* Judges a log as uefi_log does, with the same statuses. At UEFI_LEFT_OVER alone
 * `*offset` is set, to the end of the last whole event. uefi_log1_next or
 * uefi_log2_next says what is there. */
UEFI_CALL UEFI_NODISCARD UEFI_NONNULL UefiStatus
uefi_log_read(UefiBytes log, size_t last_entry, size_t *offset);

typedef struct {
    UefiBytes event_data;
    uint32_t pcr_index;
    uint32_t event_type;
    uint8_t digest[20];
} UefiEvent1;

/* The next event of a version 1 log (TCG_PCR_EVENT).
 *
 *     UEFI_END                   the last event was read, the log has none, or its
 *                                bytes end here
 *     UEFI_CUT                   the bytes end inside the event
 *     UEFI_CROSSES_LAST_ENTRY    the event starts before `last_entry`, and ends
 *                                after it */
UEFI_CALL UEFI_NODISCARD UEFI_NONNULL UefiStatus
uefi_log1_next(UefiBytes log, size_t last_entry, size_t *offset, UefiEvent1 *out);

typedef struct {
    UefiBytes digests; /* for uefi_digest_next */
    UefiBytes event_data;
    uint32_t digest_count;
    uint32_t pcr_index;
    uint32_t event_type;
} UefiEvent2;

/* The next event of a version 2 log (TCG_PCR_EVENT2) under the header's table,
 * whose rows these are. Its statuses are those of uefi_log1_next, and:
 *
 *     UEFI_UNKNOWN_ALGORITHM      a digest is of an algorithm that has no row
 *     UEFI_TOO_MANY_DIGESTS       the event states more digests than there are rows
 *     UEFI_TOO_MANY_ALGORITHMS    there are 2^32 rows or more, as no header has
 *
 * Start at the header's `event_end`. Firmware writes the first event there, and
 * Linux and tpm2-tools read it there. `events_start` is for programs that must
 * list what the Rust crate `uefi` lists, which starts there. The two differ only
 * where other bytes follow the header in its event. */
UEFI_CALL UEFI_NODISCARD UEFI_NONNULL UefiStatus
uefi_log2_next(UefiBytes log, size_t last_entry, UefiBytes rows, size_t *offset, UefiEvent2 *out);

/* The first digest of an algorithm in the event of a version 2 log that starts
 * at the offset: where uefi_log2_next read it from, and not where it ended.
 * UEFI_NO_EVENT if none can be read there, UEFI_NO_DIGEST if it has no digest of the
 * algorithm. */
UEFI_CALL UEFI_NODISCARD UEFI_NONNULL UefiStatus
uefi_log2_digest(UefiBytes log, size_t last_entry, UefiBytes rows, size_t offset, uint16_t algorithm,
                 UefiBytes *digest);

#ifdef __cplusplus
}
#endif

#endif
