/* PCR replay: what the PCRs of a TPM hold after the events of a log. */
#ifndef UEFI_FORMATS_PCR_H
#define UEFI_FORMATS_PCR_H

#include "log.h"

#ifdef __cplusplus
extern "C" {
#endif

/* uefi_log_replay takes a log that uefi_log judged. The others take the whole events
 * of a log of either version, up to where it is cut or damaged, and don't say that
 * others are missing; they read one whose header is cut or damaged as one of
 * version 1. `last_entry` is as for uefi_log, and the log's length also says that it
 * isn't known. Then the log ends where padding starts, or else with the last whole
 * event.
 *
 * A bank is that of an algorithm, such as UEFI_TPM_ALG_SHA256: SHA-1, SHA-256,
 * SHA-384, SHA-512 or SM3. For another algorithm a function fails with
 * UEFI_NO_HASH.
 *
 * The locality is that at which the TPM was started, below 256; or it is
 * UEFI_LOCALITY_OF_LOG: then the log says it, or it is 0, and an event that
 * contradicts it makes PCR 0 undetermined. */

#define UEFI_LOCALITY_OF_LOG 0x100u

/* Memory in which a call replays a log. What it has before and after a call has no
 * meaning, and needn't be set. One call at a time uses it. Where the stack is
 * small, make it static, or allocate it. */
#define UEFI_WORKSPACE_SIZE 12288u

typedef struct {
    uint64_t words[UEFI_WORKSPACE_SIZE / 8];
} UefiWorkspace;

/* With the status UEFI_OK, `value` and `size`. With another the PCR is
 * undetermined, and the fields `index` and `offset` say by which event:
 *
 *     UEFI_NO_DIGEST, UEFI_TWO_DIGESTS, UEFI_OTHER_LENGTH
 *     UEFI_UNKNOWN_LOCALITY, UEFI_OTHER_LOCALITY, UEFI_LATE_LOCALITY    PCR 0 alone
 *
 * The other fields have no meaning. */
typedef struct {
    size_t size;   /* of the value in bytes, at most 64 */
    size_t index;  /* of the event in the log, from 0 on; the header's isn't counted */
    size_t offset; /* at which that event starts */
    UefiStatus status;
    uint8_t value[64]; /* in its first bytes */
} UefiPcr;

/* Replays a log: writes what each of the 24 PCRs holds after all its events, however
 * far it was read: a value, or the first event by which it is undetermined. Of the
 * log's fields it uses the bytes and the last entry. */
UEFI_CALL UEFI_NODISCARD UEFI_NONNULL UefiStatus
uefi_log_replay(const UefiLog *log, uint16_t algorithm, uint32_t locality, UefiWorkspace *workspace,
                UefiPcr pcrs[UEFI_AT_LEAST(24)]);

/* The same of a log by its bytes. */
UEFI_CALL UEFI_NODISCARD UEFI_NONNULL UefiStatus
uefi_replay(UefiBytes log, size_t last_entry, uint16_t algorithm, uint32_t locality, UefiWorkspace *workspace,
            UefiPcr pcrs[UEFI_AT_LEAST(24)]);

/* The same for one PCR. It takes as long as for all. At UEFI_NO_HASH, and at
 * UEFI_NO_PCR for a PCR above 23, `*out` is as it was. Else it is set, and its
 * `status` is returned. */
UEFI_CALL UEFI_NODISCARD UEFI_NONNULL UefiStatus
uefi_replay_pcr(UefiBytes log, size_t last_entry, uint16_t algorithm, uint32_t locality, uint32_t pcr_index,
                UefiWorkspace *workspace, UefiPcr *out);

/* The locality at which the TPM was started, as the log says: 4 with a hardware
 * CRTM, else the first that an event states. UEFI_NO_LOCALITY if it says nothing. */
UEFI_CALL UEFI_NODISCARD UEFI_NONNULL UefiStatus
uefi_startup_locality(UefiBytes log, size_t last_entry, uint8_t *out);

/* Whether the bank of the algorithm is active: an event that extends a PCR has
 * a digest of it. False if the bank can't be replayed. */
UEFI_CALL bool uefi_bank_is_active(UefiBytes log, size_t last_entry, uint16_t algorithm);

#ifdef __cplusplus
}
#endif

#endif
