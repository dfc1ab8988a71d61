/* Quotes of a TPM, and the digest that an event log leads to. */
#ifndef UEFI_FORMATS_QUOTE_H
#define UEFI_FORMATS_QUOTE_H

#include "pcr.h"

#ifdef __cplusplus
extern "C" {
#endif

/* A TPM quotes PCRs: it signs which PCRs it was asked for, a digest of their
 * values, and a nonce (TPM 2.0 Library, Part 2, TPMS_ATTEST with
 * TPMS_QUOTE_INFO). `message` is the bytes that it signs, without the two of
 * a TPM2B_ATTEST's size.
 *
 *     static UefiWorkspace workspace;
 *     UefiQuote quote;
 *     UefiPcrSelection selection;
 *     UefiQuoteDigest found;
 *     uint32_t lacking = 0xff; // PCR 0 to 7
 *     size_t cursor = 0;
 *     UefiStatus status = uefi_quote(message, &quote);
 *     if (status != UEFI_OK)
 *         return no_quote(status);
 *     while (uefi_quote_next_selection(message, &cursor, &selection) == UEFI_OK)
 *         if (selection.algorithm == UEFI_TPM_ALG_SHA256)
 *             lacking &= ~selection.pcrs;
 *     // `log` is a UefiLog, which uefi_log judged.
 *     status = uefi_quote_digest(message, UEFI_HASH_OF_SIZE, log.bytes, log.last_entry, UEFI_LOCALITY_OF_LOG,
 *                                &workspace, &found);
 *     bool agrees = !lacking && is_same(quote.extra_data, nonce) && status == UEFI_OK
 *         && is_same(quote.pcr_digest, uefi_bytes(found.value, found.size));
 *
 * Nothing here verifies a signature, or knows your nonce and which PCRs you need.
 * Agreement says something of a machine only if you ask for each of these:
 *
 *   - The signature over `message` is that of a key which you know to be its
 *     TPM's, and which is restricted: another key signs any message.
 *   - `extra_data` is the nonce that you sent, of one byte at least.
 *   - Each PCR that you need is selected, in a bank that firmware extends. What
 *     isn't selected may be anything, software may extend another bank by
 *     what a log says, and any log agrees with a quote that selects no PCR.
 *   - uefi_log says that the log is whole.
 *
 * A TPM that is sound writes a few selections. For a message of N bytes
 * uefi_quote_digest takes about N steps for the quote and up to 6 × N hashes of
 * 64 bytes, and a walk over its selections up to N × N / 9 steps: refuse a
 * message of more than 1024 bytes. */

typedef struct {
    UefiBytes qualified_signer; /* the qualified name of the key that signs */
    UefiBytes extra_data;       /* the nonce */
    UefiBytes pcr_digest;       /* of the values of the selected PCRs */
    uint64_t clock;             /* in milliseconds; it counts while the TPM is powered */
    uint64_t firmware_version;  /* its meaning is the vendor's choice */
    uint32_t reset_count;       /* since the TPM was last cleared */
    uint32_t restart_count;     /* of restarts and resumes, since it was last reset or cleared */
    bool safe;                  /* the TPM never reported a greater value of the clock */
} UefiQuote;

/* Reads the quote that the bytes are, whole and alone. Else it fails with the first
 * fault, where they are read from the first to the last:
 *
 *     UEFI_NOT_GENERATED    no TPM made them, or they begin with their size (TPM2B_ATTEST)
 *     UEFI_NOT_QUOTE        the TPM signed another structure
 *     UEFI_BAD_SAFE, UEFI_BAD_SELECTION, UEFI_TOO_SHORT, UEFI_LEFT_OVER
 */
UEFI_CALL UEFI_NODISCARD UEFI_NONNULL UefiStatus
uefi_quote(UefiBytes message, UefiQuote *out);

typedef struct {
    uint32_t pcrs;      /* bit n is PCR n; none above 23 */
    uint16_t algorithm; /* of the bank, such as UEFI_TPM_ALG_SHA256 */
} UefiPcrSelection;

/* The next selection of PCRs, in the quote's order. `cursor` is its index: 0 for
 * the first. UEFI_END after the last, and the fault of uefi_quote if the bytes are no
 * quote. A bank may be in several, and a selection may have no PCR. */
UEFI_CALL UEFI_NODISCARD UEFI_NONNULL UefiStatus
uefi_quote_next_selection(UefiBytes message, size_t *cursor, UefiPcrSelection *out);

/* With the status UEFI_OK, `value` and `size` are set. With UEFI_NO_BANK it is
 * `algorithm`; with a fault of UefiPcr, `algorithm`, `pcr_index`, `index` and
 * `offset`. The other fields have no meaning. */
typedef struct {
    size_t size;        /* of the digest in bytes, at most 64 */
    size_t index;       /* of the event in the log by which the PCR is undetermined, from 0 on */
    size_t offset;      /* at which that event starts */
    UefiStatus status;
    uint32_t pcr_index; /* the first selected PCR that has no value */
    uint16_t algorithm; /* of its bank */
    uint8_t value[64];  /* in its first bytes */
} UefiQuoteDigest;

/* For `hash`: the hash function by the digest's length. 32 bytes are SHA-256. */
#define UEFI_HASH_OF_SIZE 0u

/* The digest of the PCRs that a log leads to, over those that the quote
 * selects, in its order; or why there is none. `out->value` is then to be
 * compared with the quote's `pcr_digest`. The log, its last entry and the
 * locality are as for uefi_replay: if uefi_startup_locality returns
 * UEFI_NO_LOCALITY, try 0, 3 and 4.
 *
 * `hash` is the algorithm of the quote's digest, which is that of the key's
 * signature, or UEFI_HASH_OF_SIZE. At a fault of uefi_quote, and at UEFI_NO_HASH,
 * `*out` is as it was. Else it is set, and its `status` is returned. */
UEFI_CALL UEFI_NODISCARD UEFI_NONNULL UefiStatus
uefi_quote_digest(UefiBytes message, uint16_t hash, UefiBytes log, size_t last_entry, uint32_t locality,
                  UefiWorkspace *workspace, UefiQuoteDigest *out);

#ifdef __cplusplus
}
#endif

#endif
