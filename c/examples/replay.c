/* Prints what the PCRs of a bank hold after the events of a log: `replay FILE ALGORITHM [LAST_ENTRY]`.
 *
 * A line is `PCR VALUE`, in hex, or `PCR undetermined by the event at OFFSET: REASON`. ALGORITHM is the TPM's number,
 * such as 11 for SHA-256. The exit status is 1 where the file isn't a whole log, or the bank can't be replayed, and 2
 * where the file can't be read.
 */
#include <inttypes.h>
#include <stdio.h>
#include <stdlib.h>

#include "uefi_formats.h"

static void put_pcr(uint32_t index, const UefiPcr *pcr) {
    UefiBytes text;
    printf("%2" PRIu32 " ", index);
    uefi_status_text(pcr->status, &text);
    if (pcr->status != UEFI_OK)
        printf("undetermined by the event at %zu: %.*s", pcr->offset, UEFI_TEXT(text));
    for (size_t i = 0; pcr->status == UEFI_OK && i < pcr->size; i++)
        printf("%02x", pcr->value[i]);
    putchar('\n');
}

/* Ends a message with the reason of a failure. */
static int fail(UefiStatus status) {
    UefiBytes text;
    uefi_status_text(status, &text);
    fprintf(stderr, "%.*s\n", UEFI_TEXT(text));
    return 1;
}

/* Where the last whole event of a log ends that isn't whole. */
static size_t end_of_events(UefiBytes bytes, size_t last_entry) {
    size_t offset = 0;
    /* A log that was cut at its last entry has whole events up to there. */
    return uefi_log_read(bytes, last_entry, &offset) == UEFI_OK ? bytes.n : offset;
}

static int replay(UefiBytes bytes, size_t last_entry, uint16_t algorithm) {
    static UefiWorkspace workspace;
    UefiPcr pcrs[24];
    UefiLog log;
    UefiStatus status = uefi_log(bytes, last_entry, &log);
    if (status != UEFI_OK) {
        fprintf(stderr, "replay: this is no whole log, at %zu: ", end_of_events(bytes, last_entry));
        return fail(status);
    }
    status = uefi_log_replay(&log, algorithm, UEFI_LOCALITY_OF_LOG, &workspace, pcrs);
    if (status != UEFI_OK) {
        fprintf(stderr, "replay: algorithm %u: ", algorithm);
        return fail(status);
    }
    for (uint32_t index = 0; index < 24; index++)
        put_pcr(index, &pcrs[index]);
    return 0;
}

int main(int argc, char **argv) {
    static uint8_t bytes[1 << 20];
    FILE *file = argc == 3 || argc == 4 ? fopen(argv[1], "rb") : NULL;
    if (!file)
        return 2;
    size_t size = fread(bytes, 1, sizeof bytes, file);
    int whole = feof(file);
    fclose(file);
    if (!whole)
        return 2;
    size_t last_entry = argc == 4 ? (size_t)strtoull(argv[3], NULL, 10) : UEFI_UNKNOWN_LAST_ENTRY;
    return replay(uefi_bytes(bytes, size), last_entry, (uint16_t)strtoull(argv[2], NULL, 10));
}
