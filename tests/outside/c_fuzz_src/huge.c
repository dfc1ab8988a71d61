/* What is read of memory of more than 2^32 bytes, which are zeros. */
#include "fuzz.h"

#if HAS_HUGE
#include <sys/mman.h>

static UefiBytes zeros(size_t n) {
    void *at = mmap(0, n, PROT_READ, MAP_PRIVATE | MAP_ANONYMOUS | MAP_NORESERVE, -1, 0);
    if (at == MAP_FAILED) exit(2);
    return uefi_bytes(at, n);
}

static UefiStatus plain_write_event(UefiBuffer buffer, UefiBytes data, const uint8_t *digest, uint32_t pcr, uint32_t type, size_t *size) {
    (void)buffer, (void)digest, (void)pcr, (void)type;
    *size = data.n >> 32 ? 0 : data.n + 32;
    return data.n >> 32 ? UEFI_TOO_LONG : UEFI_BUFFER_TOO_SMALL;
}

static UefiStatus plain_write_event_inputs(UefiBuffer buffer, UefiBytes data, uint32_t pcr, uint32_t type, size_t *size) {
    size_t length = data.n + 18;
    (void)buffer, (void)pcr, (void)type;
    *size = length >> 32 ? 0 : length;
    return length >> 32 ? UEFI_TOO_LONG : UEFI_BUFFER_TOO_SMALL;
}

/* Data near to the most bytes that an event can state. */
static void long_events(UefiBytes all) {
    static const uint8_t digest[20];
    for (size_t n = ((size_t)1 << 32) - 20; n <= ((size_t)1 << 32) + 1; n++) {
        UefiBytes data = {all.at, n};
        WRITE_TO(100, write_event, buffer, data, digest, 1, 2, &size);
        WRITE_TO(100, write_event_inputs, buffer, data, 1, 2, &size);
    }
}

/* Tables of 2^32 rows, and of one more; also at the end of the bytes. One of fewer is gone over, which takes long. */
static void long_tables(UefiBytes all) {
    static const uint8_t event[16];
    UefiBytes log = {event, sizeof event};
    for (size_t more = 0; more <= 1; more++)
        for (size_t start = 0; start <= sizeof event; start += sizeof event) {
            UefiBytes rows = {all.at, 4 * (((size_t)1 << 32) + more)};
            size_t at = start;
            NEXT(UefiEvent2, at, log2_next, log, log.n, rows), at = start;
            NEXT(UefiDigest, at, digest_next, log, rows);
            READ(UefiBytes, log2_digest, log, log.n, rows, start, 1);
            UefiLog value = {log, rows, log.n, start, 2};
            UefiEvent next = {.digests = from(log, start), .rows = rows, .version = 2};
            READ(UefiBytes, event_digest, &next, 1);
            BOTH(next, value.offset, log_next, &value, &next);
        }
}

void huge(void) {
    UefiBytes all = zeros(((size_t)1 << 34) + 4);
    long_events(all), long_tables(all);
    munmap((void *)all.at, all.n);
}
#else
void huge(void) {}
#endif
