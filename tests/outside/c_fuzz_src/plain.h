/* Readers in plain C, which test each bound: what the library for C is compared with (`tests/outside/c_fuzz`,
 * `tests/outside/firmware`). */
#ifndef PLAIN_H
#define PLAIN_H

#include "uefi_formats.h"

static inline uint16_t u16_at(const uint8_t *at) {
    return (uint16_t)(at[0] | at[1] << 8);
}

static inline uint32_t u32_at(const uint8_t *at) {
    return u16_at(at) | (uint32_t)u16_at(at + 2) << 16;
}

static inline uint64_t u64_at(const uint8_t *at) {
    return u32_at(at) | (uint64_t)u32_at(at + 4) << 32;
}

/* How many bytes a UINTN has by a header's number, and the one in so many bytes. */
static inline size_t uintn_width(uint8_t uintn_size) {
    return uintn_size == 1 ? 4 : 8;
}

static inline uint64_t uintn_at(const uint8_t *at, size_t width) {
    return width == 4 ? u32_at(at) : u64_at(at);
}

UefiStatus plain_path(UefiBytes bytes, UefiBytes *path);
UefiStatus plain_path_at(const void *start, size_t most, UefiBytes *path);
UefiStatus plain_path_fault(UefiBytes path, size_t *offset);
UefiStatus plain_path_next_node(UefiBytes path, size_t *offset, UefiNode *out);
UefiStatus plain_path_next_instance(UefiBytes path, size_t *offset, UefiBytes *instance);
UefiStatus plain_map_check(UefiBytes map, size_t stride);
UefiStatus plain_map_entry(UefiBytes map, size_t stride, size_t index, UefiDescriptor *out);
UefiStatus plain_log_read(UefiBytes log, size_t last_entry, size_t *offset);
UefiStatus plain_log1_next(UefiBytes log, size_t last_entry, size_t *offset, UefiEvent1 *out);
UefiStatus plain_log2_header(UefiBytes log, size_t last_entry, UefiLogHeader *out);
UefiStatus plain_log2_next(UefiBytes log, size_t last_entry, UefiBytes rows, size_t *offset, UefiEvent2 *out);
UefiStatus plain_digest_next(UefiBytes digests, UefiBytes rows, size_t *offset, UefiDigest *out);

/* The next event of a log of either version, and where it starts. The end of the log is that of its last whole event, or
 * the beginning of padding where the last entry isn't known. */
typedef struct {
    UefiBytes log;
    UefiLogHeader header;
    size_t last_entry, at;
    bool has_header, is_known;
} PlainLog;

typedef struct {
    size_t start;
    UefiEvent1 event1;
    UefiEvent2 event2;
    uint32_t pcr_index, event_type;
    UefiBytes event_data;
} PlainEvent;

PlainLog plain_walk(UefiBytes log, size_t last_entry);
bool plain_next_event(PlainLog *log, PlainEvent *out);

#endif
