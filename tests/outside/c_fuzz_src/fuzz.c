/* Mutated inputs before a guard page: each result is that of plain C (plain.c, or here), and where a call fails, what it
 * writes to stays as it was. fuzz SECONDS SEED FILE.. */
#include "fuzz.h"

#include <sys/mman.h>
#include <time.h>

uint8_t *area(void) {
    uint8_t *at = mmap(0, AREA + 4096, PROT_READ | PROT_WRITE, MAP_PRIVATE | MAP_ANONYMOUS, -1, 0);
    if (at == MAP_FAILED || mprotect(at + AREA, 4096, PROT_NONE)) exit(2);
    return at + AREA;
}

static uint64_t state;
uint64_t any(void) { return state ^= state << 13, state ^= state >> 7, state ^= state << 17; }
size_t below(size_t n) { return n ? any() % n : 0; }

void need(bool holds, const char *what, const char *file, int line) {
    if (!holds) printf("differs: %s, line %d: %s\n", file, line, what), exit(1);
}

static Count *all_calls;

uint32_t counted(Count *calls, uint32_t result) {
    if (!calls->is_known) calls->next = all_calls, all_calls = calls, calls->is_known = true;
    return calls->results[result]++, result;
}

bool is_same(const void *found, const void *wanted, size_t n) {
    static const uintptr_t any_word = ANY;
    for (size_t i = 0; i < n; i += sizeof any_word) {
        size_t length = n - i < sizeof any_word ? n - i : sizeof any_word;
        const uint8_t *word = (const uint8_t *)wanted + i;
        bool is_any = length == sizeof any_word && !memcmp(word, &any_word, length);
        if (!is_any && memcmp((const uint8_t *)found + i, word, length)) return false;
    }
    return true;
}

UefiBytes from(UefiBytes bytes, size_t at) {
    return at > bytes.n ? (UefiBytes){bytes.at, 0} : (UefiBytes){bytes.at + at, bytes.n - at};
}

UefiBytes slice(const uint8_t *at, size_t n) { return (UefiBytes){n ? at : (const uint8_t *)ANY, n}; }

UefiStatus put(const uint8_t *bytes, size_t n, UefiBuffer buffer, size_t *size) {
    *size = n;
    if (n > buffer.n) return UEFI_BUFFER_TOO_SMALL;
    memcpy(buffer.at, bytes, n);
    return UEFI_OK;
}

UefiStatus plain_log2_digest(UefiBytes log, size_t last, UefiBytes rows, size_t at, uint16_t algorithm, UefiBytes *out) {
    UefiEvent2 event;
    UefiDigest digest;
    if (plain_log2_next(log, last, rows, &at, &event) != UEFI_OK) return UEFI_NO_EVENT;
    for (size_t next = 0; plain_digest_next(event.digests, rows, &next, &digest) == UEFI_OK;)
        if (digest.algorithm == algorithm) return *out = digest.bytes, UEFI_OK;
    return UEFI_NO_DIGEST;
}

static void walk1(UefiBytes log, size_t last, size_t at) {
    while (NEXT(UefiEvent1, at, log1_next, log, last) == UEFI_OK) {}
}

static size_t digests_from(UefiBytes rows, UefiBytes digests, size_t *at) {
    size_t count = 0;
    while (NEXT(UefiDigest, *at, digest_next, digests, rows) == UEFI_OK) count++;
    return count;
}

static void walk2(UefiBytes log, size_t last, UefiBytes rows, size_t at) {
    for (bool is_event = true; is_event;) {
        UefiEvent2 event = {0};
        size_t next = at;
        bool of_event = plain_log2_next(log, last, rows, &next, &event) == UEFI_OK && any() & 1 && event.digest_count;
        uint16_t algorithm = of_event ? u16_at(event.digests.at) : any() & 7 ? below(14) : any();
        READ(UefiBytes, log2_digest, log, last, rows, at, algorithm);
        is_event = BOTH(event, at, log2_next, log, last, rows, &at, &event) == UEFI_OK, next = 0;
        if (is_event) NEED(digests_from(rows, event.digests, &next) == event.digest_count && next == event.digests.n);
    }
}

static void one_path(UefiBytes bytes, size_t at) {
    size_t next = at;
    READ(UefiBytes, path, bytes);
    READ(UefiBytes, path_at, bytes.at, bytes.n);
    while (NEXT(UefiBytes, next, path_next_instance, bytes) == UEFI_OK) {}
    while (NEXT(UefiNode, at, path_next_node, bytes) == UEFI_OK) {}
}

static UefiStatus plain_pci_next(UefiBytes list, size_t *at, UefiResource *out) {
    UefiBytes left = from(list, *at);
    const uint8_t *b = left.at;
    if (!left.n) return UEFI_NO_END;
    if (*b == 0x79) return UEFI_END;
    if (*b != 0x8a) return UEFI_UNKNOWN_TAG;
    if (left.n < 46) return UEFI_CUT;
    *out = (UefiResource){u64_at(b + 6), u64_at(b + 14), u64_at(b + 22), u64_at(b + 30), u64_at(b + 38),
                          b[3], b[4], b[5]};
    *at += 46;
    return UEFI_OK;
}

static UefiStatus plain_config_next_pair(UefiBytes text, size_t *at, UefiPair *out) {
    if (*at >= text.n) return UEFI_END;
    UefiBytes piece = from(text, *at);
    const uint8_t *end = memchr(piece.at, '&', piece.n);
    if (end) piece.n = end - piece.at;
    const uint8_t *equals = memchr(piece.at, '=', piece.n);
    out->key = (UefiBytes){piece.at, equals ? (size_t)(equals - piece.at) : piece.n};
    out->value = equals ? from(piece, out->key.n + 1) : (UefiBytes){(const uint8_t *)ANY, ANY};
    out->has_value = equals;
    *at += piece.n + (end ? 1 : 0);
    return UEFI_OK;
}

static bool plain_map_is_sorted(UefiBytes map, size_t stride) {
    bool sorted = plain_map_check(map, stride) == UEFI_OK;
    for (size_t i = stride; sorted && i < map.n; i += stride)
        sorted = u64_at(map.at + i - stride + 8) <= u64_at(map.at + i + 8);
    return sorted;
}

static void one_map(UefiBytes map) {
    size_t stride = any() & 3 ? 8 * below(10) : below(100), index = any() & 7 ? below(6) : (size_t)any();
    if (stride && any() & 3) map = from(map, map.n % stride);
    SAME(map_check, map, stride), SAME_BOOL(map_is_sorted, map, stride);
    READ(UefiDescriptor, map_entry, map, stride, index);
}

/* Makes rows of a table: small numbers, large ones, and after some of them bytes of any kind. */
static void make_rows(uint8_t *b, size_t n) {
    size_t made = any() & 3 ? below(n + 1) : n;
    for (size_t k = 0; k < n; k++) b[k] = any() & 1 ? 0 : any() & 1 ? below(80) : any();
    for (size_t k = 0; made - k >= 4; k += 4) {
        uint16_t row[] = {any() & 1 ? below(14) : any(), any() & 1 ? below(80) : any()};
        memcpy(b + k, row, 4);
    }
}

/* The beginning of a walk over this many bytes: mostly this offset. */
static size_t start_of(size_t offset, size_t n) {
    return any() & 1 ? offset : any() & 3 ? below(n + 3) : any();
}

/* What is at the end of an area, and the rows at the end of another. */
static void one_input(UefiBytes log, size_t whole, uint8_t *rows_end) {
    UefiLogHeader header;
    size_t n = log.n, last = any() & 7 ? any() & 1 ? whole : below(n + 40) : any() & 1 ? 0 : (size_t)-1 - below(40);
    size_t none = 0, end = 7;
    SAME_AT(end, log_read, log, last), one_log(log, any() & 1 ? last : UEFI_UNKNOWN_LAST_ENTRY);
    if (BOTH(header, none, log2_header, log, last, &header) == UEFI_OK)
        walk2(log, last, header.rows, any() & 1 ? header.events_start : header.event_end);
    walk1(log, last, start_of(0, n));
    size_t r = below(72), at;
    UefiBytes rows = {rows_end - r, r};
    make_rows(rows_end - r, r);
    if (any() & 1 && n > 80 && r >= 20) memcpy(rows_end - r + 4 * below(2), log.at + 60, 16);
    at = start_of(65 + 16, n);
    walk2(log, any() & 1 ? last : at, rows, at), other_logs(log, last, rows);
    UefiBytes part = from(log, below(n + 1));
    at = start_of(0, part.n);
    one_path(part, at), one_map(part);
    for (size_t next = start_of(0, n); NEXT(UefiResource, next, pci_next, log) == UEFI_OK;) {}
    for (size_t next = at; NEXT(UefiPair, next, config_next_pair, part) == UEFI_OK;) {}
    digests_from(rows, part, &at), records_of(part), calls_of(part), paths_of(part), nodes_of(part), texts_of(part), contents_of(part), names_of(part), quotes_of(part);
    numbers();
    if (!(any() & 3)) pcrs();
}

int main(int argc, char **argv) {
    static uint8_t seeds[16][AREA];
    size_t sizes[16], seed_count = 0, inputs = 0;
    time_t end = time(0) + atoi(argv[1]);
    state = strtoul(argv[2], 0, 10) * 2654435769u + 1;
    for (int i = 3; i < argc && seed_count < 16; i++) {
        FILE *file = fopen(argv[i], "rb");
        if (!file) return 3;
        sizes[seed_count] = fread(seeds[seed_count], 1, AREA, file), seed_count++;
        fclose(file);
    }
    if (!seed_count) return 3;
    uint8_t *log_end = area(), *rows_end = area();
    huge();
    for (; inputs % 1024 || time(0) < end; inputs++) {
        size_t seed = below(seed_count), n = any() & 1 ? sizes[seed] : below(sizes[seed] + 1);
        if (any() & 1 && n > 600) n = below(600);
        uint8_t *log = memcpy(log_end - n, seeds[seed], n);
        for (size_t k = below(6); k-- && n;) {
            size_t at = any() & 1 ? below(n) : below(n < 120 ? n : 120);
            log[at] = any() & 1 ? any() : any() & 1 ? 0 : (uint8_t)(log[at] + 1 - 2 * (any() & 1));
        }
        one_input((UefiBytes){log, n}, sizes[seed], rows_end);
    }
    need_statuses(all_calls, inputs >= ENOUGH_INPUTS);
    printf("%zu inputs, 0 differences\n", inputs);
}
