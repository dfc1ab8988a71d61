/* PCR replay, of logs that are made: with digests that are missing, localities that contradict one another, padding and
 * cuts. Values are those of SHA-256 alone. */
#include "fuzz.h"

typedef struct {
    uint16_t algorithm;
    uint8_t size;
} Bank;

/* The last one is no bank. */
static const Bank banks[] = {{4, 20}, {11, 32}, {12, 48}, {13, 64}, {18, 32}, {39, 32}};
enum { BANKS = 5, ROWS = 6, SHA1 = 4, SHA256 = 11, LOG_ROOM = 4096 };

static const Bank *bank_of(uint16_t algorithm) {
    for (int i = 0; i < BANKS; i++)
        if (banks[i].algorithm == algorithm) return &banks[i];
    return NULL;
}

static const Bank *bank_of_size(size_t size) {
    for (int i = 0; i < BANKS; i++)
        if (banks[i].size == size) return &banks[i];
    return NULL;
}

/* ---- SHA-256 (FIPS 180-4) ---- */

static uint32_t turned(uint32_t word, int n) { return word >> n | word << (32 - n); }

static void add_block(uint32_t *h, const uint8_t *block) {
    static const uint32_t k[64] = {
        0x428a2f98, 0x71374491, 0xb5c0fbcf, 0xe9b5dba5, 0x3956c25b, 0x59f111f1, 0x923f82a4, 0xab1c5ed5,
        0xd807aa98, 0x12835b01, 0x243185be, 0x550c7dc3, 0x72be5d74, 0x80deb1fe, 0x9bdc06a7, 0xc19bf174,
        0xe49b69c1, 0xefbe4786, 0x0fc19dc6, 0x240ca1cc, 0x2de92c6f, 0x4a7484aa, 0x5cb0a9dc, 0x76f988da,
        0x983e5152, 0xa831c66d, 0xb00327c8, 0xbf597fc7, 0xc6e00bf3, 0xd5a79147, 0x06ca6351, 0x14292967,
        0x27b70a85, 0x2e1b2138, 0x4d2c6dfc, 0x53380d13, 0x650a7354, 0x766a0abb, 0x81c2c92e, 0x92722c85,
        0xa2bfe8a1, 0xa81a664b, 0xc24b8b70, 0xc76c51a3, 0xd192e819, 0xd6990624, 0xf40e3585, 0x106aa070,
        0x19a4c116, 0x1e376c08, 0x2748774c, 0x34b0bcb5, 0x391c0cb3, 0x4ed8aa4a, 0x5b9cca4f, 0x682e6ff3,
        0x748f82ee, 0x78a5636f, 0x84c87814, 0x8cc70208, 0x90befffa, 0xa4506ceb, 0xbef9a3f7, 0xc67178f2};
    uint32_t w[64], v[8];
    for (int i = 0; i < 64; i++) {
        if (i < 16) {
            w[i] = __builtin_bswap32(u32_at(block + 4 * i));
        } else {
            uint32_t a = w[i - 15], b = w[i - 2];
            w[i] = w[i - 16] + (turned(a, 7) ^ turned(a, 18) ^ a >> 3) + w[i - 7] + (turned(b, 17) ^ turned(b, 19) ^ b >> 10);
        }
    }
    memcpy(v, h, sizeof v);
    for (int i = 0; i < 64; i++) {
        uint32_t e = v[4], a = v[0];
        uint32_t one = v[7] + (turned(e, 6) ^ turned(e, 11) ^ turned(e, 25)) + ((e & v[5]) ^ (~e & v[6])) + k[i] + w[i];
        uint32_t two = (turned(a, 2) ^ turned(a, 13) ^ turned(a, 22)) + ((a & v[1]) ^ (a & v[2]) ^ (v[1] & v[2]));
        memmove(v + 1, v, 7 * sizeof *v);
        v[4] += one, v[0] = one + two;
    }
    for (int i = 0; i < 8; i++) h[i] += v[i];
}

static void sha256(const uint8_t *bytes, size_t n, uint8_t *out) {
    uint32_t h[8] = {0x6a09e667, 0xbb67ae85, 0x3c6ef372, 0xa54ff53a, 0x510e527f, 0x9b05688c, 0x1f83d9ab, 0x5be0cd19};
    uint8_t end[128] = {0};
    size_t whole = n / 64 * 64, ends = n % 64 < 56 ? 64 : 128;
    uint64_t bits = __builtin_bswap64(8 * n);
    for (size_t i = 0; i < whole; i += 64) add_block(h, bytes + i);
    memcpy(end, bytes + whole, n - whole), end[n - whole] = 0x80, memcpy(end + ends - 8, &bits, 8);
    for (size_t i = 0; i < ends; i += 64) add_block(h, end + i);
    for (int i = 0; i < 8; i++) h[i] = __builtin_bswap32(h[i]);
    memcpy(out, h, 32);
}

/* ---- What a log leads to ---- */

static bool extends(const PlainEvent *event, uint32_t pcr) {
    return event->pcr_index == pcr && event->event_type != UEFI_EV_NO_ACTION;
}

static bool is_hcrtm(const PlainEvent *event) {
    return !event->pcr_index && event->event_type == UEFI_EV_EFI_HCRTM_EVENT;
}

/* The locality that an event states, or -1. */
static int stated(const PlainEvent *event) {
    UefiBytes data = event->event_data;
    if (event->pcr_index || event->event_type != UEFI_EV_NO_ACTION || data.n != 17) return -1;
    return memcmp(data.at, "StartupLocality", 16) ? -1 : data.at[16];
}

static UefiStatus plain_startup_locality(UefiBytes log, size_t last, uint8_t *out) {
    PlainLog walk = plain_walk(log, last);
    PlainEvent event;
    int first = -1;
    bool has_hcrtm = false;
    while (plain_next_event(&walk, &event)) has_hcrtm |= is_hcrtm(&event), first = first < 0 ? stated(&event) : first;
    if (first < 0 && !has_hcrtm) return UEFI_NO_LOCALITY;
    return *out = has_hcrtm ? 4 : first, UEFI_OK;
}

/* The digests of a bank's algorithm that an event has; the last of them is copied. */
static size_t digests_of(const PlainLog *log, const PlainEvent *event, const Bank *bank, uint8_t *value, size_t *size) {
    UefiDigest digest;
    size_t at = 0, count = 0;
    if (!log->has_header) return *size = 20, memcpy(value, event->event1.digest, 20), bank->algorithm == SHA1;
    while (plain_digest_next(event->event2.digests, log->header.rows, &at, &digest) == UEFI_OK) {
        if (digest.algorithm != bank->algorithm) continue;
        *size = digest.bytes.n, count++;
        memcpy(value, digest.bytes.at, *size < 64 ? *size : 64);
    }
    return count;
}

static bool plain_bank_is_active(UefiBytes log, size_t last, uint16_t algorithm) {
    PlainLog walk = plain_walk(log, last);
    PlainEvent event;
    const Bank *bank = bank_of(algorithm);
    uint8_t value[64];
    size_t size;
    while (bank && plain_next_event(&walk, &event))
        if (event.pcr_index < 24 && extends(&event, event.pcr_index) && digests_of(&walk, &event, bank, value, &size)) return true;
    return false;
}

/* The first event that contradicts a locality. */
static UefiStatus contradiction(UefiBytes log, size_t last, int locality, UefiPcr *out) {
    PlainLog walk = plain_walk(log, last);
    PlainEvent event;
    bool is_extended = false;
    for (size_t index = 0; plain_next_event(&walk, &event); index++) {
        int it = stated(&event);
        UefiStatus fault = it < 0 ? UEFI_OK : it != 0 && it != 3 && it != 4 ? UEFI_UNKNOWN_LOCALITY
            : it != locality ? UEFI_OTHER_LOCALITY : is_extended ? UEFI_LATE_LOCALITY : UEFI_OK;
        if (fault != UEFI_OK) return out->index = index, out->offset = event.start, fault;
        is_extended |= extends(&event, 0) && !is_hcrtm(&event);
    }
    return UEFI_OK;
}

static void start(UefiBytes log, size_t last, const Bank *bank, uint32_t pcr, uint8_t locality, uint8_t *value) {
    PlainLog walk = plain_walk(log, last);
    PlainEvent event;
    bool is_launched = false;
    while (plain_next_event(&walk, &event))
        is_launched |= event.pcr_index >= 17 && event.pcr_index <= 22 && extends(&event, event.pcr_index);
    memset(value, pcr >= 17 && pcr <= 22 && !is_launched ? 0xff : 0, bank->size);
    if (!pcr) value[bank->size - 1] = locality;
}

/* What a PCR holds after the events, with the first by which it is undetermined. Values are known of SHA-256, and of PCRs
 * that no event extends. */
static UefiStatus after_events(UefiBytes log, size_t last, const Bank *bank, uint32_t pcr, UefiPcr *out, bool *is_known) {
    PlainLog walk = plain_walk(log, last);
    PlainEvent event;
    uint8_t both[128];
    for (size_t index = 0; plain_next_event(&walk, &event); index++) {
        size_t size = 0, count;
        if (!extends(&event, pcr)) continue;
        memcpy(both, out->value, bank->size), count = digests_of(&walk, &event, bank, both + bank->size, &size);
        out->index = index, out->offset = event.start;
        if (count != 1) return count ? UEFI_TWO_DIGESTS : UEFI_NO_DIGEST;
        if (size != bank->size) return UEFI_OTHER_LENGTH;
        *is_known = bank->algorithm == SHA256;
        sha256(both, 2 * bank->size, out->value);
    }
    return UEFI_OK;
}

static void plain_pcr(UefiBytes log, size_t last, const Bank *bank, uint32_t locality, uint32_t pcr, UefiPcr *out, bool *is_known) {
    uint8_t at = 0;
    UefiPcr other;
    if (locality >= UEFI_LOCALITY_OF_LOG) plain_startup_locality(log, last, &at);
    else at = locality;
    *is_known = true, out->size = bank->size;
    start(log, last, bank, pcr, at, out->value), out->status = after_events(log, last, bank, pcr, out, is_known);
    if (pcr || locality < UEFI_LOCALITY_OF_LOG) return;
    UefiStatus status = contradiction(log, last, at, &other);
    if (status != UEFI_OK && (out->status == UEFI_OK || other.index < out->index))
        out->status = status, out->index = other.index, out->offset = other.offset;
}

static bool is_same_pcr(const UefiPcr *found, const UefiPcr *wanted, bool is_known) {
    if (found->status != wanted->status) return false;
    if (found->status != UEFI_OK) return found->index == wanted->index && found->offset == wanted->offset;
    return found->size == wanted->size && (!is_known || !memcmp(found->value, wanted->value, found->size));
}

/* ---- Logs ---- */

static void append(uint8_t *made, size_t *n, uint64_t value, size_t width) {
    for (size_t i = 0; i < width; i++) made[(*n)++] = i < 8 ? value >> 8 * i : 0;
}

static void append_any(uint8_t *made, size_t *n, size_t count) {
    while (count--) made[(*n)++] = any();
}

/* A header with some of the banks, or with about as many rows as a log may have. Returns the count of rows. */
static size_t make_header(uint8_t *made, size_t *n, Bank *rows) {
    size_t count = 0, more = any() & 63 ? 0 : 255 + below(3);
    for (int i = 0; i < ROWS && !more; i++)
        if (any() & 7) rows[count++] = (Bank){banks[i].algorithm, any() & 15 ? banks[i].size : below(70)};
    append(made, n, 3ull << 32, 8), append(made, n, 0, 20), append(made, n, 29 + 4 * (count + more), 4);
    memcpy(made + *n, "Spec ID Event03", 16), *n += 16;
    append(made, n, 0, 8), append(made, n, count + more, 4);
    for (size_t i = 0; i < count; i++) append(made, n, rows[i].algorithm, 2), append(made, n, rows[i].size, 2);
    append(made, n, 0, 4 * more + 1);
    return count;
}

static void make_digests(uint8_t *made, size_t *n, const Bank *rows, size_t count) {
    size_t at = *n, digests = 0;
    append(made, n, 0, 4);
    for (size_t i = 0; i < count; i++) {
        size_t copies = any() & 15 ? 1 : below(3);
        for (; copies-- && digests < count; digests++) append(made, n, rows[i].algorithm, 2), append_any(made, n, rows[i].size);
    }
    append(made, &at, digests, 4);
}

static void make_event(uint8_t *made, size_t *n, bool has_header, const Bank *rows, size_t count) {
    static const uint32_t types[] = {UEFI_EV_SEPARATOR, UEFI_EV_S_CRTM_VERSION, UEFI_EV_NO_ACTION, UEFI_EV_EFI_HCRTM_EVENT};
    static const uint8_t localities[] = {0, 3, 4, 5};
    bool states = !(any() & 3);
    append(made, n, states || any() & 1 ? any() & 15 ? 0 : 1 : below(26), 4);
    append(made, n, states ? UEFI_EV_NO_ACTION : types[any() & 7 ? below(3) : 3], 4);
    if (has_header) make_digests(made, n, rows, count);
    else append_any(made, n, 20);
    size_t length = states ? any() & 15 ? 17 : 18 : below(8);
    append(made, n, length, 4);
    if (!states) append_any(made, n, length);
    else memcpy(made + *n, "StartupLocality", 16), *n += 16, append(made, n, localities[below(4)], length - 16);
}

static void make_end(uint8_t *made, size_t *n) {
    size_t more = below(40);
    uint8_t byte = any() & 1 ? 0 : 0xff;
    if (any() & 3) more = 0;
    if (any() & 7) memset(made + *n, byte, more), *n += more;
    else append_any(made, n, more);
    if (!(any() & 7)) *n = below(*n);
}

/* Makes a log before a page that can't be read, mostly a whole one, and chooses a last entry for it. */
static UefiBytes make_log(uint8_t *end, size_t *last) {
    uint8_t made[LOG_ROOM];
    Bank rows[ROWS];
    size_t n = 0, count = 0, start = 0;
    bool has_header = any() & 7;
    if (has_header) count = make_header(made, &n, rows);
    for (size_t events = below(6); events--;) start = n, make_event(made, &n, has_header, rows, count);
    make_end(made, &n);
    *last = any() & 3 ? any() & 1 ? n : UEFI_UNKNOWN_LAST_ENTRY : any() & 3 ? start : any() & 1 ? UEFI_EMPTY_LOG : below(n + 2);
    return (UefiBytes){memcpy(end - n, made, n), n};
}

/* ---- Calls ---- */

static uint8_t *space_end, *log_end, *message_end;

/* A workspace of any bytes before a page that can't be read, and after bytes that stay. */
static UefiWorkspace *workspace(void) {
    if (!space_end) space_end = area(), log_end = area(), message_end = area();
    memset(space_end - AREA, 0xa5, AREA - UEFI_WORKSPACE_SIZE);
    return (UefiWorkspace *)memset(space_end - UEFI_WORKSPACE_SIZE, any(), UEFI_WORKSPACE_SIZE);
}

static bool are_all(const void *at, uint8_t byte, size_t n) {
    const uint8_t *b = at;
    while (n && b[n - 1] == byte) n--;
    return !n;
}

static void need_space(void) { NEED(are_all(space_end - AREA, 0xa5, AREA - UEFI_WORKSPACE_SIZE)); }

/* A whole log as one value, wherever it was read to, leads to the same. */
static void same_replay(UefiBytes bytes, size_t last, uint16_t algorithm, uint32_t locality, const UefiPcr *wanted) {
    UefiPcr found[24];
    UefiLog log;
    UefiEvent event;
    bool has_bank = bank_of(algorithm);
    if (uefi_log(bytes, last == bytes.n ? UEFI_UNKNOWN_LAST_ENTRY : last, &log) != UEFI_OK) return;
    if (any() & 1 && uefi_log_next(&log, &event) != UEFI_OK) NEED(false);
    memset(found, 0xcc, sizeof found);
    UefiStatus status = COUNTED(log_replay, uefi_log_replay(&log, algorithm, locality, workspace(), found));
    need_space();
    NEED(status == (has_bank ? UEFI_OK : UEFI_NO_HASH) && (has_bank || are_all(found, 0xcc, sizeof found)));
    for (uint32_t i = 0; has_bank && i < 24; i++) NEED(is_same_pcr(&found[i], &wanted[i], true));
}

static void one_replay(UefiBytes log, size_t last, uint16_t algorithm, uint32_t locality) {
    UefiPcr found[24], one, wanted;
    const Bank *bank = bank_of(algorithm);
    uint32_t pcr = any() & 3 ? 0 : any() & 15 ? below(26) : any();
    bool is_known;
    memset(found, 0xcc, sizeof found), memset(&one, 0xcc, sizeof one);
    UefiStatus status = COUNTED(replay, uefi_replay(log, last, algorithm, locality, workspace(), found));
    need_space();
    NEED(status == (bank ? UEFI_OK : UEFI_NO_HASH) && (bank || are_all(found, 0xcc, sizeof found)));
    for (uint32_t i = 0; bank && i < 24; i++) {
        plain_pcr(log, last, bank, locality, i, &wanted, &is_known);
        NEED(is_same_pcr(&found[i], &wanted, is_known));
    }
    same_replay(log, last, algorithm, locality, found);
    status = COUNTED(replay_pcr, uefi_replay_pcr(log, last, algorithm, locality, pcr, workspace(), &one));
    need_space();
    if (!bank || pcr > 23) NEED(status == (bank ? UEFI_NO_PCR : UEFI_NO_HASH) && are_all(&one, 0xcc, sizeof one));
    else NEED(status == one.status && is_same_pcr(&one, &found[pcr], true));
}

/* The digest over the PCRs that a quote selects, or the first of them that has no value. */
static UefiStatus plain_quote_digest(UefiBytes message, const Bank *hash, UefiBytes log, size_t last, uint32_t locality,
                                     UefiQuoteDigest *out, bool *is_known) {
    static uint8_t values[64 * 24 * 64];
    UefiPcrSelection selection;
    UefiPcr pcr;
    size_t n = 0;
    bool is_value_known;
    *is_known = hash->algorithm == SHA256, out->size = hash->size;
    for (size_t cursor = 0; plain_quote_next_selection(message, &cursor, &selection) == UEFI_OK;)
        for (uint32_t i = 0; i < 24; i++) {
            if (!(selection.pcrs >> i & 1)) continue;
            out->algorithm = selection.algorithm, out->pcr_index = i;
            if (!plain_bank_is_active(log, last, selection.algorithm)) return UEFI_NO_BANK;
            plain_pcr(log, last, bank_of(selection.algorithm), locality, i, &pcr, &is_value_known);
            if (pcr.status != UEFI_OK) return out->index = pcr.index, out->offset = pcr.offset, pcr.status;
            memcpy(values + n, pcr.value, pcr.size), n += pcr.size, *is_known &= is_value_known;
        }
    sha256(values, n, out->value);
    return UEFI_OK;
}

static bool is_same_digest(const UefiQuoteDigest *found, const UefiQuoteDigest *wanted, bool is_known) {
    if (found->status == UEFI_OK)
        return found->size == wanted->size && (!is_known || !memcmp(found->value, wanted->value, found->size));
    if (found->algorithm != wanted->algorithm) return false;
    return found->status == UEFI_NO_BANK || (found->pcr_index == wanted->pcr_index && found->index == wanted->index && found->offset == wanted->offset);
}

static void one_quote(UefiBytes log, size_t last, uint32_t locality) {
    UefiBytes message, room = {message_end - 256, 256};
    uint16_t algorithm = any() & 3 ? UEFI_HASH_OF_SIZE : any() & 1 ? SHA256 : below(20);
    UefiQuoteDigest found, wanted;
    UefiQuote quote;
    bool is_known;
    UefiStatus fault = UEFI_NOT_QUOTE;
    for (int tries = 0; tries < 3 && fault != UEFI_OK; tries++) message = make_quote(room), fault = plain_quote(message, &quote);
    memset(&found, 0xcc, sizeof found);
    UefiStatus status = COUNTED(quote_digest, uefi_quote_digest(message, algorithm, log, last, locality, workspace(), &found));
    need_space();
    const Bank *hash = fault != UEFI_OK ? NULL : algorithm ? bank_of(algorithm) : bank_of_size(quote.pcr_digest.n);
    if (!hash) {
        NEED(status == (fault == UEFI_OK ? UEFI_NO_HASH : fault) && are_all(&found, 0xcc, sizeof found));
        return;
    }
    wanted.status = plain_quote_digest(message, hash, log, last, locality, &wanted, &is_known);
    NEED(status == wanted.status && found.status == status && is_same_digest(&found, &wanted, is_known));
}

void pcrs(void) {
    size_t last, end = 7;
    workspace();
    UefiBytes log = make_log(log_end, &last);
    uint16_t algorithm = any() & 7 ? banks[any() & 1 ? 1 : below(BANKS)].algorithm : below(50);
    uint32_t locality = any() & 1 ? UEFI_LOCALITY_OF_LOG : any() & 1 ? below(256) : UEFI_LOCALITY_OF_LOG + below(3);
    SAME_AT(end, log_read, log, last), one_log(log, any() & 1 ? last : UEFI_UNKNOWN_LAST_ENTRY);
    one_replay(log, last, algorithm, locality), one_quote(log, last, locality);
    READ(uint8_t, startup_locality, log, last), SAME_BOOL(bank_is_active, log, last, algorithm);
}
