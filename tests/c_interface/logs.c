/* A program without a C library, which ends with status 0: events are read by offsets and of a log as one value, a log
 * without events has none, and calls on PCRs and quotes fill what they are handed. A replay changes no byte beside its
 * workspace.
 */
#include "bare.h"

static const uint8_t digest[20] = {1, 2, 3};

/* Eight numbers, more than there are registers for. */
static int events(void) {
    uint8_t room[34] = {[33] = 0xcc};
    UefiEvent1 event;
    size_t size = 0, at = 0;
    if (uefi_write_event(uefi_buffer(room, sizeof room), uefi_bytes("x", 1), digest, 7, 8, &size) != UEFI_OK)
        return 5;
    if (size != 33 || room[0] != 7 || room[4] != 8 || room[8] != 1 || room[32] != 'x' || room[33] != 0xcc)
        return 6;
    if (uefi_log1_next(uefi_bytes(room, size), 0, &at, &event) != UEFI_OK || at != 33 || event.event_data.n != 1)
        return 7;
    if (event.pcr_index != 7 || event.event_type != 8 || event.digest[2] != 3 || event.digest[19] != 0)
        return 8;
    return uefi_write_event_inputs(uefi_buffer(room, 19), uefi_bytes("xy", 2), 7, 8, &size) != UEFI_BUFFER_TOO_SMALL || size != 20 ? 9 : 0;
}

/* Zeros are whole events. A log without events has none, though its bytes are zeros. */
static int empty_log(void) {
    static const uint8_t area[4096];
    UefiBytes log = uefi_bytes(area, sizeof area);
    UefiLogHeader header;
    UefiEvent1 event;
    size_t at = 0, count = 0;
    for (; uefi_log1_next(log, sizeof area, &at, &event) == UEFI_OK; count++) {}
    if (count != 128 || uefi_last_entry(0x7000, 0x7020) != 32)
        return 17;
    at = 0;
    if (uefi_log1_next(log, uefi_last_entry(0x7000, 0), &at, &event) != UEFI_END || at != 0)
        return 18;
    if (uefi_log_read(log, uefi_last_entry(0x7000, 0), &at) != UEFI_NO_EVENT || at != 0)
        return 81;
    return uefi_log2_header(log, uefi_last_entry(0x7000, 0), &header) != UEFI_NO_HEADER ? 19 : 0;
}

/* A workspace, with other bytes for each call, between bytes that no call changes. */
static struct {
    uint8_t before[64];
    UefiWorkspace workspace;
    uint8_t behind[4096];
} guarded;

static UefiWorkspace *fresh_workspace(void) {
    static uint8_t salt;
    uint8_t *bytes = (uint8_t *)&guarded;
    for (size_t i = 0; i < sizeof guarded; i++)
        bytes[i] = (uint8_t)(i * 37 + salt);
    for (size_t i = 0; i < sizeof guarded.before; i++)
        guarded.before[i] = 0xa5;
    for (size_t i = 0; i < sizeof guarded.behind; i++)
        guarded.behind[i] = 0xa5;
    salt += 101;
    return &guarded.workspace;
}

static bool is_guarded(void) {
    bool same = true;
    for (size_t i = 0; i < sizeof guarded.before; i++)
        same &= guarded.before[i] == 0xa5;
    for (size_t i = 0; i < sizeof guarded.behind; i++)
        same &= guarded.behind[i] == 0xa5;
    return same;
}

/* Of a log without events the PCRs are start values, and that of PCR 0 ends with the locality. */
static int pcrs(void) {
    UefiBytes log = uefi_bytes(NULL, 0);
    UefiWorkspace *space = fresh_workspace();
    static UefiPcr all[24], one;
    uint8_t locality = 9;
    if (uefi_replay(log, UEFI_EMPTY_LOG, UEFI_TPM_ALG_SHA256, 3, space, all) != UEFI_OK || all[0].value[31] != 3 || all[16].value[31])
        return 39;
    for (int i = 0; i < 24; i++)
        if (all[i].status != UEFI_OK || all[i].size != 32 || all[i].value[0] != (i >= 17 && i <= 22 ? 0xff : 0))
            return 40;
    if (uefi_replay_pcr(log, UEFI_EMPTY_LOG, UEFI_TPM_ALG_SM3_256, UEFI_LOCALITY_OF_LOG, 0, space, &one) != UEFI_OK || one.size != 32 || one.value[31])
        return 41;
    if (uefi_replay_pcr(log, UEFI_EMPTY_LOG, UEFI_TPM_ALG_SHA1, 0, 24, space, &one) != UEFI_NO_PCR || uefi_replay(log, UEFI_EMPTY_LOG, 0, 0, space, all) != UEFI_NO_HASH)
        return 42;
    if (uefi_startup_locality(log, UEFI_EMPTY_LOG, &locality) != UEFI_NO_LOCALITY || locality != 9)
        return 43;
    return uefi_bank_is_active(log, UEFI_EMPTY_LOG, UEFI_TPM_ALG_SHA256) || !is_guarded() ? 44 : 0;
}

/* A log with an event of PCR 1 that has a digest for each of the five banks, and an event of no PCR; and a quote of all PCRs
 * of the banks. */
static const uint8_t five_banks[319] = {
    [4] = 3, [28] = 49, [32] = 'S', 'p', 'e', 'c', ' ', 'I', 'D', ' ', 'E', 'v', 'e', 'n', 't', '0', '3', [53] = 2, [55] = 2, [56] = 5,
    [60] = 4, 0, 20, 0, 11, 0, 32, 0, 12, 0, 48, 0, 13, 0, 64, 0, 18, 0, 32, 0,
    [81] = 1, [85] = 8, [89] = 5, [93] = 4, [115] = 11, [149] = 12, [199] = 13, [265] = 18, [303] = 24, [307] = 8};
static const uint8_t all_pcrs[71] = {
    0xff, 0x54, 0x43, 0x47, 0x80, 0x18, [38] = 5, 0, 4, 3, 0xff, 0xff, 0xff, 0, 11, 3, 0xff, 0xff, 0xff,
    0, 12, 3, 0xff, 0xff, 0xff, 0, 13, 3, 0xff, 0xff, 0xff, 0, 18, 3, 0xff, 0xff, 0xff};

static int five(void) {
    static const uint16_t algorithms[] = {UEFI_TPM_ALG_SHA1, UEFI_TPM_ALG_SHA256, UEFI_TPM_ALG_SHA384, UEFI_TPM_ALG_SHA512, UEFI_TPM_ALG_SM3_256};
    static const uint8_t sizes[] = {20, 32, 48, 64, 32};
    UefiBytes log = uefi_bytes(five_banks, sizeof five_banks), message = uefi_bytes(all_pcrs, sizeof all_pcrs);
    static UefiPcr all[24], one;
    static UefiQuoteDigest digest, again;
    size_t at = 0;
    if (uefi_log_read(log, log.n, &at) != UEFI_OK || uefi_log_read(uefi_bytes(log.at, 318), 318, &at) != UEFI_LEFT_OVER || at != 303)
        return 82;
    for (int i = 0; i < 5; i++) {
        if (uefi_replay(log, log.n, algorithms[i], 0, fresh_workspace(), all) != UEFI_OK || !is_guarded())
            return 83;
        for (uint32_t pcr = 0; pcr < 24; pcr++)
            if (uefi_replay_pcr(log, log.n, algorithms[i], 0, pcr, fresh_workspace(), &one) != UEFI_OK || !is_guarded() || !are_same(one.value, all[pcr].value, sizes[i]) || one.size != sizes[i])
                return 84;
        if (uefi_quote_digest(message, algorithms[i], log, log.n, 0, fresh_workspace(), &digest) != UEFI_OK || digest.size != sizes[i] || !is_guarded())
            return 85;
        if (uefi_quote_digest(message, algorithms[i], log, log.n, 0, fresh_workspace(), &again) != UEFI_OK || !are_same(digest.value, again.value, sizes[i]))
            return 86;
    }
    return uefi_replay_pcr(log, log.n, UEFI_TPM_ALG_SHA3_256, 0, 1, fresh_workspace(), &one) != UEFI_NO_HASH || !is_guarded() ? 87 : 0;
}

/* That log as one value: its events in order, their digests, and what it leads to. Of what is no whole log nothing is written. */
static int one_log(void) {
    UefiBytes bytes = uefi_bytes(five_banks, sizeof five_banks), digest;
    static UefiPcr all[24], same[24];
    UefiLog log, begun;
    UefiEvent event;
    if (uefi_log(bytes, UEFI_UNKNOWN_LAST_ENTRY, &log) != UEFI_OK || log.bytes.at != five_banks || log.bytes.n != 319 || log.last_entry != 303)
        return 115;
    if (log.offset != 81 || log.version != 2 || log.rows.at != five_banks + 60 || log.rows.n != 20)
        return 116;
    begun = log;
    if (uefi_log_next(&log, &event) != UEFI_OK || event.offset != 81 || event.pcr_index != 1 || event.event_type != 8 || event.version != 2 || log.offset != 303)
        return 117;
    if (event.digest_count != 5 || event.digests.at != five_banks + 93 || event.digests.n != 206 || event.rows.at != log.rows.at || event.rows.n != 20 || event.event_data.n)
        return 118;
    if (uefi_event_digest(&event, UEFI_TPM_ALG_SHA512, &digest) != UEFI_OK || digest.at != five_banks + 201 || digest.n != 64)
        return 119;
    if (uefi_event_digest(&event, UEFI_TPM_ALG_SHA3_256, &digest) != UEFI_NO_DIGEST || digest.at != five_banks + 201 || digest.n != 64)
        return 120;
    if (uefi_log_next(&log, &event) != UEFI_OK || event.offset != 303 || event.pcr_index != 24 || event.digest_count || uefi_event_digest(&event, UEFI_TPM_ALG_SHA1, &digest) != UEFI_NO_DIGEST)
        return 121;
    if (uefi_log_next(&log, &event) != UEFI_END || log.offset != 319 || event.offset != 303)
        return 122;
    if (uefi_log_replay(&log, UEFI_TPM_ALG_SHA256, 3, fresh_workspace(), all) != UEFI_OK || !is_guarded() || uefi_replay(bytes, 303, UEFI_TPM_ALG_SHA256, 3, fresh_workspace(), same) != UEFI_OK)
        return 123;
    for (int i = 0; i < 24; i++)
        if (all[i].status != UEFI_OK || all[i].size != 32 || !are_same(all[i].value, same[i].value, 32))
            return 124;
    if (uefi_log_replay(&begun, UEFI_TPM_ALG_SHA3_256, 3, fresh_workspace(), all) != UEFI_NO_HASH || !is_guarded() || all[0].value[31] != 3)
        return 125;
    if (uefi_log(uefi_bytes(five_banks, 318), UEFI_UNKNOWN_LAST_ENTRY, &log) != UEFI_LEFT_OVER || uefi_log(uefi_bytes(five_banks, 303), 303, &log) != UEFI_LEFT_OVER)
        return 126;
    if (uefi_log(bytes, UEFI_EMPTY_LOG, &log) != UEFI_NO_EVENT || uefi_log(bytes, 304, &log) != UEFI_LEFT_OVER || log.offset != 319)
        return 127;
    return uefi_log(bytes, 303, &log) != UEFI_OK || log.offset != 81 || log.last_entry != 303 ? 128 : 0;
}

/* A log of version 1, whose events have one digest. */
static int log_of_version_1(void) {
    static uint8_t room[65];
    UefiBytes bytes = uefi_bytes(room, 33), found;
    UefiLog log;
    UefiEvent event;
    size_t size = 0;
    if (uefi_write_event(uefi_buffer(room, 33), uefi_bytes("x", 1), digest, 7, 8, &size) != UEFI_OK || uefi_log(bytes, 0, &log) != UEFI_OK)
        return 129;
    if (log.version != 1 || log.offset || log.last_entry || log.rows.n || uefi_log_next(&log, &event) != UEFI_OK || log.offset != 33)
        return 130;
    if (event.version != 1 || event.pcr_index != 7 || event.event_type != 8 || event.offset || event.event_data.n != 1 || event.digest_count != 1 || event.digests.at != room + 8 || event.digests.n != 20 || event.rows.n)
        return 131;
    if (uefi_event_digest(&event, UEFI_TPM_ALG_SHA1, &found) != UEFI_OK || found.at != room + 8 || found.n != 20 || uefi_event_digest(&event, UEFI_TPM_ALG_SHA256, &found) != UEFI_NO_DIGEST)
        return 132;
    event.digests.n = 19;
    if (uefi_event_digest(&event, UEFI_TPM_ALG_SHA1, &found) != UEFI_CUT || found.n != 20 || uefi_log_next(&log, &event) != UEFI_END)
        return 133;
    /* Zeros behind it are padding. With a last entry among them they are an event. */
    if (uefi_log(uefi_bytes(room, 65), UEFI_UNKNOWN_LAST_ENTRY, &log) != UEFI_OK || log.last_entry || uefi_log_next(&log, &event) != UEFI_OK || uefi_log_next(&log, &event) != UEFI_END)
        return 134;
    return uefi_log(uefi_bytes(room, 65), 33, &log) != UEFI_OK || uefi_log_next(&log, &event) != UEFI_OK || uefi_log_next(&log, &event) != UEFI_OK || event.pcr_index || uefi_log_next(&log, &event) != UEFI_END ? 135 : 0;
}

/* What the calls say of fields that none of them gave, which stay as they are. */
static int other_fields(void) {
    UefiBytes bytes = uefi_bytes(five_banks, sizeof five_banks), found;
    UefiLog log, other;
    UefiEvent event = {.pcr_index = 9}, others;
    if (uefi_log(bytes, 303, &log) != UEFI_OK)
        return 136;
    other = log, other.version = 3;
    if (uefi_log_next(&other, &event) != UEFI_NO_EVENT || other.offset != 81 || event.pcr_index != 9)
        return 137;
    other = log, other.offset = UEFI_UNKNOWN_LAST_ENTRY;
    if (uefi_log_next(&other, &event) != UEFI_END || other.offset != UEFI_UNKNOWN_LAST_ENTRY || event.pcr_index != 9)
        return 138;
    other = log, other.bytes.n = 302;
    if (uefi_log_next(&other, &event) != UEFI_CUT)
        return 139;
    other = log, other.last_entry = 302;
    if (uefi_log_next(&other, &event) != UEFI_CROSSES_LAST_ENTRY)
        return 140;
    other = log, other.rows.n = 19;
    if (uefi_log_next(&other, &event) != UEFI_TOO_MANY_DIGESTS || event.pcr_index != 9 || other.offset != 81)
        return 141;
    other = log, other.rows.at += 4;
    if (uefi_log_next(&other, &event) != UEFI_UNKNOWN_ALGORITHM)
        return 142;
    other = log, other.version = 1, other.offset = 0;
    if (uefi_log_next(&other, &event) != UEFI_OK || event.event_type != UEFI_EV_NO_ACTION || other.offset != 81 || uefi_log_next(&log, &event) != UEFI_OK)
        return 143;
    others = event, others.version = 0, found = bytes;
    if (uefi_event_digest(&others, UEFI_TPM_ALG_SHA1, &found) != UEFI_NO_EVENT || found.n != 319)
        return 144;
    others = event, others.version = 1;
    if (uefi_event_digest(&others, UEFI_TPM_ALG_SHA1, &found) != UEFI_CUT)
        return 145;
    others = event, others.digests.n = 205;
    if (uefi_event_digest(&others, UEFI_TPM_ALG_SM3_256, &found) != UEFI_CUT || uefi_event_digest(&others, UEFI_TPM_ALG_SHA512, &found) != UEFI_OK)
        return 146;
    others = event, others.rows.n = 4;
    return uefi_event_digest(&others, UEFI_TPM_ALG_SHA256, &found) != UEFI_UNKNOWN_ALGORITHM || found.n != 64 ? 147 : 0;
}

/* A PCR that an event leaves undetermined. */
static int undetermined(void) {
    static uint8_t bytes[319];
    UefiBytes log = uefi_bytes(bytes, sizeof bytes);
    static UefiPcr one;
    static UefiQuoteDigest digest;
    for (size_t i = 0; i < sizeof bytes; i++)
        bytes[i] = five_banks[i];
    /* The digest of SM3 becomes a second one of SHA-256. */
    bytes[265] = 11;
    if (uefi_replay_pcr(log, log.n, UEFI_TPM_ALG_SHA256, 0, 1, fresh_workspace(), &one) != UEFI_TWO_DIGESTS || one.status != UEFI_TWO_DIGESTS || one.index != 0 || one.offset != 81)
        return 88;
    if (uefi_replay_pcr(log, log.n, UEFI_TPM_ALG_SM3_256, 0, 1, fresh_workspace(), &one) != UEFI_NO_DIGEST || one.status != UEFI_NO_DIGEST)
        return 89;
    if (uefi_quote_digest(uefi_bytes(all_pcrs, 71), UEFI_TPM_ALG_SHA1, log, log.n, 0, fresh_workspace(), &digest) != UEFI_TWO_DIGESTS || digest.status != UEFI_TWO_DIGESTS)
        return 90;
    return digest.index != 0 || digest.offset != 81 || digest.pcr_index != 1 || digest.algorithm != UEFI_TPM_ALG_SHA256 || !is_guarded() ? 91 : 0;
}

/* A quote of the PCRs 0 and 23 of SHA-1, and then of none, to which any log leads: its digest is that of no bytes. */
static int quotes(void) {
    static uint8_t bytes[70] = {0xff, 0x54, 0x43, 0x47, 0x80, 0x18, [7] = 1, 7, [10] = 2, 8, 9, [20] = 1, [24] = 2,
                                [28] = 3, 1, [37] = 4, [41] = 1, [43] = 4, 3, 1, 0, 0x80, [49] = 20, [69] = 5};
    UefiBytes message = uefi_bytes(bytes, sizeof bytes), log = uefi_bytes(NULL, 0);
    UefiWorkspace *space = fresh_workspace();
    static UefiQuote quote;
    static UefiQuoteDigest digest;
    UefiPcrSelection selection;
    size_t at = 0;
    if (uefi_quote(message, &quote) != UEFI_OK || quote.qualified_signer.at != bytes + 8 || quote.qualified_signer.n != 1 || quote.extra_data.at != bytes + 11 || quote.extra_data.n != 2)
        return 72;
    if (quote.clock != 1 || quote.reset_count != 2 || quote.restart_count != 3 || !quote.safe || quote.firmware_version != 4 || quote.pcr_digest.at != bytes + 50 || quote.pcr_digest.n != 20)
        return 73;
    if (uefi_quote_next_selection(message, &at, &selection) != UEFI_OK || at != 1 || selection.algorithm != UEFI_TPM_ALG_SHA1 || selection.pcrs != 0x800001)
        return 74;
    if (uefi_quote_next_selection(message, &at, &selection) != UEFI_END || at != 1 || uefi_quote_next_selection(uefi_bytes(bytes, 69), &at, &selection) != UEFI_TOO_SHORT)
        return 75;
    if (uefi_quote(uefi_bytes(bytes, 69), &quote) != UEFI_TOO_SHORT || quote.pcr_digest.n != 20)
        return 76;
    if (uefi_quote_digest(message, UEFI_HASH_OF_SIZE, log, UEFI_EMPTY_LOG, 0, space, &digest) != UEFI_NO_BANK || digest.status != UEFI_NO_BANK || digest.algorithm != UEFI_TPM_ALG_SHA1)
        return 77;
    bytes[45] = bytes[47] = 0;
    if (uefi_quote_digest(message, UEFI_HASH_OF_SIZE, log, UEFI_EMPTY_LOG, 0, space, &digest) != UEFI_OK || digest.status != UEFI_OK || digest.size != 20 || digest.value[0] != 0xda || digest.value[19] != 0x09)
        return 78;
    if (uefi_quote_digest(message, UEFI_TPM_ALG_SHA256, log, UEFI_EMPTY_LOG, 0, space, &digest) != UEFI_OK || digest.size != 32 || digest.value[0] != 0xe3 || digest.value[31] != 0x55)
        return 79;
    return uefi_quote_digest(message, 1, log, UEFI_EMPTY_LOG, 0, space, &digest) != UEFI_NO_HASH || digest.size != 32 || !is_guarded() ? 80 : 0;
}

__attribute__((used)) static void run(void) {
    int status = events();
    status = status ? status : empty_log();
    status = status ? status : pcrs();
    status = status ? status : five();
    status = status ? status : one_log();
    status = status ? status : log_of_version_1();
    status = status ? status : other_fields();
    status = status ? status : undetermined();
    end(status ? status : quotes());
}
