/* Says whether a TPM quoted what an event log leads to: `quote QUOTE LOG BANK PCRS NONCE`.
 *
 * QUOTE is the bytes that the TPM signed. BANK is one such as `sha256`, PCRS a list such as `0,1,2,7`, which the quote
 * has to cover in that bank, and NONCE the one that the TPM was sent, in hex. The exit status is 0 only if the quote
 * has the nonce and covers the PCRs, and the log leads to its digest; 1 if not; 2 where an argument is wrong, a file
 * can't be read, QUOTE is no quote, or LOG is no whole log. No signature is verified here.
 */
#include <inttypes.h>
#include <stdio.h>
#include <stdlib.h>
#include <string.h>

#include "uefi_formats.h"

/* What a quote has to be of, as the arguments say. */
typedef struct {
    UefiBytes nonce;
    uint32_t pcrs; /* bit n is PCR n */
    uint16_t algorithm;
} Asked;

static UefiWorkspace workspace;

static bool get(const char *path, uint8_t *room, size_t size, UefiBytes *out) {
    FILE *file = fopen(path, "rb");
    if (!file)
        return false;
    *out = uefi_bytes(room, fread(room, 1, size, file));
    int whole = feof(file);
    fclose(file);
    return whole;
}

static bool get_bank(const char *name, uint16_t *out) {
    static const struct {
        const char *name;
        uint16_t algorithm;
    } banks[] = {
        {"sha1", UEFI_TPM_ALG_SHA1},     {"sha256", UEFI_TPM_ALG_SHA256},   {"sha384", UEFI_TPM_ALG_SHA384},
        {"sha512", UEFI_TPM_ALG_SHA512}, {"sm3_256", UEFI_TPM_ALG_SM3_256},
    };
    for (size_t i = 0; i < sizeof banks / sizeof *banks; i++)
        if (!strcmp(name, banks[i].name)) {
            *out = banks[i].algorithm;
            return true;
        }
    return false;
}

/* A list of PCRs: numbers up to 23, with a comma between them. */
static bool get_pcrs(const char *list, uint32_t *out) {
    *out = 0;
    while (*list >= '0' && *list <= '9') {
        char *end;
        unsigned long long pcr = strtoull(list, &end, 10);
        if (pcr > 23)
            return false;
        *out |= 1u << pcr;
        if (!*end)
            return true;
        if (*end != ',')
            return false;
        list = end + 1;
    }
    return false;
}

/* Hex of one byte or more. uefi_hex reads other characters as digits of 0, so they are refused before it. */
static bool get_nonce(const char *hex, UefiBytes *out) {
    static uint8_t room[1 << 10];
    size_t length = strlen(hex);
    if (!length || length % 2 || strspn(hex, "0123456789abcdefABCDEF") != length)
        return false;
    out->at = room;
    return uefi_hex(uefi_buffer(room, sizeof room), uefi_bytes(hex, length), &out->n) == UEFI_OK;
}

static void put_hex(const char *name, const uint8_t *bytes, size_t n) {
    printf("%s", name);
    for (size_t i = 0; i < n; i++)
        printf("%02x", bytes[i]);
    putchar('\n');
}

/* A bank by its algorithm's name, or by the number of one that has no name. */
static void put_bank(const char *before, uint16_t algorithm) {
    UefiBytes name;
    if (uefi_algorithm_name(algorithm, &name) == UEFI_OK)
        printf("%s%.*s", before, UEFI_TEXT(name));
    else
        printf("%s%u", before, algorithm);
}

/* A bank and its PCRs. */
static void put_pcrs(const char *before, uint16_t algorithm, uint32_t pcrs) {
    put_bank(before, algorithm);
    for (uint32_t pcr = 0; pcr < 24; pcr++)
        if (pcrs >> pcr & 1)
            printf(" %" PRIu32, pcr);
    putchar('\n');
}

static void put_reason(const char *before, UefiStatus status) {
    UefiBytes text;
    uefi_status_text(status, &text);
    printf("%s%.*s\n", before, UEFI_TEXT(text));
}

static void put_quote(UefiBytes message, const UefiQuote *quote) {
    UefiPcrSelection selection;
    size_t at = 0;
    while (uefi_quote_next_selection(message, &at, &selection) == UEFI_OK)
        put_pcrs("bank ", selection.algorithm, selection.pcrs);
    printf("clock %" PRIu64 " resets %" PRIu32 " restarts %" PRIu32 "%s\n", quote->clock, quote->reset_count,
           quote->restart_count, quote->safe ? "" : " unsafe");
    printf("firmware %" PRIx64 "\n", quote->firmware_version);
    put_hex("nonce ", quote->extra_data.at, quote->extra_data.n);
}

static bool is_same(UefiBytes one, UefiBytes other) {
    return one.n == other.n && !memcmp(one.at, other.at, one.n);
}

/* The PCRs that are asked for and that the quote doesn't cover. A bank may be in several selections. */
static uint32_t not_covered(UefiBytes message, const Asked *asked) {
    UefiPcrSelection selection;
    uint32_t pcrs = asked->pcrs;
    size_t at = 0;
    while (uefi_quote_next_selection(message, &at, &selection) == UEFI_OK)
        if (selection.algorithm == asked->algorithm)
            pcrs &= ~selection.pcrs;
    return pcrs;
}

static bool agrees(const UefiQuote *quote, UefiStatus status, const UefiQuoteDigest *found) {
    return status == UEFI_OK && is_same(quote->pcr_digest, uefi_bytes(found->value, found->size));
}

/* If the log doesn't say the locality at which the TPM was started, each is tried, and 0 last. */
static UefiStatus find(UefiBytes message, const UefiQuote *quote, UefiBytes log, UefiQuoteDigest *found) {
    static const uint32_t localities[] = {3, 4, 0};
    uint8_t locality;
    UefiStatus status = uefi_startup_locality(log, log.n, &locality);
    if (status == UEFI_OK)
        return uefi_quote_digest(message, UEFI_HASH_OF_SIZE, log, log.n, UEFI_LOCALITY_OF_LOG, &workspace, found);
    for (size_t i = 0; i < 3 && !agrees(quote, status, found); i++)
        status = uefi_quote_digest(message, UEFI_HASH_OF_SIZE, log, log.n, localities[i], &workspace, found);
    return status;
}

/* Why the log doesn't lead to the quote's digest. */
static void put_difference(UefiStatus status, const UefiQuoteDigest *found) {
    if (status == UEFI_OK) {
        put_hex("the log leads to ", found->value, found->size);
    } else if (status == UEFI_NO_HASH) {
        put_reason("no digest: ", status);
    } else if (status == UEFI_NO_BANK) {
        put_bank("the log has no bank ", found->algorithm);
        putchar('\n');
    } else {
        printf("PCR %" PRIu32, found->pcr_index);
        put_bank(" of bank ", found->algorithm);
        printf(" is undetermined by event %zu at %zu", found->index, found->offset);
        put_reason(": ", status);
    }
}

/* One verdict: the first of the three that isn't as it has to be, or that all are. */
static int judge(UefiBytes message, const UefiQuote *quote, UefiBytes log, const Asked *asked) {
    UefiQuoteDigest found;
    if (!is_same(quote->extra_data, asked->nonce)) {
        puts("the nonce is another");
        return 1;
    }
    uint32_t lacking = not_covered(message, asked);
    if (lacking) {
        put_pcrs("not covered: ", asked->algorithm, lacking);
        return 1;
    }
    UefiStatus status = find(message, quote, log, &found);
    if (!agrees(quote, status, &found)) {
        put_difference(status, &found);
        return 1;
    }
    puts("the log agrees");
    return 0;
}

int main(int argc, char **argv) {
    static uint8_t room[1 << 10], log_room[1 << 20];
    UefiBytes message, log;
    UefiQuote quote;
    Asked asked;
    size_t offset = 0;
    if (argc != 6 || !get_bank(argv[3], &asked.algorithm) || !get_pcrs(argv[4], &asked.pcrs) ||
        !get_nonce(argv[5], &asked.nonce)) {
        fprintf(stderr, "usage: quote QUOTE LOG BANK PCRS NONCE, such as sha256 0,1,7 c0ffee\n");
        return 2;
    }
    if (!get(argv[1], room, sizeof room, &message) || !get(argv[2], log_room, sizeof log_room, &log))
        return 2;
    UefiStatus status = uefi_quote(message, &quote);
    if (status != UEFI_OK) {
        put_reason("no quote: ", status);
        return 2;
    }
    status = uefi_log_read(log, log.n, &offset);
    if (status != UEFI_OK) {
        printf("no whole log, at %zu", offset);
        put_reason(": ", status);
        return 2;
    }
    put_quote(message, &quote);
    return judge(message, &quote, log, &asked);
}
