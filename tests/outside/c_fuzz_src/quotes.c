/* Quotes of a TPM. */
#include "fuzz.h"

/* What is left of a quote, and the first fault. */
typedef struct {
    UefiBytes left;
    UefiStatus fault;
} Reader;

static void judge(Reader *r, bool holds, UefiStatus fault) {
    if (!r->fault && !holds) r->fault = fault;
}

static UefiBytes take(Reader *r, size_t n) {
    judge(r, n <= r->left.n, UEFI_TOO_SHORT);
    UefiBytes found = slice(r->left.at, r->fault ? 0 : n);
    r->left = from(r->left, found.n);
    return found;
}

static uint64_t number(Reader *r, size_t n) {
    UefiBytes bytes = take(r, n);
    uint64_t value = 0;
    for (size_t i = 0; i < bytes.n; i++) value = value << 8 | bytes.at[i];
    return value;
}

static UefiBytes sized(Reader *r) {
    return take(r, number(r, 2));
}

/* Reads a quote, and writes the selection of an index; true if it is there. */
static bool read_quote(Reader *r, UefiQuote *out, size_t index, UefiPcrSelection *selection) {
    bool found = false;
    judge(r, number(r, 4) == 0xff544347, UEFI_NOT_GENERATED);
    judge(r, number(r, 2) == 0x8018, UEFI_NOT_QUOTE);
    out->qualified_signer = sized(r), out->extra_data = sized(r);
    out->clock = number(r, 8), out->reset_count = number(r, 4), out->restart_count = number(r, 4);
    uint64_t safe = number(r, 1);
    judge(r, safe <= 1, UEFI_BAD_SAFE);
    out->safe = safe == 1, out->firmware_version = number(r, 8);
    uint64_t count = number(r, 4);
    for (size_t i = 0; i < count && !r->fault; i++) {
        uint16_t algorithm = number(r, 2);
        size_t n = number(r, 1);
        judge(r, n <= 4, UEFI_BAD_SELECTION);
        UefiBytes bitmap = take(r, n);
        uint32_t pcrs = 0;
        for (size_t k = bitmap.n; k--;) pcrs = pcrs << 8 | bitmap.at[k];
        judge(r, pcrs < 1 << 24, UEFI_BAD_SELECTION);
        if (i == index) *selection = (UefiPcrSelection){pcrs, algorithm}, found = true;
    }
    out->pcr_digest = sized(r);
    judge(r, !r->left.n, UEFI_LEFT_OVER);
    return found;
}

UefiStatus plain_quote(UefiBytes message, UefiQuote *out) {
    Reader r = {message, UEFI_OK};
    UefiQuote quote;
    UefiPcrSelection selection;
    read_quote(&r, &quote, 0, &selection);
    if (!r.fault) *out = quote;
    return r.fault;
}

UefiStatus plain_quote_next_selection(UefiBytes message, size_t *cursor, UefiPcrSelection *out) {
    Reader r = {message, UEFI_OK};
    UefiQuote quote;
    UefiPcrSelection selection;
    bool is_there = read_quote(&r, &quote, *cursor, &selection);
    if (r.fault) return r.fault;
    if (!is_there) return UEFI_END;
    return *out = selection, ++*cursor, UEFI_OK;
}

static void push(uint8_t *made, size_t *n, uint64_t value, size_t width) {
    while (width--) made[(*n)++] = value >> 8 * width;
}

static void push_any(uint8_t *made, size_t *n, size_t count) {
    while (count--) made[(*n)++] = any();
}

UefiBytes make_quote(UefiBytes bytes) {
    static const uint8_t banks[] = {4, 11, 12, 13, 18}, sizes[] = {20, 32, 48, 64};
    uint8_t made[256];
    size_t n = 0, size;
    push(made, &n, 0xff544347, 4), push(made, &n, 0x8018, 2);
    for (int i = 0; i < 2; i++) push(made, &n, size = below(9), 2), push_any(made, &n, size);
    push_any(made, &n, 16), push(made, &n, any() & 15 ? any() & 1 : below(4), 1), push_any(made, &n, 8);
    size_t count = below(5);
    push(made, &n, count, 4);
    while (count--) {
        push(made, &n, any() & 3 ? banks[below(5)] : below(20), 2);
        push(made, &n, size = any() & 15 ? below(5) : below(7), 1), push_any(made, &n, size);
        /* One PCR of the first eight, or any of all. */
        if (size && any() & 1) memset(made + n - size, 0, size), made[n - size] = 1 << (any() & 1 ? 0 : below(8));
        if (size == 4) made[n - 1] = any() & 7 ? 0 : 1 << below(8);
    }
    push(made, &n, size = any() & 1 ? sizes[below(4)] : below(33), 2), push_any(made, &n, size);
    if (!(any() & 7)) n = below(n);
    if (!(any() & 7)) push_any(made, &n, 1 + below(2));
    for (size_t k = any() & 3 ? 0 : below(3); k-- && n;) made[below(n)] = any();
    if (n > bytes.n) return bytes;
    UefiBytes quote = from(bytes, bytes.n - n);
    memcpy((uint8_t *)quote.at, made, n);
    return quote;
}

void quotes_of(UefiBytes part) {
    UefiBytes message = any() & 7 ? make_quote(part) : part;
    size_t at = any() & 3 ? 0 : any() & 1 ? below(4) : any();
    READ(UefiQuote, quote, message);
    while (NEXT(UefiPcrSelection, at, quote_next_selection, message) == UEFI_OK) {}
}
