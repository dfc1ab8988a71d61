/* Texts of events, signature lists and partition tables. */
#include "fuzz.h"

/* How many bytes the character of UTF-8 with which bytes begin has; none, if they begin with none or with the NUL. */
static size_t utf8_length(const uint8_t *b, size_t n) {
    if (b[0] < 0x80) return b[0] ? 1 : 0;
    size_t length = b[0] >= 0xc2 && b[0] <= 0xdf ? 2 : b[0] >= 0xe0 && b[0] <= 0xef ? 3 : b[0] >= 0xf0 && b[0] <= 0xf4 ? 4 : 0;
    if (!length || length > n) return 0;
    uint32_t c = b[0] & (0xff >> (length + 1));
    for (size_t i = 1; i < length; i++) {
        if ((b[i] & 0xc0) != 0x80) return 0;
        c = c << 6 | (b[i] & 0x3f);
    }
    bool shorter = (length == 3 && c < 0x800) || (length == 4 && c < 0x10000);
    return shorter || (c >= 0xd800 && c <= 0xdfff) || c > 0x10ffff ? 0 : length;
}

/* Whether firmware writes a unit of UTF-16: it is a tab, ends a line, or is a character that prints, up to Latin Extended-A. */
static bool is_latin(uint16_t unit) {
    return unit == 9 || unit == 10 || unit == 13 || (unit >= 0x20 && unit <= 0x7e) || (unit >= 0xa0 && unit <= 0x17f);
}

/* Whether items of a width are a text, UTF-8 or such units, with a zero item at the end or without one. */
static bool is_text(const uint8_t *b, size_t n, size_t width, bool *has_nul) {
    *has_nul = n >= width && !b[n - 1] && !b[n - width];
    if (n % width) return false;
    size_t end = n - (*has_nul ? width : 0);
    for (size_t i = 0, step = width; i < end; i += step) {
        if (width == 2 && !is_latin(u16_at(b + i))) return false;
        if (width == 1 && !(step = utf8_length(b + i, end - i))) return false;
    }
    return true;
}

static UefiStatus plain_event_text(UefiBytes bytes, UefiEventText *out) {
    bool has_nul, utf8 = is_text(bytes.at, bytes.n, 1, &has_nul);
    if (!utf8 && !is_text(bytes.at, bytes.n, 2, &has_nul)) return UEFI_OTHER_DATA;
    *out = (UefiEventText){slice(bytes.at, bytes.n - (has_nul ? utf8 ? 1 : 2 : 0)), !utf8, has_nul};
    return UEFI_OK;
}

static UefiStatus plain_event_crtm_version(UefiBytes bytes, UefiCrtmVersion *out) {
    bool has_nul;
    if (is_text(bytes.at, bytes.n, 2, &has_nul) && has_nul) {
        *out = (UefiCrtmVersion){{slice(bytes.at, bytes.n - 2), true, true}, UEFI_CRTM_VERSION_UCS2};
    } else if (bytes.n == 16) {
        *out = (UefiCrtmVersion){{bytes, false, false}, UEFI_CRTM_VERSION_GUID};
    } else {
        if (plain_event_text(bytes, &out->text) != UEFI_OK) return UEFI_OTHER_DATA;
        out->form = UEFI_CRTM_VERSION_OTHER;
    }
    return UEFI_OK;
}

static void one_text(UefiBytes bytes) {
    size_t most = any() & 3 ? 8 : 16;
    if (bytes.n > most && any() & 1) bytes.n = most == 16 ? most : below(9);
    for (size_t i = 0; i < bytes.n && i < most; i++)
        if (any() & 7) ((uint8_t *)bytes.at)[i] = any() & 1 ? 'a' : i & 1 ? 0 : 0xe4;
    if (bytes.n >= 2 && !(any() & 3)) memset((uint8_t *)bytes.at + bytes.n - 2, 0, 2);
    READ(UefiEventText, event_text, bytes), READ(UefiCrtmVersion, event_crtm_version, bytes);
}

static UefiStatus plain_signature_list_next(UefiBytes bytes, size_t *at, UefiSignatureList *out) {
    UefiBytes left = from(bytes, *at);
    const uint8_t *b = left.at;
    if (!left.n) return UEFI_END;
    if (left.n < 28) return UEFI_BAD_SIGNATURE_LIST;
    uint64_t size = u32_at(b + 16), header = u32_at(b + 20), each = u32_at(b + 24);
    if (size > left.n || 28 + header > size || each < 16 || (size - 28 - header) % each) return UEFI_BAD_SIGNATURE_LIST;
    *out = (UefiSignatureList){slice(b + 28, header), slice(b + 28 + header, size - 28 - header), each, {0}};
    memcpy(out->signature_type, b, 16), *at += size;
    return UEFI_OK;
}

static UefiStatus plain_signature_next(UefiBytes signatures, uint32_t size, size_t *at, UefiSignature *out) {
    UefiBytes left = from(signatures, *at);
    if (size < 16) return UEFI_BAD_SIGNATURE_SIZE;
    if (!left.n) return UEFI_END;
    if (left.n < size) return UEFI_CUT;
    out->value = (UefiBytes){left.at + 16, size - 16}, memcpy(out->owner, left.at, 16), *at += size;
    return UEFI_OK;
}

static void one_list(UefiBytes bytes) {
    UefiSignatureList list;
    size_t at = below(3), next = 0, left = from(bytes, at).n;
    uint8_t *b = (uint8_t *)from(bytes, at).at;
    if (left > 80 && any() & 7) {
        memset(b + 16, 0, 12);
        b[16] = 28 + below(50), b[20] = below(5), b[24] = 15 + below(10);
    }
    if (BOTH(list, at, signature_list_next, bytes, &at, &list) != UEFI_OK) return;
    while (NEXT(UefiSignature, next, signature_next, list.signatures, list.signature_size) == UEFI_OK) {}
    NEED(next == list.signatures.n);
}

/* Signatures of any size, which may be cut. */
static void one_signature(UefiBytes bytes) {
    size_t at = any() & 3 ? below(bytes.n + 2) : (size_t)any();
    uint32_t size = any() & 7 ? 14 + below(8) : any();
    while (NEXT(UefiSignature, at, signature_next, bytes, size) == UEFI_OK) {}
}

static UefiStatus plain_gpt_header(UefiBytes bytes, uint8_t uintn_size, UefiGptHeader *out) {
    const uint8_t *b = bytes.at;
    size_t width = uintn_width(uintn_size), start = 92 + width;
    if (bytes.n < start) return UEFI_OTHER_DATA;
    uint64_t size = u32_at(b + 84), count = uintn_at(b + 92, width);
    if (size < 128 || (bytes.n - start) % size || (bytes.n - start) / size != count) return UEFI_OTHER_DATA;
    *out = (UefiGptHeader){.signature = u64_at(b), .revision = u32_at(b + 8), .header_size = u32_at(b + 12),
        .header_crc32 = u32_at(b + 16), .reserved = u32_at(b + 20), .my_lba = u64_at(b + 24),
        .alternate_lba = u64_at(b + 32), .first_usable_lba = u64_at(b + 40), .last_usable_lba = u64_at(b + 48),
        .partition_entry_lba = u64_at(b + 72), .entry_count = u32_at(b + 80), .entry_size = size,
        .entries_crc32 = u32_at(b + 88)};
    memcpy(out->disk_guid, b + 56, 16);
    return UEFI_OK;
}

static UefiStatus plain_gpt_entry(UefiBytes bytes, uint8_t uintn_size, size_t index, UefiGptEntry *out) {
    UefiGptHeader header;
    size_t start = 92 + uintn_width(uintn_size);
    if (plain_gpt_header(bytes, uintn_size, &header) != UEFI_OK) return UEFI_OTHER_DATA;
    if (index >= (bytes.n - start) / header.entry_size) return UEFI_END;
    const uint8_t *b = bytes.at + start + index * header.entry_size;
    *out = (UefiGptEntry){.rest = slice(b + 128, header.entry_size - 128), .first_lba = u64_at(b + 32),
                          .last_lba = u64_at(b + 40), .attributes = u64_at(b + 48)};
    memcpy(out->type_guid, b, 16), memcpy(out->unique_guid, b + 16, 16), memcpy(out->name, b + 56, 72);
    return UEFI_OK;
}

static void one_table(UefiBytes bytes) {
    uint8_t *b = (uint8_t *)bytes.at, uintn_size = below(4);
    size_t index = below(4), width = uintn_width(uintn_size);
    if (bytes.n > 400 && any() & 7) {
        memset(b + 84, 0, 4), memset(b + 92, 0, width);
        b[84] = 127 + below(8), b[92] = below(3);
        if (any() & 3) bytes.n = 92 + width + b[84] * b[92];
    }
    READ(UefiGptHeader, gpt_header, bytes, uintn_size), READ(UefiGptEntry, gpt_entry, bytes, uintn_size, index);
}

void contents_of(UefiBytes part) {
    one_text(part), one_list(part), one_signature(part), one_table(part);
}
