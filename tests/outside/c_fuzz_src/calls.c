/* Load options, the data of events, GUIDs, numbers, and what is written. */
#include "fuzz.h"

static UefiStatus plain_load_option(UefiBytes bytes, UefiLoadOption *out) {
    const uint8_t *b = bytes.at;
    size_t end = 6;
    if (bytes.n < 6) return UEFI_TOO_SHORT;
    while (bytes.n - end >= 2 && u16_at(b + end)) end += 2;
    if (bytes.n - end < 2) return UEFI_NOT_NUL_TERMINATED;
    UefiBytes rest = from(bytes, end + 2), list = {rest.at, u16_at(b + 4)}, path;
    if (list.n > rest.n) return UEFI_FILE_PATH_LIST_TOO_LONG;
    if (plain_path(list, &path) != UEFI_OK) return UEFI_NO_FILE_PATH;
    *out = (UefiLoadOption){{b + 6, end - 4}, path, list, from(rest, list.n), u32_at(b)};
    return UEFI_OK;
}

static void one_load_option(UefiBytes bytes) {
    uint8_t *b = (uint8_t *)bytes.at;
    size_t n = bytes.n;
    /* A description, and a list that may be as long as is stated. */
    if (n > 20 && any() & 1) b[6] = 'a', b[7] = 0, b[8] = b[9] = 0, b[4] = below(n - 9), b[5] = 0;
    if (n > 20 && any() & 1) {
        b[10] = 4, b[11] = 1, b[12] = 4 + 2 * below(2), b[13] = 0;
        memcpy(b + 10 + b[12], "\x7f\xff\4\0", 4);
    }
    READ(UefiLoadOption, load_option, bytes);
}

static UefiStatus plain_variable(UefiBytes bytes, UefiVariable *out) {
    if (bytes.n < 32) return UEFI_OTHER_DATA;
    UefiBytes rest = from(bytes, 32);
    uint64_t units = u64_at(bytes.at + 16);
    if (units > rest.n / 2 || u64_at(bytes.at + 24) != rest.n - 2 * units) return UEFI_OTHER_DATA;
    out->name = (UefiBytes){rest.at, 2 * units}, out->value = from(rest, 2 * units);
    memcpy(out->guid, bytes.at, 16);
    return UEFI_OK;
}

static void one_variable(UefiBytes bytes) {
    size_t n = bytes.n;
    if (n >= 32 && any() & 3) {
        uint64_t units = any() & 7 ? below((n - 32) / 2 + 2) : any(), value = n - 32 - 2 * units;
        memcpy((uint8_t *)bytes.at + 16, &units, 8), memcpy((uint8_t *)bytes.at + 24, &value, 8);
    }
    READ(UefiVariable, variable, bytes);
}

static UefiStatus plain_image(UefiBytes bytes, uint8_t uintn_size, UefiImage *out) {
    const uint8_t *b = bytes.at;
    size_t width = uintn_width(uintn_size), start = 8 + 3 * width;
    if (bytes.n < start || uintn_at(b + start - width, width) > bytes.n - start) return UEFI_OTHER_DATA;
    size_t path = uintn_at(b + start - width, width);
    *out = (UefiImage){{b + start, path}, from(bytes, start + path), u64_at(b), uintn_at(b + 8, width),
                       uintn_at(b + 8 + width, width)};
    return UEFI_OK;
}

static void one_image(UefiBytes bytes) {
    uint8_t uintn_size = below(4);
    size_t width = uintn_width(uintn_size), start = 8 + 3 * width;
    uint64_t path = any() & 7 ? below(bytes.n - start + 2) : any();
    if (bytes.n >= start && any() & 3) memcpy((uint8_t *)bytes.at + start - width, &path, width);
    READ(UefiImage, image, bytes, uintn_size);
}

static UefiStatus plain_blob(UefiBytes bytes, UefiBlob *out) {
    if (bytes.n != 16) return UEFI_OTHER_DATA;
    *out = (UefiBlob){slice(0, 0), u64_at(bytes.at), u64_at(bytes.at + 8)};
    return UEFI_OK;
}

static UefiStatus plain_blob2(UefiBytes bytes, UefiBlob *out) {
    const uint8_t *b = bytes.at;
    if (!bytes.n || bytes.n != 17u + b[0]) return UEFI_OTHER_DATA;
    *out = (UefiBlob){{b + 1, b[0]}, u64_at(b + 1 + b[0]), u64_at(b + 9 + b[0])};
    return UEFI_OK;
}

static UefiStatus plain_tagged_next(UefiBytes bytes, size_t *at, UefiTaggedEvent *out) {
    UefiBytes left = from(bytes, *at);
    if (!left.n) return UEFI_END;
    if (left.n < 8 || u32_at(left.at + 4) > left.n - 8) return UEFI_CUT;
    *out = (UefiTaggedEvent){{left.at + 8, u32_at(left.at + 4)}, u32_at(left.at)};
    *at += 8 + out->value.n;
    return UEFI_OK;
}

static void one_tagged(UefiBytes bytes) {
    size_t at = any() & 3 ? below(bytes.n + 2) : (size_t)any(), left = from(bytes, at).n;
    uint32_t length = below(left < 250 ? left - 7 : 250);
    if (left > 8 && any() & 1) memcpy((uint8_t *)bytes.at + at + 4, &length, 4);
    while (NEXT(UefiTaggedEvent, at, tagged_next, bytes) == UEFI_OK) {}
}

static UefiStatus plain_boot_order(UefiBytes bytes, size_t index, uint16_t *out) {
    if (bytes.n % 2) return UEFI_OTHER_DATA;
    if (index >= bytes.n / 2) return UEFI_END;
    *out = u16_at(bytes.at + 2 * index);
    return UEFI_OK;
}

static UefiStatus plain_signature(UefiBytes bytes, UefiSignature *out) {
    if (bytes.n < 16) return UEFI_OTHER_DATA;
    out->value = from(bytes, 16), memcpy(out->owner, bytes.at, 16);
    return UEFI_OK;
}

static void one_guid(UefiBytes bytes) {
    static const uint8_t order[] = {3, 2, 1, 0, 5, 4, 7, 6, 8, 9, 10, 11, 12, 13, 14, 15};
    char spelled[40], *to = spelled;
    uint8_t text[37] = {[36] = 0x5a};
    if (bytes.n < 16) return;
    for (int i = 0; i < 16; i++) {
        to += sprintf(to, "%02x", bytes.at[order[i]]);
        if (i == 3 || i == 5 || i == 7 || i == 9) *to++ = '-';
    }
    uefi_guid_text(text, bytes.at);
    NEED(!memcmp(text, spelled, 36) && text[36] == 0x5a);
}

static UefiStatus plain_config_number(UefiBytes text, uint64_t *out) {
    uint8_t bytes[8];
    size_t n = 0;
    if (plain_hex(uefi_buffer(bytes, 8), text, &n) != UEFI_OK) return UEFI_NOT_NUMBER;
    if (n != 1 && n != 2 && n != 4 && n != 8) return UEFI_NOT_NUMBER;
    *out = 0;
    for (size_t i = 0; i < n; i++) *out = *out << 8 | bytes[i];
    return UEFI_OK;
}

static void one_number(UefiBytes text) {
    if (text.n > 16) text.n = below(18);
    for (size_t i = 0; i < text.n; i++)
        if (any() & 7) ((uint8_t *)text.at)[i] = "0123456789abcdefABCDEF+"[below(23)];
    READ(uint64_t, config_number, text);
}

static UefiStatus plain_map_set(UefiBuffer map, size_t stride, size_t index, const UefiDescriptor *entry) {
    if (stride < 40 || stride % 8 || map.n % stride) return UEFI_NOT_MAP;
    if (index >= map.n / stride) return UEFI_END;
    memcpy(map.at + index * stride, entry, 40);
    return UEFI_OK;
}

static void one_entry_written(UefiBytes bytes) {
    size_t stride = any() & 7 ? 40 + 8 * below(4) : below(100), index = any() & 7 ? below(5) : (size_t)any();
    size_t n = any() & 3 ? stride * below(4) : below(300);
    UefiDescriptor entry;
    if (bytes.n < 40) return;
    memcpy(&entry, bytes.at, 40);
    WRITE_TO(n, map_set, buffer, stride, index, &entry);
}

void calls_of(UefiBytes part) {
    size_t index = any() & 7 ? below(part.n / 2 + 2) : (size_t)any();
    UefiBytes few = any() & 1 && part.n > 18 ? (UefiBytes){part.at, 14 + below(4)} : part;
    one_load_option(part), one_variable(part), one_image(part), one_guid(part), one_number(part);
    one_entry_written(part), one_tagged(part), READ(uint16_t, boot_order, part, index);
    READ(UefiSignature, signature, few), READ(UefiBlob, blob, few);
    if (part.n > 17 && any() & 1) *(uint8_t *)part.at = part.n - 17 + below(3) - 1;
    READ(UefiBlob, blob2, part);
}
