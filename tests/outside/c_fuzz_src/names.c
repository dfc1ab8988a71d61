/* UCS-2 and UTF-8, names of configurations, and the writers of records that have a name. */
#include "fuzz.h"

/* The length of a unit in UTF-8 (RFC 3629); 0 if it is no character. */
static size_t encoded(uint32_t unit, uint8_t *to) {
    if (!unit || (unit >= 0xd800 && unit <= 0xdfff)) return 0;
    if (unit < 0x80) return to[0] = unit, 1;
    if (unit < 0x800) return to[0] = 0xc0 | unit >> 6, to[1] = 0x80 | (unit & 63), 2;
    return to[0] = 0xe0 | unit >> 12, to[1] = 0x80 | (unit >> 6 & 63), to[2] = 0x80 | (unit & 63), 3;
}

static UefiStatus plain_ucs2_text(UefiBuffer buffer, UefiBytes units, size_t *size) {
    static uint8_t text[ROOM];
    size_t n = 0;
    *size = 0;
    if (units.n % 2 || !units.n || u16_at(units.at + units.n - 2)) return UEFI_NOT_TEXT;
    for (size_t i = 0, length; i + 2 < units.n; i += 2, n += length)
        if (!(length = encoded(u16_at(units.at + i), text + n))) return UEFI_NOT_TEXT;
    return put(text, n, buffer, size);
}

static UefiStatus plain_ucs2_units(UefiBuffer buffer, UefiBytes text, size_t *size) {
    static uint8_t units[ROOM];
    size_t n = 0;
    *size = 0;
    if (!is_utf8(text)) return UEFI_NOT_TEXT;
    for (size_t i = 0, length; i < text.n; i += length, n += 2) {
        const uint8_t *b = text.at + i;
        length = character(b, text.n - i);
        uint32_t unit = length == 1 ? b[0] : b[0] & (length == 2 ? 31 : 15);
        for (size_t k = 1; k < length; k++) unit = unit << 6 | (b[k] & 63);
        if (length == 4 || !unit) return UEFI_NOT_TEXT;
        units[n] = unit, units[n + 1] = unit >> 8;
    }
    units[n] = units[n + 1] = 0;
    return put(units, n + 2, buffer, size);
}

static UefiStatus plain_config_name(UefiBuffer buffer, UefiBytes value, size_t *size) {
    static uint8_t name[ROOM];
    size_t n = 0;
    *size = 0;
    if (!is_utf8(value) || value.n % 2) return UEFI_NOT_TEXT;
    for (size_t i = 0, length; i < value.n; i += 4, n += length) {
        uint32_t high = plain_byte(value.at + i, 2);
        if (i + 4 > value.n) return high ? UEFI_NOT_TEXT : put(name, n, buffer, size);
        if (!(length = encoded(high << 8 | plain_byte(value.at + i + 2, 2), name + n))) return UEFI_NOT_TEXT;
    }
    return put(name, n, buffer, size);
}

/* Makes units that are near the ends of the ranges, and a NUL after them. */
static void mutate_units(UefiBytes units) {
    static const uint16_t edges[] = {1, 0x41, 0x7f, 0x80, 0x7ff, 0x800, 0xd7ff, 0xe000, 0xffff, 0xd800, 0xdfff, 0};
    uint8_t *b = (uint8_t *)units.at;
    size_t most = any() & 7 ? 9 : 12;
    for (size_t i = 0; i + 2 <= units.n; i += 2) memcpy(b + i, &edges[below(most)], 2);
    if (units.n >= 2 && any() & 15) memset(b + units.n - 2, 0, 2);
}

/* The last bytes of a part, mostly an even number of them. */
static UefiBytes last_of(UefiBytes part) {
    size_t n = below(part.n < 40 ? part.n + 1 : 40);
    if (any() & 15) n -= n % 2;
    return from(part, part.n - n);
}

/* Replaces the bytes by pieces of a table, up to a limit. Returns their length. */
static size_t mutate_text(UefiBytes text, size_t limit, const char (*pieces)[5], size_t most) {
    size_t i = 0;
    for (limit = below(text.n < limit ? text.n + 1 : limit); i + 4 <= limit;) {
        const char *piece = pieces[below(most)];
        memcpy((uint8_t *)text.at + i, piece, strlen(piece)), i += strlen(piece);
    }
    return i;
}

static void one_utf8(UefiBytes text) {
    static const char pieces[][5] = {"a", "\x7f", "\xc2\x80", "\xdf\xbf", "\xe0\xa0\x80", "\xed\x9f\xbf", "\xee\x80\x80", "\xef\xbf\xbf", "\xf0\x90\x80\x80", "\xed\xa0\x80"};
    if (any() & 3) {
        text.n = mutate_text(text, 40, pieces, any() & 7 ? 8 : 10);
        if (text.n && !(any() & 15)) ((uint8_t *)text.at)[below(text.n)] = 0;
    }
    WRITE(ucs2_units, buffer, text, &size);
}

static void one_config_name(UefiBytes value) {
    static const char pieces[][5] = {"0041", "007f", "0080", "07Ff", "0800", "D7FF", "e000", "ffff", "+1+0", "d800", "DFff", "0000", "004g", "\xc3\xa9" "00", "\xc3\xa9\xc3\xa9", "\xed\xa0\x80" "0"};
    if (any() & 3) {
        size_t i = mutate_text(value, 60, pieces, any() & 7 ? 9 : 16);
        if (i + 2 <= value.n && !(any() & 7)) memcpy((uint8_t *)value.at + i, any() & 3 ? "00" : "01", 2), i += 2;
        value.n = i && !(any() & 15) ? i - 1 : i;
    }
    WRITE(config_name, buffer, value, &size);
}

/* Whether units are a name, and a record with it after `offset` bytes fits, whose size is a multiple of eight. */
static UefiStatus has_room(UefiBytes name, size_t offset, UefiBuffer buffer, size_t *size) {
    size_t length;
    bool is_name = plain_ucs2_text((UefiBuffer){buffer.at, 0}, name, &length) != UEFI_NOT_TEXT;
    *size = is_name ? (offset + name.n + 7) / 8 * 8 : 0;
    return !is_name ? UEFI_NOT_TEXT : *size <= buffer.n ? UEFI_OK : UEFI_BUFFER_TOO_SMALL;
}

/* The size of a record, in its first eight bytes. */
static void put_size(uint64_t size, uint8_t *b) { memcpy(b, &size, 8); }

static UefiStatus plain_write_file_info(UefiBuffer buffer, const UefiFileInfo *info, size_t *size) {
    uint8_t *b = buffer.at;
    UefiStatus status = has_room(info->name, 80, buffer, size);
    if (status != UEFI_OK) return status;
    put_size(*size, b), memcpy(b + 8, &info->file_size, 8), memcpy(b + 16, &info->physical_size, 8);
    put_time(&info->create_time, b + 24), put_time(&info->last_access_time, b + 40);
    put_time(&info->modification_time, b + 56);
    memcpy(b + 72, &info->attribute, 8), memcpy(b + 80, info->name.at, info->name.n);
    return UEFI_OK;
}

static void one_file_written(UefiBytes name) {
    uint8_t bytes[48];
    for (int i = 0; i < 48; i++) bytes[i] = any();
    UefiFileInfo info = {name, any(), any(), any(), any(), time_at(bytes), time_at(bytes + 16), time_at(bytes + 32)};
    WRITE(write_file_info, buffer, &info, &size);
}

/* Bytes 9 to 15 of the buffer stay. */
static UefiStatus plain_write_file_system_info(UefiBuffer buffer, const UefiFileSystemInfo *info, size_t *size) {
    uint8_t *b = buffer.at;
    UefiStatus status = has_room(info->label, 36, buffer, size);
    if (status != UEFI_OK) return status;
    put_size(*size, b), b[8] = info->read_only, memcpy(b + 16, &info->volume_size, 8);
    memcpy(b + 24, &info->free_space, 8), memcpy(b + 32, &info->block_size, 4);
    memcpy(b + 36, info->label.at, info->label.n);
    return UEFI_OK;
}

static UefiStatus plain_write_volume_label(UefiBuffer buffer, UefiBytes label, size_t *size) {
    UefiStatus status = has_room(label, 0, (UefiBuffer){buffer.at, ROOM}, size);
    return status == UEFI_OK ? put(label.at, label.n, buffer, size) : status;
}

static void one_volume_written(UefiBytes label) {
    UefiFileSystemInfo info = {label, any(), any(), any(), any(), any() & 1};
    WRITE(write_file_system_info, buffer, &info, &size);
    WRITE(write_volume_label, buffer, label, &size);
}

void names_of(UefiBytes part) {
    UefiBytes units = part, name;
    if (any() & 3) units = last_of(part), mutate_units(units);
    WRITE(ucs2_text, buffer, units, &size);
    one_utf8(part), one_config_name(part), name = last_of(part);
    if (any() & 7) mutate_units(name);
    one_file_written(name), one_volume_written(name);
}
