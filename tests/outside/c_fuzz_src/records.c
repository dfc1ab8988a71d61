/* Times, records of files and volumes, texts in hex, and the writers of events. */
#include "fuzz.h"

UefiTime time_at(const uint8_t *b) {
    return (UefiTime){.year = u16_at(b), .month = b[2], .day = b[3], .hour = b[4], .minute = b[5], .second = b[6],
                      .nanosecond = u32_at(b + 8), .zone = (int16_t)u16_at(b + 12), .daylight = b[14]};
}

void put_time(const UefiTime *time, uint8_t *b) {
    memcpy(b, &time->year, 2), memcpy(b + 8, &time->nanosecond, 4), memcpy(b + 12, &time->zone, 2);
    b[2] = time->month, b[3] = time->day, b[4] = time->hour, b[5] = time->minute, b[6] = time->second;
    b[7] = b[15] = 0, b[14] = time->daylight;
}

/* The fields at fault of sixteen bytes: daylight alone, or those out of range. */
static UefiStatus plain_time_faults(UefiBytes bytes, UefiTimeFaults *out) {
    if (bytes.n < 16) return UEFI_TOO_SHORT;
    UefiTime time = time_at(bytes.at);
    UefiTimeFaults faults = {.daylight = time.daylight > 3};
    if (!faults.daylight) {
        faults.year = time.year < 1900 || time.year > 9999;
        faults.month = time.month < 1 || time.month > 12;
        faults.day = time.day < 1 || time.day > 31;
        faults.hour = time.hour > 23;
        faults.minute = time.minute > 59;
        faults.second = time.second > 59;
        faults.nanosecond = time.nanosecond > 999999999;
        faults.zone = time.zone != 0x7ff && (time.zone < -1440 || time.zone > 1440);
    }
    return *out = faults, UEFI_OK;
}

static UefiStatus plain_time(UefiBytes bytes, UefiTime *out) {
    static const UefiTimeFaults none;
    UefiTimeFaults faults;
    if (plain_time_faults(bytes, &faults) != UEFI_OK) return UEFI_TOO_SHORT;
    if (memcmp(&faults, &none, sizeof none)) return UEFI_BAD_TIME;
    return *out = time_at(bytes.at), UEFI_OK;
}

/* A time is written if its fields are within their ranges; daylight may be any number. */
static UefiStatus plain_write_time(uint8_t *to, const UefiTime *time) {
    uint8_t b[16];
    UefiTime read;
    put_time(time, b), b[14] = 0;
    if (plain_time(uefi_bytes(b, 16), &read) != UEFI_OK) return UEFI_BAD_TIME;
    return put_time(time, to), UEFI_OK;
}

/* Makes times that are near the ends of the ranges. */
static void mutate_time(uint8_t *b) {
    static const uint16_t years[] = {1899, 1900, 9999, 10000}, zones[] = {0x7ff, 0x800, 1440, 1441, 0, (uint16_t)-1440, (uint16_t)-1441};
    static const uint32_t seconds[] = {0, 999999999, 1000000000};
    memcpy(b, &years[below(4)], 2), memcpy(b + 12, &zones[below(7)], 2), memcpy(b + 8, &seconds[below(3)], 4);
    b[2] = below(14), b[3] = below(33), b[4] = 20 + below(5), b[5] = 56 + below(5), b[6] = 56 + below(5), b[14] = below(5);
}

static void one_time(UefiBytes bytes) {
    if (bytes.n >= 16 && any() & 1) mutate_time((uint8_t *)bytes.at);
    READ(UefiTime, time, bytes), READ(UefiTimeFaults, time_faults, bytes);
    if (bytes.n < 16) return;
    UefiTime time = time_at(bytes.at);
    if (any() & 1) time.daylight = any();
    WRITE_TO(16, write_time, buffer.at, &time);
}

/* Where the name ends that is at an offset of the bytes that were written; 0 if it doesn't. */
static size_t plain_name(UefiBytes buffer, size_t written, size_t offset) {
    size_t n = written < buffer.n ? written : buffer.n;
    for (size_t i = offset; i + 2 <= n; i += 2)
        if (!u16_at(buffer.at + i)) return i + 2;
    return 0;
}

/* Whether a record of this length is within the buffer. If it isn't, the caller learns the size that is needed. */
static UefiStatus is_within(UefiBytes buffer, size_t end, size_t *needed) {
    size_t size = (end + 7) / 8 * 8;
    if (end && size <= buffer.n) return UEFI_OK;
    return *needed = size, end ? UEFI_BUFFER_TOO_SMALL : UEFI_NOT_NUL_TERMINATED;
}

static UefiStatus plain_file_info(UefiBytes buffer, size_t written, UefiFileInfo *out, size_t *needed) {
    const uint8_t *b = buffer.at;
    size_t end = plain_name(buffer, written, 80);
    UefiStatus status = is_within(buffer, end, needed);
    if (status != UEFI_OK) return status;
    *out = (UefiFileInfo){{b + 80, end - 80}, u64_at(b), u64_at(b + 8), u64_at(b + 16), u64_at(b + 72),
                          time_at(b + 24), time_at(b + 40), time_at(b + 56)};
    return UEFI_OK;
}

static UefiStatus plain_file_system_info(UefiBytes buffer, size_t written, UefiFileSystemInfo *out, size_t *needed) {
    const uint8_t *b = buffer.at;
    size_t end = plain_name(buffer, written, 36);
    UefiStatus status = is_within(buffer, end, needed);
    if (status != UEFI_OK) return status;
    *out = (UefiFileSystemInfo){{b + 36, end - 36}, u64_at(b), u64_at(b + 16), u64_at(b + 24),
                                u32_at(b + 32), b[8] != 0};
    return UEFI_OK;
}

static UefiStatus plain_volume_label(UefiBytes buffer, size_t written, UefiBytes *out, size_t *needed) {
    size_t end = plain_name(buffer, written, 0);
    if (!end) return *needed = 0, UEFI_NOT_NUL_TERMINATED;
    return *out = (UefiBytes){buffer.at, end}, UEFI_OK;
}

static void one_record(UefiBytes buffer, size_t written) {
    UefiFileInfo file;
    UefiFileSystemInfo volume;
    UefiBytes label;
    size_t needed = 7;
    BOTH(file, needed, file_info, buffer, written, &file, &needed), needed = 7;
    BOTH(volume, needed, file_system_info, buffer, written, &volume, &needed), needed = 7;
    BOTH(label, needed, volume_label, buffer, written, &label, &needed);
}

/* The length of the character that UTF-8 has there (RFC 3629); 0 for none. */
size_t character(const uint8_t *b, size_t n) {
    size_t length = b[0] < 0x80 ? 1 : b[0] < 0xc2 ? 0 : b[0] < 0xe0 ? 2 : b[0] < 0xf0 ? 3 : b[0] < 0xf5 ? 4 : 0;
    if (!length || length > n) return 0;
    for (size_t i = 1; i < length; i++)
        if (b[i] >> 6 != 2) return 0;
    bool is_long = (b[0] == 0xe0 && b[1] < 0xa0) || (b[0] == 0xf0 && b[1] < 0x90);
    return is_long || (b[0] == 0xed && b[1] > 0x9f) || (b[0] == 0xf4 && b[1] > 0x8f) ? 0 : length;
}

bool is_utf8(UefiBytes text) {
    for (size_t i = 0, length; i < text.n; i += length)
        if (!(length = character(text.at + i, text.n - i))) return false;
    return true;
}

static int digit(uint8_t c) {
    return c >= '0' && c <= '9' ? c - '0' : (c | 32) >= 'a' && (c | 32) <= 'f' ? (c | 32) - 'a' + 10 : -1;
}

/* The byte of two bytes of a text, or of the last one. */
uint8_t plain_byte(const uint8_t *b, size_t n) {
    int high = digit(b[0]), low = n > 1 ? digit(b[1]) : -1;
    if (n == 1) return high < 0 ? 0 : high;
    return low < 0 ? 0 : b[0] == '+' ? low : high < 0 ? 0 : 16 * high + low;
}

UefiStatus plain_hex(UefiBuffer buffer, UefiBytes text, size_t *size) {
    if (!is_utf8(text)) return *size = 0, UEFI_NOT_TEXT;
    *size = (text.n + 1) / 2;
    if (*size > buffer.n) return UEFI_BUFFER_TOO_SMALL;
    for (size_t i = 0; i < *size; i++) buffer.at[i] = plain_byte(text.at + 2 * i, text.n - 2 * i);
    return UEFI_OK;
}

static void one_text(UefiBytes text) {
    /* Characters of UTF-8, and what is near to them. */
    static const char pieces[][5] = {"\xc3\xa9", "\xed\x9f\xbf", "\xed\xa0\x80", "\xf4\x8f\xbf\xbf", "\xc0\x80"};
    uint8_t *b = (uint8_t *)text.at;
    if (any() & 1)
        for (size_t i = 0; i < text.n; i++) b[i] = any() & 7 ? "0123456789abcdefABCDEF+g"[below(24)] : (char)(any() & 127);
    if (any() & 3 && text.n > 4) memcpy(b + below(text.n - 4), pieces[below(5)], 2 + below(3));
    WRITE(hex, buffer, text, &size);
}

static UefiStatus plain_write_event(UefiBuffer buffer, UefiBytes data, const uint8_t *digest, uint32_t pcr,
                                    uint32_t type, size_t *size) {
    uint8_t *b = buffer.at;
    uint32_t length = data.n;
    *size = 32 + data.n;
    if (*size > buffer.n) return UEFI_BUFFER_TOO_SMALL;
    memcpy(b, &pcr, 4), memcpy(b + 4, &type, 4), memcpy(b + 8, digest, 20), memcpy(b + 28, &length, 4);
    return memcpy(b + 32, data.at, data.n), UEFI_OK;
}

/* The size, the header (its size, 14, and the version, 1), the register, the type, and the data. */
static UefiStatus plain_write_event_inputs(UefiBuffer buffer, UefiBytes data, uint32_t pcr, uint32_t type, size_t *size) {
    static const uint8_t header[] = {14, 0, 0, 0, 1, 0};
    uint8_t *b = buffer.at;
    uint32_t length = *size = 18 + data.n;
    if (*size > buffer.n) return UEFI_BUFFER_TOO_SMALL;
    memcpy(b, &length, 4), memcpy(b + 4, header, 6), memcpy(b + 10, &pcr, 4), memcpy(b + 14, &type, 4);
    return memcpy(b + 18, data.at, data.n), UEFI_OK;
}

static void one_event_written(UefiBytes data) {
    uint8_t digest[20];
    for (int i = 0; i < 20; i++) digest[i] = any();
    uint32_t pcr = any(), type = any();
    WRITE(write_event, buffer, data, digest, pcr, type, &size);
    WRITE(write_event_inputs, buffer, data, pcr, type, &size);
}

void records_of(UefiBytes part) {
    one_record(part, any() & 1 ? part.n : below(part.n + 9)), one_event_written(part);
    one_time(part), one_text(part);
}
