/* A program without a C library, which ends with status 0: both sides lay out
 * structures alike, a slice comes back as it was handed over, the calls on the data
 * of events fill what they are handed, and names and records are written where there
 * is room. Each status has a text, and the archive is of the header's version.
 */
#include "bare.h"

HAS(UefiBytes, EITHER(16, 8), n, EITHER(8, 4), "a slice");
HAS(UefiNode, EITHER(24, 12), sub_type, EITHER(17, 9), "a node");
HAS(UefiDescriptor, 40, attribute, 32, "a descriptor");
HAS(UefiLogHeader, EITHER(56, 32), uintn_size, EITHER(55, 31), "a header");
HAS(UefiEvent1, EITHER(48, 36), digest, EITHER(24, 16), "an event of version 1");
HAS(UefiEvent2, EITHER(48, 28), event_type, EITHER(40, 24), "an event of version 2");
HAS(UefiLog, EITHER(56, 28), version, EITHER(48, 24), "a log");
HAS(UefiEvent, EITHER(72, 44), version, EITHER(68, 40), "an event");
HAS(UefiDigest, EITHER(24, 12), algorithm, EITHER(16, 8), "a digest");
HAS(UefiTime, 16, daylight, 13, "a time");
HAS(UefiTimeFaults, 9, daylight, 8, "faults");
HAS(UefiFileInfo, EITHER(96, 88), create_time, EITHER(48, 40), "a file");
HAS(UefiFileSystemInfo, EITHER(48, 40), read_only, EITHER(44, 36), "a volume");
HAS(UefiResource, EITHER(48, 44), general_flags, 41, "a resource");
HAS(UefiPair, EITHER(40, 20), has_value, EITHER(32, 16), "a pair");
HAS(UefiLoadOption, EITHER(72, 36), attributes, EITHER(64, 32), "a load option");
HAS(UefiVariable, EITHER(48, 32), guid, EITHER(32, 16), "a variable");
HAS(UefiImage, EITHER(56, 40), link_time_address, EITHER(48, 32), "an image");
HAS(UefiBlob, EITHER(32, 24), length, EITHER(24, 16), "a blob");
HAS(UefiTaggedEvent, EITHER(24, 12), id, EITHER(16, 8), "a tagged event");
HAS(UefiEventText, EITHER(24, 12), has_nul, EITHER(17, 9), "a text");
HAS(UefiCrtmVersion, EITHER(32, 16), form, EITHER(24, 12), "a version");
HAS(UefiSignatureList, EITHER(56, 36), signature_type, EITHER(36, 20), "a list of signatures");
HAS(UefiSignature, EITHER(32, 24), owner, EITHER(16, 8), "a signature");
HAS(UefiGptHeader, EITHER(96, 92), disk_guid, 76, "the header of a partition table");
HAS(UefiGptEntry, EITHER(144, 136), name, EITHER(72, 64), "a partition");
HAS(UefiPcr, EITHER(96, 80), value, EITHER(28, 16), "a PCR");
HAS(UefiWorkspace, UEFI_WORKSPACE_SIZE, words, 0, "a workspace");
HAS(UefiQuote, EITHER(80, 52), safe, EITHER(72, 48), "a quote");
HAS(UefiPcrSelection, 8, algorithm, 4, "a selection of PCRs");
HAS(UefiQuoteDigest, EITHER(104, 88), value, EITHER(34, 22), "the digest of a quote");
_Static_assert(sizeof(UefiStatus) == 4 && UEFI_OK == 0 && UEFI_MISSING_TEXT == 45, "a status");
_Static_assert(UEFI_WORKSPACE_SIZE == 12288, "a workspace of 12 KB");
_Static_assert(UEFI_FORMATS_VERSION == 0x000100, "version 0.1.0");

static const uint8_t guid[16] = {0x80, 1, 2, 3, 4, 5, 6, 7, 8, 9, 10, 11, 12, 13, 14, 15};

static int texts(void) {
    UefiPair pair;
    size_t at = 0, size = 0;
    uint8_t room[2] = {0};
    if (uefi_config_next_pair(uefi_bytes("a=b&c", 5), &at, &pair) != UEFI_OK || at != 4 || !pair.has_value || pair.value.n != 1)
        return 10;
    if (uefi_config_next_pair(uefi_bytes("a=b&c", 5), &at, &pair) != UEFI_OK || at != 5 || pair.has_value || pair.key.n != 1)
        return 11;
    return uefi_hex(uefi_buffer(room, 2), uefi_bytes("1aFF", 4), &size) != UEFI_OK || size != 2 || room[0] != 0x1a || room[1] != 0xff ? 12 : 0;
}

static int records(void) {
    static const uint8_t times[16] = {0xe8, 7, 2, 31, [12] = 0xff, 7}, zeros[82] = {0};
    UefiTime time;
    UefiTimeFaults faults;
    UefiFileInfo file;
    UefiResource range;
    size_t at = 0, needed = 1;
    if (uefi_time(uefi_bytes(times, 16), &time) != UEFI_OK || time.year != 2024 || time.day != 31 || time.zone != 0x07ff)
        return 13;
    if (uefi_time_faults(uefi_bytes(zeros, 16), &faults) != UEFI_OK || !faults.year || !faults.month || faults.hour || faults.daylight)
        return 14;
    if (uefi_file_info(uefi_bytes(zeros, 82), 82, &file, &needed) != UEFI_BUFFER_TOO_SMALL || needed != 88)
        return 15;
    return uefi_pci_next(uefi_bytes(zeros, 82), &at, &range) != UEFI_UNKNOWN_TAG ? 16 : 0;
}

/* Three characters, of one, two and three bytes in UTF-8: units with a NUL, the text, and the value of a pair. */
static const uint8_t name_units[8] = {'A', 0, 0xe9, 0, 0xac, 0x20, 0, 0};
static const char name_text[] = "A\xc3\xa9\xe2\x82\xac";

static int names(void) {
    static const uint8_t surrogate[4] = {0, 0xd8, 0, 0};
    static uint8_t room[9];
    UefiBytes units = uefi_bytes(name_units, 8), text = uefi_bytes(name_text, 6), value = uefi_bytes("004100e920AC", 12);
    size_t size = 9;
    room[6] = room[8] = 0xcc;
    if (uefi_ucs2_text(uefi_buffer(room, 7), units, &size) != UEFI_OK || size != 6 || !are_same(room, name_text, 6) || room[6] != 0xcc)
        return 45;
    if (uefi_ucs2_text(uefi_buffer(room, 5), units, &size) != UEFI_BUFFER_TOO_SMALL || size != 6 || uefi_ucs2_text(uefi_buffer(room, 9), uefi_bytes(surrogate, 4), &size) != UEFI_NOT_TEXT || size)
        return 46;
    if (uefi_ucs2_text(uefi_buffer(NULL, 0), uefi_bytes(surrogate + 2, 2), &size) != UEFI_OK || size || uefi_ucs2_text(uefi_buffer(room, 9), uefi_bytes(name_units, 7), &size) != UEFI_NOT_TEXT)
        return 47;
    if (uefi_ucs2_units(uefi_buffer(room, 9), text, &size) != UEFI_OK || size != 8 || !are_same(room, name_units, 8) || room[8] != 0xcc)
        return 48;
    if (uefi_ucs2_units(uefi_buffer(room, 7), text, &size) != UEFI_BUFFER_TOO_SMALL || size != 8 || uefi_ucs2_units(uefi_buffer(room, 9), uefi_bytes("\xf0\x9f\x92\xa9", 4), &size) != UEFI_NOT_TEXT || size)
        return 49;
    if (uefi_ucs2_units(uefi_buffer(room, 2), uefi_bytes(NULL, 0), &size) != UEFI_OK || size != 2 || uefi_ucs2_units(uefi_buffer(room, 9), uefi_bytes("", 1), &size) != UEFI_NOT_TEXT || size)
        return 50;
    room[6] = 0xcc;
    if (uefi_config_name(uefi_buffer(room, 7), value, &size) != UEFI_OK || size != 6 || !are_same(room, name_text, 6) || room[6] != 0xcc)
        return 51;
    if (uefi_config_name(uefi_buffer(room, 5), value, &size) != UEFI_BUFFER_TOO_SMALL || size != 6 || uefi_config_name(uefi_buffer(room, 9), uefi_bytes("d800", 4), &size) != UEFI_NOT_TEXT || size)
        return 52;
    /* An odd last byte that is zero, one that isn't, and no character. */
    if (uefi_config_name(uefi_buffer(room, 1), uefi_bytes("004200", 6), &size) != UEFI_OK || size != 1 || room[0] != 'B' || uefi_config_name(uefi_buffer(room, 1), uefi_bytes("004201", 6), &size) != UEFI_NOT_TEXT)
        return 53;
    return uefi_config_name(uefi_buffer(NULL, 0), uefi_bytes(NULL, 0), &size) != UEFI_OK || size ? 54 : 0;
}

/* Records with a name of one character, whose bytes beside the fields stay as they were. */
static int written_records(void) {
    static uint8_t room[89];
    static UefiFileInfo file = {.size = 1, .file_size = 2, .physical_size = 3, .attribute = 0x10};
    static UefiFileSystemInfo volume = {.size = 1, .volume_size = 2, .free_space = 3, .block_size = 512, .read_only = true};
    static const uint8_t name[4] = {'A'}, short_name[2] = {'A'};
    size_t size = 0;
    file.name = volume.label = uefi_bytes(name, 4);
    file.create_time.year = 2024, file.create_time.zone = -1, file.last_access_time.nanosecond = 0x01020304, file.modification_time.daylight = 0xff;
    for (size_t i = 0; i < 89; i++)
        room[i] = 0xcc;
    if (uefi_write_file_info(uefi_buffer(room, 87), &file, &size) != UEFI_BUFFER_TOO_SMALL || size != 88 || room[0] != 0xcc)
        return 55;
    if (uefi_write_file_info(uefi_buffer(room, 89), &file, &size) != UEFI_OK || size != 88 || room[0] != 88 || room[8] != 2 || room[16] != 3 || room[24] != 0xe8)
        return 56;
    if (room[25] != 7 || room[36] != 0xff || room[37] != 0xff || room[48] != 4 || room[51] != 1 || room[70] != 0xff || room[71] || room[72] != 0x10)
        return 57;
    if (!are_same(room + 80, name, 4) || room[84] != 0xcc || room[87] != 0xcc || room[88] != 0xcc)
        return 58;
    for (size_t i = 0; i < 89; i++)
        room[i] = 0xcc;
    if (uefi_write_file_system_info(uefi_buffer(room, 39), &volume, &size) != UEFI_BUFFER_TOO_SMALL || size != 40 || room[0] != 0xcc)
        return 59;
    if (uefi_write_file_system_info(uefi_buffer(room, 89), &volume, &size) != UEFI_OK || size != 40 || room[0] != 40 || room[8] != 1 || room[9] != 0xcc)
        return 60;
    if (room[15] != 0xcc || room[16] != 2 || room[24] != 3 || room[32] || room[33] != 2 || !are_same(room + 36, name, 4) || room[40] != 0xcc)
        return 61;
    if (uefi_write_volume_label(uefi_buffer(room, 5), volume.label, &size) != UEFI_OK || size != 4 || !are_same(room, name, 4) || room[4])
        return 62;
    if (uefi_write_volume_label(uefi_buffer(room, 3), volume.label, &size) != UEFI_BUFFER_TOO_SMALL || size != 4)
        return 63;
    file.name = volume.label = uefi_bytes(short_name, 2);
    if (uefi_write_file_info(uefi_buffer(room, 89), &file, &size) != UEFI_NOT_TEXT || size || uefi_write_file_system_info(uefi_buffer(room, 89), &volume, &size) != UEFI_NOT_TEXT || size)
        return 64;
    return uefi_write_volume_label(uefi_buffer(room, 89), volume.label, &size) != UEFI_NOT_TEXT || size ? 65 : 0;
}

/* Texts, and versions, of which those of sixteen bytes are GUIDs. */
static int event_texts(void) {
    UefiEventText text;
    UefiCrtmVersion version;
    if (uefi_event_text(uefi_bytes("ab", 3), &text) != UEFI_OK || text.is_utf16 || !text.has_nul || text.text.n != 2)
        return 20;
    if (uefi_event_text(uefi_bytes("a\0b\0\0", 6), &text) != UEFI_OK || !text.is_utf16 || !text.has_nul || text.text.n != 4)
        return 21;
    if (uefi_event_text(uefi_bytes("\x80", 1), &text) != UEFI_OTHER_DATA || text.text.n != 4)
        return 22;
    if (uefi_event_text(uefi_bytes("\xc3\xbc", 3), &text) != UEFI_OK || text.is_utf16 || !text.has_nul || text.text.n != 2)
        return 22;
    if (uefi_event_crtm_version(uefi_bytes("a\0b\0\0", 6), &version) != UEFI_OK || version.form != UEFI_CRTM_VERSION_UCS2)
        return 23;
    if (version.text.text.n != 4 || !version.text.is_utf16 || !version.text.has_nul)
        return 24;
    if (uefi_event_crtm_version(uefi_bytes("ab", 3), &version) != UEFI_OK || version.form != UEFI_CRTM_VERSION_OTHER)
        return 25;
    if (uefi_event_crtm_version(uefi_bytes(guid, 16), &version) != UEFI_OK || version.form != UEFI_CRTM_VERSION_GUID)
        return 26;
    return version.text.text.at != guid || version.text.text.n != 16 ? 27 : 0;
}

/* A database of one list, with a header of one byte and two signatures of eighteen, and a byte after it. */
static int signatures(void) {
    static const uint8_t bytes[66] = {[0] = 7, [16] = 65, [20] = 1, [24] = 18, [28] = 5, [29] = 6, [45] = 9, [47] = 8, [64] = 3};
    UefiBytes lists = uefi_bytes(bytes, sizeof bytes);
    UefiSignatureList list;
    UefiSignature signature;
    size_t at = 0, next = 0;
    if (uefi_signature_list_next(lists, &at, &list) != UEFI_OK || at != 65 || list.signature_type[0] != 7 || list.signature_size != 18)
        return 28;
    if (list.header.n != 1 || list.header.at != bytes + 28 || list.signatures.n != 36 || list.signatures.at != bytes + 29)
        return 29;
    if (uefi_signature_list_next(lists, &at, &list) != UEFI_BAD_SIGNATURE_LIST || at != 65)
        return 30;
    if (uefi_signature_next(list.signatures, list.signature_size, &next, &signature) != UEFI_OK || next != 18)
        return 31;
    if (signature.owner[0] != 6 || signature.value.n != 2 || signature.value.at[0] != 9 || uefi_signature_next(list.signatures, 15, &next, &signature) != UEFI_BAD_SIGNATURE_SIZE)
        return 32;
    if (uefi_signature_next(list.signatures, 18, &next, &signature) != UEFI_OK || signature.owner[0] != 8 || signature.value.at[1] != 3)
        return 33;
    return uefi_signature_next(list.signatures, 18, &next, &signature) != UEFI_END || next != 36 ? 34 : 0;
}

/* A partition table with one entry, of 136 bytes. */
static int partitions(void) {
    static const uint8_t bytes[236] = {[24] = 1, [56] = 2, [84] = 136, [92] = 1, [100] = 3, [116] = 4, [132] = 5, [140] = 6, [148] = 7, [156] = 'E', [235] = 8};
    UefiBytes data = uefi_bytes(bytes, sizeof bytes);
    static UefiGptHeader header;
    static UefiGptEntry entry;
    if (uefi_gpt_header(data, UEFI_UINTN_EIGHT, &header) != UEFI_OK || header.my_lba != 1 || header.disk_guid[0] != 2 || header.entry_size != 136)
        return 35;
    if (uefi_gpt_entry(data, UEFI_UINTN_EIGHT, 0, &entry) != UEFI_OK || entry.type_guid[0] != 3 || entry.unique_guid[0] != 4 || entry.first_lba != 5)
        return 36;
    if (entry.last_lba != 6 || entry.attributes != 7 || entry.name[0] != 'E' || entry.name[1] || entry.rest.n != 8 || entry.rest.at[7] != 8)
        return 37;
    return uefi_gpt_entry(data, 0, 1, &entry) != UEFI_END || uefi_gpt_header(uefi_bytes(bytes, 235), 0, &header) != UEFI_OTHER_DATA ? 38 : 0;
}

/* An image and a partition table, with UINTNs of four bytes. */
static int four_bytes(void) {
    static const uint8_t image_bytes[23] = {1, [8] = 2, [12] = 3, [16] = 2, [20] = 4, [22] = 5};
    static const uint8_t table[224] = {[84] = 128, [92] = 1, [96] = 6, [128] = 7};
    UefiBytes data = uefi_bytes(image_bytes, sizeof image_bytes), gpt = uefi_bytes(table, sizeof table);
    static UefiImage image;
    static UefiGptHeader header;
    static UefiGptEntry entry;
    if (uefi_image(data, UEFI_UINTN_FOUR, &image) != UEFI_OK || image.location_in_memory != 1 || image.length_in_memory != 2 || image.link_time_address != 3)
        return 66;
    if (image.device_path.at != image_bytes + 20 || image.device_path.n != 2 || image.rest.n != 1 || image.rest.at[0] != 5)
        return 67;
    if (uefi_image(data, UEFI_UINTN_EIGHT, &image) != UEFI_OTHER_DATA || image.rest.n != 1)
        return 68;
    if (uefi_gpt_header(gpt, UEFI_UINTN_FOUR, &header) != UEFI_OK || header.entry_size != 128 || uefi_gpt_entry(gpt, UEFI_UINTN_FOUR, 0, &entry) != UEFI_OK)
        return 69;
    if (entry.type_guid[0] != 6 || entry.first_lba != 7)
        return 70;
    return uefi_gpt_header(gpt, UEFI_UINTN_EIGHT, &header) != UEFI_OTHER_DATA || uefi_gpt_entry(gpt, UEFI_UINTN_EIGHT, 0, &entry) != UEFI_OTHER_DATA ? 71 : 0;
}

static bool is_text(UefiBytes text, const char *wanted) {
    size_t n = length_of(wanted);
    return text.n == n && are_same(text.at, wanted, n);
}

/* Each status has a text of ASCII, and no two the same; of other numbers it is the same. */
static int status_texts(void) {
    static const UefiStatus last = UEFI_MISSING_TEXT;
    UefiBytes unknown, text, other;
    uefi_status_text((UefiStatus)0xffffffff, &unknown);
    if (!is_text(unknown, "unknown status"))
        return 92;
    for (uint32_t i = 0; i <= last + 1u; i++) {
        uefi_status_text((UefiStatus)i, &text);
        if (!text.n || is_text(text, "unknown status") != (i > last))
            return 93;
        for (size_t k = 0; k < text.n; k++)
            if (text.at[k] < ' ' || text.at[k] > '~')
                return 94;
        for (uint32_t k = 0; k < i; k++) {
            uefi_status_text((UefiStatus)k, &other);
            if (text.n == other.n && are_same(text.at, other.at, text.n))
                return 95;
        }
    }
    uefi_status_text(UEFI_BUFFER_TOO_SMALL, &text);
    return is_text(text, "the buffer is too small") ? 0 : 96;
}

/* Names of numbers, and the archive's version. */
static int number_names(void) {
    UefiBytes name;
    if (uefi_event_type_name(UEFI_EV_IPL, &name) != UEFI_OK || !is_text(name, "EV_IPL"))
        return 97;
    if (uefi_memory_type_name(UEFI_EfiLoaderCode, &name) != UEFI_OK || !is_text(name, "EfiLoaderCode"))
        return 98;
    if (uefi_algorithm_name(UEFI_TPM_ALG_SHA256, &name) != UEFI_OK || !is_text(name, "TPM_ALG_SHA256"))
        return 99;
    if (uefi_event_type_name(0x77, &name) != UEFI_NO_NAME || uefi_memory_type_name(16, &name) != UEFI_NO_NAME || uefi_algorithm_name(0, &name) != UEFI_NO_NAME || !is_text(name, "TPM_ALG_SHA256"))
        return 100;
    return uefi_formats_version() == UEFI_FORMATS_VERSION ? 0 : 101;
}

__attribute__((used)) static void run(void) {
    int status = texts();
    status = status ? status : records();
    status = status ? status : names();
    status = status ? status : written_records();
    status = status ? status : event_texts();
    status = status ? status : signatures();
    status = status ? status : partitions();
    status = status ? status : four_bytes();
    status = status ? status : status_texts();
    end(status ? status : number_names());
}
