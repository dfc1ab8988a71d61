/* A program without a C library, which ends with status 0: paths are read, written, compared and judged, they have
 * texts, and texts have paths; load options and GUIDs are written and read. Where there is no room, or nothing to write,
 * the buffer stays as it was.
 */
#include "bare.h"

static const uint8_t path_bytes[] = {1, 2, 6, 0, 9, 8, 0x7f, 0xff, 4, 0};
static const uint8_t guid[16] = {0x80, 1, 2, 3, 4, 5, 6, 7, 8, 9, 10, 11, 12, 13, 14, 15};

static int paths(void) {
    UefiBytes whole = uefi_bytes(path_bytes, sizeof path_bytes), path;
    UefiNode node;
    size_t at = 0;
    if (uefi_path(whole, &path) != UEFI_OK || path.at != whole.at || path.n != whole.n)
        return 1;
    if (uefi_path_next_node(path, &at, &node) != UEFI_OK || at != 6 || node.data.at != path.at + 4 || node.data.n != 2)
        return 2;
    if (node.device_type != 1 || node.sub_type != 2 || uefi_path_next_node(path, &at, &node) != UEFI_END || at != 6)
        return 3;
    return uefi_path(uefi_bytes(NULL, 0), &path) != UEFI_NO_PATH || uefi_map_check(uefi_bytes(NULL, 0), 39) != UEFI_NOT_MAP ? 4 : 0;
}

/* Paths that are written, compared and judged, and the second of a list. */
static int built_paths(void) {
    static const uint8_t appended[] = {1, 2, 6, 0, 9, 8, 3, 4, 5, 0, 7, 0x7f, 0xff, 4, 0};
    UefiBytes whole = uefi_bytes(path_bytes, sizeof path_bytes), wanted = uefi_bytes(appended, sizeof appended), found;
    UefiNode node = {.data = uefi_bytes("\7", 1), .device_type = 3, .sub_type = 4};
    uint8_t room[26] = {[25] = 0xcc};
    size_t size, at = 6;
    if (uefi_write_node(uefi_buffer(room, 4), &node, &size) != UEFI_BUFFER_TOO_SMALL || size != 5 || room[0])
        return 102;
    if (uefi_write_node(uefi_buffer(room, 5), &node, &size) != UEFI_OK || size != 5 || !are_same(room, appended + 6, 5))
        return 103;
    if (uefi_path_append_node(uefi_buffer(room, 14), whole, &node, &size) != UEFI_BUFFER_TOO_SMALL || size != 15 || room[0] != 3)
        return 104;
    if (uefi_path_append_node(uefi_buffer(room, 15), whole, &node, &size) != UEFI_OK || !are_same(room, appended, 15))
        return 105;
    node = (UefiNode){.data = uefi_bytes(NULL, 0), .device_type = 0x7f, .sub_type = 0xff};
    if (uefi_path_append_node(uefi_buffer(room, 25), whole, &node, &size) != UEFI_ENDS_PATH || size)
        return 106;
    node.data = uefi_bytes(room, 65532);
    if (uefi_write_node(uefi_buffer(room, 25), &node, &size) != UEFI_TOO_LONG || size)
        return 107;
    if (uefi_path_append(uefi_buffer(room, 25), wanted, whole, &size) != UEFI_OK || size != 21 || !are_same(room, appended, 11) || !are_same(room + 11, path_bytes, 10) || room[25] != 0xcc)
        return 108;
    if (uefi_path_append(uefi_buffer(room, 25), wanted, uefi_bytes(appended, 14), &size) != UEFI_NO_PATH || size)
        return 109;
    if (!uefi_path_equal(whole, whole) || uefi_path_equal(whole, wanted) || uefi_path_equal(uefi_bytes(NULL, 0), uefi_bytes(NULL, 0)))
        return 110;
    if (uefi_path_fault(uefi_bytes(appended, 14), &at) != UEFI_CUT || at != 11 || uefi_path_fault(wanted, &at) != UEFI_OK || at != 15)
        return 111;
    if (uefi_load_option_next_path(uefi_bytes(room, 21), &at, &found) != UEFI_NO_PATH || at != 15)
        return 112;
    at = 11;
    if (uefi_load_option_next_path(uefi_bytes(room, 21), &at, &found) != UEFI_OK || at != 21 || found.at != room + 11 || found.n != 10)
        return 113;
    return uefi_load_option_next_path(uefi_bytes(room, 21), &at, &found) != UEFI_END || at != 21 ? 114 : 0;
}

/* Paths and their texts, with the flags of the text. */
typedef struct {
    const char *text;
    uint32_t flags;
    uint8_t length, bytes[48];
} PathText;

static const PathText path_texts[] = {
    {"PciRoot(0x0)/Pci(0x2,0x1)", 0, 22, {2, 1, 12, 0, 0xd0, 0x41, 3, 10, 0, 0, 0, 0, 1, 1, 6, 0, 1, 2, 0x7f, 0xff, 4, 0}},
    {"\\a", 0, 14, {4, 4, 10, 0, '\\', 0, 'a', 0, 0, 0, 0x7f, 0xff, 4, 0}},
    {"USB(0x1,0x0),Path(7,1,AB)", 0, 19, {3, 5, 6, 0, 1, 0, 0x7f, 1, 4, 0, 7, 1, 5, 0, 0xab, 0x7f, 0xff, 4, 0}},
    {"VenVt100()", UEFI_ALLOW_SHORTCUTS, 24, {3, 10, 20, 0, 0x65, 0x60, 0xa6, 0xdf, 0x19, 0xb4, 0xd3, 0x11, 0x9a, 0x2d, 0, 0x90, 0x27, 0x3f, 0xc1, 0x4d, 0x7f, 0xff, 4, 0}},
    {"HD(1,MBR,0x11223344)", UEFI_DISPLAY_ONLY, 46, {4, 1, 42, 0, 1, 0, 0, 0, [9] = 8, [17] = 16, [24] = 0x44, 0x33, 0x22, 0x11, [40] = 1, 1, 0x7f, 0xff, 4, 0}},
    {"", 0, 4, {0x7f, 0xff, 4, 0}},
};

/* The text of one path, in a buffer that is one byte too short, and in one of its length; and the path of the text. */
static bool is_read_and_written(const PathText *row) {
    uint8_t room[64] = {0}, path[64] = {0};
    size_t n = length_of(row->text), size, fault = 7;
    UefiBytes bytes = uefi_bytes(row->bytes, row->length);
    if (n && (uefi_path_text(uefi_buffer(room, n - 1), bytes, row->flags, &size) != UEFI_BUFFER_TOO_SMALL || size != n || room[0]))
        return false;
    room[n] = 0xcc;
    if (uefi_path_text(uefi_buffer(room, n), bytes, row->flags, &size) != UEFI_OK || size != n || !are_same(room, row->text, n) || room[n] != 0xcc)
        return false;
    if (row->flags)
        return true;
    if (uefi_path_from_text(uefi_buffer(path, row->length - 1u), uefi_bytes(row->text, n), &fault, &size) != UEFI_BUFFER_TOO_SMALL || size != row->length || path[0])
        return false;
    if (uefi_path_from_text(uefi_buffer(path, row->length), uefi_bytes(row->text, n), &fault, &size) != UEFI_OK || size != row->length)
        return false;
    return fault == 7 && are_same(path, row->bytes, size) && !path[size];
}

typedef struct {
    const char *text;
    UefiStatus status;
    size_t fault_at;
} WrongText;

static const WrongText wrong_texts[] = {
    {"Foo(1)", UEFI_UNKNOWN_NODE, 3},
    {"Pci(1,2)x", UEFI_UNEXPECTED_CHARACTER, 8},
    {"/EFI/x", UEFI_MISSING_TEXT, 0},
    {"\xff", UEFI_NOT_TEXT, 7},
};

static int texts_of_paths(void) {
    UefiBytes node = uefi_bytes(path_texts[0].bytes, path_texts[0].length);
    uint8_t room[32] = {0};
    size_t size, fault;
    for (size_t i = 0; i < sizeof path_texts / sizeof *path_texts; i++)
        if (!is_read_and_written(&path_texts[i]))
            return 115;
    for (size_t i = 0; i < sizeof wrong_texts / sizeof *wrong_texts; i++) {
        const WrongText *row = &wrong_texts[i];
        fault = 7;
        if (uefi_path_from_text(uefi_buffer(room, 32), uefi_bytes(row->text, length_of(row->text)), &fault, &size) != row->status || size || fault != row->fault_at || room[0])
            return 116;
    }
    if (uefi_path_text(uefi_buffer(room, 32), uefi_bytes(node.at, 21), 0, &size) != UEFI_NO_PATH || size || room[0])
        return 117;
    if (uefi_node_text(uefi_buffer(room, 32), node, 0, &size) != UEFI_OK || size != 12 || !are_same(room, "PciRoot(0x0)", 12) || room[12])
        return 118;
    return uefi_node_text(uefi_buffer(room, 32), uefi_bytes(node.at, 11), 0, &size) != UEFI_CUT || size ? 119 : 0;
}

static int written_options(void) {
    static const uint8_t wanted[] = {1, 0, 0, 0, 10, 0, 'a', 0, 0, 0, 1, 2, 6, 0, 9, 8, 0x7f, 0xff, 4, 0, 5};
    UefiLoadOption option = {
        .description = uefi_bytes("a\0\0", 4), .file_path = uefi_bytes(NULL, 0), .file_path_list = uefi_bytes(path_bytes, sizeof path_bytes),
        .optional_data = uefi_bytes("\5", 1), .attributes = UEFI_LOAD_OPTION_ACTIVE,
    };
    uint8_t room[22] = {[21] = 0xcc};
    size_t size;
    if (uefi_write_load_option(uefi_buffer(room, 20), &option, &size) != UEFI_BUFFER_TOO_SMALL || size != 21 || room[0])
        return 120;
    if (uefi_write_load_option(uefi_buffer(room, 21), &option, &size) != UEFI_OK || size != 21 || !are_same(room, wanted, 21) || room[21] != 0xcc)
        return 121;
    option.description.n = 2;
    if (uefi_write_load_option(uefi_buffer(room, 21), &option, &size) != UEFI_NOT_NUL_TERMINATED || size || !are_same(room, wanted, 21))
        return 122;
    option.file_path_list.n = 9;
    return uefi_write_load_option(uefi_buffer(room, 21), &option, &size) != UEFI_NO_FILE_PATH || size ? 123 : 0;
}

static int guids_of_texts(void) {
    static const char text[] = "03020180-0504-0706-0809-0a0B0c0D0e0f";
    uint8_t found[17] = {[16] = 0xcc};
    if (uefi_guid_from_text(found, uefi_bytes(text, 35)) != UEFI_NOT_TEXT || found[0])
        return 124;
    return uefi_guid_from_text(found, uefi_bytes(text, 36)) != UEFI_OK || !are_same(found, guid, 16) || found[16] != 0xcc ? 125 : 0;
}

__attribute__((used)) static void run(void) {
    int status = paths();
    status = status ? status : built_paths();
    status = status ? status : texts_of_paths();
    status = status ? status : written_options();
    end(status ? status : guids_of_texts());
}
