/* Texts of paths and nodes, and paths of texts; load options and GUIDs that are written and read. */
#include "fuzz.h"

/* The longest text of an input: each byte may be four characters, and each node has a name. */
enum { MOST_TEXT = 16 * ROOM };

static size_t put_text(uint8_t *to, const char *text) { return memcpy(to, text, strlen(text)), strlen(text); }

static size_t put_number(uint8_t *to, const char *form, unsigned number) {
    char text[24];
    snprintf(text, sizeof text, form, number);
    return put_text(to, text);
}

static size_t put_generic(uint8_t *to, const uint8_t *node, size_t length) {
    size_t n = put_text(to, "Path(");
    n += put_number(to + n, "%u,", node[0]), n += put_number(to + n, "%u", node[1]);
    if (length > 4) n += put_text(to + n, ",");
    for (size_t i = 4; i < length; i++) n += put_number(to + n, "%02X", node[i]);
    return n + put_text(to + n, ")");
}

/* Puts the text of a node, by the forms of a few types; of another it is the call's own, which has to be read back. */
static size_t put_node_text(uint8_t *to, UefiBytes node, uint32_t flags) {
    const uint8_t *b = node.at;
    static uint8_t bytes[1 << 17];
    if (b[0] == 0x7f && b[1] == 1 && node.n == 4) return put_text(to, ",");
    if (b[0] == 1 && b[1] == 1 && node.n == 6) {
        size_t n = put_number(to, "Pci(0x%X,", b[5]);
        return n + put_number(to + n, "0x%X)", b[4]);
    }
    if (b[0] == 3 && b[1] == 5 && node.n == 6) {
        size_t n = put_number(to, "USB(0x%X,", b[4]);
        return n + put_number(to + n, "0x%X)", b[5]);
    }
    if (b[0] == 0 || b[0] > 5 || b[1] > 40) return put_generic(to, b, node.n);
    size_t size, length, fault;
    if (uefi_node_text(uefi_buffer(to, MOST_TEXT), node, flags, &size) != UEFI_OK) exit(1);
    if (flags & 3) return size;
    NEED(uefi_path_from_text(uefi_buffer(bytes, sizeof bytes), uefi_bytes(to, size), &fault, &length) == UEFI_OK);
    NEED(length == node.n + 4 && !memcmp(bytes, b, node.n) && !memcmp(bytes + node.n, "\x7f\xff\4\0", 4));
    return size;
}

static UefiStatus fault_of_node(UefiBytes bytes) {
    if (!bytes.n) return UEFI_NO_END;
    if (bytes.n < 4) return UEFI_CUT;
    size_t length = u16_at(bytes.at + 2);
    return length < 4 ? UEFI_SHORT_NODE : length > bytes.n ? UEFI_CUT : UEFI_OK;
}

static UefiStatus plain_node_text(UefiBuffer buffer, UefiBytes node, uint32_t flags, size_t *size) {
    static uint8_t text[MOST_TEXT];
    UefiStatus status = fault_of_node(node);
    *size = 0;
    if (status != UEFI_OK) return status;
    return put(text, put_node_text(text, (UefiBytes){node.at, u16_at(node.at + 2)}, flags), buffer, size);
}

static bool ends(const uint8_t *node, uint8_t sub_type) {
    return node[0] == 0x7f && node[1] == sub_type && u16_at(node + 2) == 4;
}

static UefiStatus plain_path_text(UefiBuffer buffer, UefiBytes bytes, uint32_t flags, size_t *size) {
    static uint8_t text[MOST_TEXT];
    size_t n = 0;
    bool is_first = true;
    UefiBytes path;
    *size = 0;
    if (plain_path(bytes, &path) != UEFI_OK) return UEFI_NO_PATH;
    for (size_t at = 0; at < path.n; at += u16_at(path.at + at + 2)) {
        const uint8_t *node = path.at + at;
        bool is_last = at + u16_at(node + 2) == path.n;
        if (is_last && (ends(node, 0xff) || ends(node, 1))) break;
        if (!is_first && !ends(node, 1)) n += put_text(text + n, "/");
        n += put_node_text(text + n, (UefiBytes){node, u16_at(node + 2)}, flags);
        is_first = ends(node, 1);
    }
    return put(text, n, buffer, size);
}

/* A text that was read is that of its path, and of no other; where it isn't, nothing is written. */
static void read_text(UefiBytes text) {
    static uint8_t path[1 << 17], untouched[1 << 17], again[MOST_TEXT];
    size_t size = 7, fault = 7, length;
    UefiStatus status = uefi_path_from_text(uefi_buffer(path, sizeof path), text, &fault, &size);
    COUNTED(path_from_text, status);
    if (status != UEFI_OK) {
        NEED(!size && !memcmp(path, untouched, sizeof path) && is_utf8(text) == (status != UEFI_NOT_TEXT));
        NEED(status == UEFI_NOT_TEXT ? fault == 7 : fault <= text.n);
        return;
    }
    UefiBytes found, whole = {path, size};
    NEED(fault == 7 && plain_path(whole, &found) == UEFI_OK && found.n == size);
    NEED(uefi_path_text(uefi_buffer(again, sizeof again), whole, 0, &length) == UEFI_OK);
    uint8_t *copy = again + length;
    NEED(uefi_path_from_text(uefi_buffer(copy, MOST_TEXT - length), (UefiBytes){again, length}, &fault, &length) == UEFI_OK);
    NEED(length == size && !memcmp(copy, path, size));
    size_t room = below(size), needed = 0;
    memset(path, 0, size);
    COUNTED(path_from_text, status = uefi_path_from_text(uefi_buffer(path, room), text, &fault, &needed));
    NEED(status == UEFI_BUFFER_TOO_SMALL && needed == size && fault == 7 && !memcmp(path, untouched, sizeof path));
}

static void one_text(UefiBytes path) {
    static const char marks[] = "(),/\\x0\"-:.\xc3";
    static uint8_t text[MOST_TEXT], long_text[140000];
    size_t n;
    if (uefi_path_text(uefi_buffer(text, sizeof text), path, any() & 3, &n) != UEFI_OK) n = put_text(text, "Pci(1,2)/Sata(1");
    for (size_t k = below(4); k-- && n;) text[below(n)] = any() & 1 ? (uint8_t)marks[below(sizeof marks - 1)] : (uint8_t)any();
    read_text((UefiBytes){text, any() & 1 ? n : below(n + 1)});
    if (any() & 0xff) return;
    n = put_text(long_text, "Path(1,7,");
    memset(long_text + n, 'A', sizeof long_text - n), long_text[sizeof long_text - 1] = ')';
    read_text((UefiBytes){long_text, sizeof long_text});
}

static UefiStatus plain_write_load_option(UefiBuffer buffer, const UefiLoadOption *option, size_t *size) {
    static uint8_t room[4 * ROOM];
    UefiBytes units = option->description, list = option->file_path_list, path;
    size_t n = 6;
    *size = 0;
    if (plain_path(list, &path) != UEFI_OK) return UEFI_NO_FILE_PATH;
    if (list.n > 0xffff) return UEFI_TOO_LONG;
    for (size_t i = 0; i + 2 < units.n; i += 2)
        if (!u16_at(units.at + i)) return UEFI_NOT_NUL_TERMINATED;
    if (units.n % 2 || !units.n || u16_at(units.at + units.n - 2)) return UEFI_NOT_NUL_TERMINATED;
    for (int i = 0; i < 4; i++) room[i] = option->attributes >> 8 * i;
    room[4] = list.n, room[5] = list.n >> 8;
    memcpy(room + n, units.at, units.n), n += units.n;
    memcpy(room + n, list.at, list.n), n += list.n;
    memcpy(room + n, option->optional_data.at, option->optional_data.n), n += option->optional_data.n;
    return put(room, n, buffer, size);
}

static void one_option(UefiBytes part) {
    static uint8_t units[64], long_list[66000] = {0x7f, 0xff, 4, 0};
    size_t count = below(24);
    for (size_t i = 0; i < sizeof units; i++) units[i] = any() & 63 ? 1 + below(255) : 0;
    if (any() & 7) memset(units + 2 * count, 0, 2);
    UefiBytes list = any() & 3 ? from(part, below(part.n + 1)) : part;
    if (!(any() & 31)) list = (UefiBytes){long_list, 65530 + below(20)};
    if (list.n > AREA && list.n < 65536) list.n = 65536;
    UefiLoadOption option = {
        .description = {units, any() & 15 ? 2 * count + 2 : below(sizeof units)}, .file_path_list = list,
        .optional_data = from(part, below(part.n + 1)), .attributes = any(),
    };
    WRITE(write_load_option, buffer, &option, &size);
}

static UefiStatus plain_guid_from_text(uint8_t *guid, UefiBytes text) {
    static const uint8_t places[] = {6, 4, 2, 0, 11, 9, 16, 14, 19, 21, 24, 26, 28, 30, 32, 34};
    uint8_t bytes[16];
    if (text.n != 36) return UEFI_NOT_TEXT;
    for (size_t i = 0; i < 36; i++) {
        bool is_dash = i == 8 || i == 13 || i == 18 || i == 23;
        if (is_dash ? text.at[i] != '-' : !memchr("0123456789abcdefABCDEF", text.at[i], 22)) return UEFI_NOT_TEXT;
    }
    for (size_t i = 0; i < 16; i++) bytes[i] = plain_byte(text.at + places[i], 2);
    return memcpy(guid, bytes, 16), UEFI_OK;
}

static void one_guid(void) {
    uint8_t text[37], bytes[16], guid[16], wanted[16];
    for (size_t i = 0; i < 16; i++) bytes[i] = any();
    uefi_guid_text(text, bytes);
    for (size_t i = 0; i < 36; i++)
        if (any() & 1 && text[i] >= 'a') text[i] -= 32;
    if (any() & 1) text[below(36)] = any();
    UefiBytes part = {text, any() & 7 ? 36 : below(38)};
    memset(guid, 0xcc, 16), memset(wanted, 0xcc, 16);
    UefiStatus status = uefi_guid_from_text(guid, part);
    NEED(status == plain_guid_from_text(wanted, part) && !memcmp(guid, wanted, 16));
    COUNTED(guid_from_text, status);
}

void texts_of(UefiBytes part) {
    uint32_t flags = any();
    WRITE(path_text, buffer, part, flags, &size);
    WRITE(node_text, buffer, part, flags, &size);
    one_text(part), one_option(part), one_guid();
}
