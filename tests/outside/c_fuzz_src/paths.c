/* Paths that are written and compared, and the paths of a list. */
#include "fuzz.h"

static UefiStatus plain_load_option_next_path(UefiBytes list, size_t *offset, UefiBytes *path) {
    if (*offset >= list.n) return UEFI_END;
    if (plain_path(from(list, *offset), path) != UEFI_OK) return UEFI_NO_PATH;
    *offset += path->n;
    return UEFI_OK;
}

static bool plain_path_equal(UefiBytes path, UefiBytes other) {
    UefiBytes one, two;
    bool are_paths = plain_path(path, &one) == UEFI_OK && plain_path(other, &two) == UEFI_OK;
    return are_paths && one.n == two.n && !memcmp(one.at, two.at, one.n);
}

static size_t put_node(uint8_t *b, const UefiNode *node) {
    size_t length = 4 + node->data.n;
    b[0] = node->device_type, b[1] = node->sub_type, b[2] = length, b[3] = length >> 8;
    memcpy(b + 4, node->data.at, node->data.n);
    return length;
}

UefiStatus plain_write_node(UefiBuffer buffer, const UefiNode *node, size_t *size) {
    static uint8_t room[1 << 16];
    if (node->data.n > 65531) return *size = 0, UEFI_TOO_LONG;
    return put(room, put_node(room, node), buffer, size);
}

/* The bytes of a path before its end-entire node, which is the last. */
static size_t before_end(UefiBytes path) {
    size_t at = 0, last = 0;
    for (; at < path.n; at += u16_at(path.at + at + 2)) last = at;
    return last;
}

static UefiStatus plain_path_append_node(UefiBuffer buffer, UefiBytes path, const UefiNode *node, size_t *size) {
    static uint8_t room[AREA + (1 << 16)];
    UefiBytes whole;
    *size = 0;
    if (plain_path(path, &whole) != UEFI_OK) return UEFI_NO_PATH;
    if (node->device_type == 0x7f && node->sub_type == 0xff) return UEFI_ENDS_PATH;
    if (node->data.n > 65531) return UEFI_TOO_LONG;
    size_t n = before_end(whole);
    memcpy(room, whole.at, n), n += put_node(room + n, node);
    memcpy(room + n, "\x7f\xff\4\0", 4);
    return put(room, n + 4, buffer, size);
}

static UefiStatus plain_path_append(UefiBuffer buffer, UefiBytes path, UefiBytes other, size_t *size) {
    static uint8_t room[2 * AREA];
    UefiBytes one, two;
    *size = 0;
    if (plain_path(path, &one) != UEFI_OK || plain_path(other, &two) != UEFI_OK) return UEFI_NO_PATH;
    size_t n = before_end(one);
    memcpy(room, one.at, n), memcpy(room + n, two.at, two.n);
    return put(room, n + two.n, buffer, size);
}

/* Makes the bytes begin with a path of a few nodes, mostly, and returns where it ends. */
static size_t make_path(UefiBytes bytes) {
    uint8_t *b = (uint8_t *)bytes.at;
    size_t at = 0, nodes = below(4);
    for (; nodes-- && bytes.n - at >= 32; at += b[at + 2]) {
        b[at] = 1 + below(5), b[at + 2] = 4 + below(20), b[at + 3] = 0;
        if (!(any() & 7)) b[at] = 0x7f, b[at + 1] = 1;
    }
    if (bytes.n - at >= 4 && any() & 7) memcpy(b + at, "\x7f\xff\4\0", 4), at += 4;
    return at;
}

void paths_of(UefiBytes part) {
    static const uint8_t long_data[1 << 16];
    size_t end = make_path(part), at = any() & 1 ? 0 : below(part.n + 3);
    UefiBytes other = from(part, any() & 1 ? end : below(part.n + 1));
    if (any() & 1) make_path(other);
    uint8_t copy[64];
    size_t n = part.n < sizeof copy ? part.n : sizeof copy;
    memcpy(copy, part.at, n);
    SAME_BOOL(path_equal, part, other), SAME_BOOL(path_equal, part, ((UefiBytes){copy, n}));
    SAME_AT(at, path_fault, part);
    for (size_t next = any() & 1 ? 0 : end; NEXT(UefiBytes, next, load_option_next_path, part) == UEFI_OK;) {}
    UefiNode node = {.data = from(part, below(part.n + 1)), .device_type = any() & 1 ? 0x7f : any(), .sub_type = any() & 1 ? 0xff : any()};
    if (!(any() & 31)) node.data = (UefiBytes){long_data, 65530 + below(4)};
    WRITE(write_node, buffer, &node, &size);
    WRITE(path_append_node, buffer, part, &node, &size);
    WRITE(path_append, buffer, part, other, &size);
}
