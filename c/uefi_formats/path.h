/* Device paths (UEFI 2.10, chapter 10). */
#ifndef UEFI_FORMATS_PATH_H
#define UEFI_FORMATS_PATH_H

#include "status.h"

#ifdef __cplusplus
extern "C" {
#endif

/* Types of nodes, and the subtypes of the type that ends. */
#define UEFI_HARDWARE_DEVICE_PATH 0x01u
#define UEFI_ACPI_DEVICE_PATH 0x02u
#define UEFI_MESSAGING_DEVICE_PATH 0x03u
#define UEFI_MEDIA_DEVICE_PATH 0x04u
#define UEFI_BBS_DEVICE_PATH 0x05u
#define UEFI_END_DEVICE_PATH_TYPE 0x7fu
#define UEFI_END_INSTANCE_DEVICE_PATH_SUBTYPE 0x01u
#define UEFI_END_ENTIRE_DEVICE_PATH_SUBTYPE 0xffu

typedef struct {
    UefiBytes data;      /* what follows the four bytes of the node's header */
    uint8_t device_type; /* 0x7f ends an instance or the path */
    uint8_t sub_type;    /* with type 0x7f: 0xff ends the path */
} UefiNode;

/* Finds the path that the bytes begin with. No other prefix of them is a
 * path. UEFI_NO_PATH if none is: a node is cut, states a length below 4, or no
 * node ends the path. */
UEFI_CALL UEFI_NODISCARD UEFI_NONNULL UefiStatus
uefi_path(UefiBytes bytes, UefiBytes *path);

/* Finds the path at a pointer without a length, as firmware has them: `*path` is
 * the bytes up to the end of the first end-entire node (type 0x7f, subtype 0xff).
 * uefi_path finds the same path in the `most` bytes from `start` on, and takes all of
 * them as readable. This function reads the headers of the nodes one after another,
 * and no byte after that node or after `most`. `start` isn't NULL. Let `most` be how
 * many bytes can be read if there is no such node: the rest of the memory map's range.
 * The function is in this file, and not proved.
 *
 * Else `*path` is as it was:
 *
 *     UEFI_CUT           a node would end after `most`
 *     UEFI_SHORT_NODE    a node states a length below 4
 *     UEFI_NO_END        `most` ends where a node would begin, also if it is 0
 */
static inline UEFI_NODISCARD UEFI_NONNULL UefiStatus
uefi_path_at(const void *start, size_t most, UefiBytes *path) {
    const uint8_t *bytes = UEFI_CAST(const uint8_t *, start);
    size_t at = 0;
    while (at < most) {
        const uint8_t *node = bytes + at;
        size_t length;
        if (most - at < 4)
            return UEFI_CUT;
        length = node[2] + 256u * node[3];
        if (length < 4)
            return UEFI_SHORT_NODE;
        if (length > most - at)
            return UEFI_CUT;
        at += length;
        if (node[0] == UEFI_END_DEVICE_PATH_TYPE && node[1] == UEFI_END_ENTIRE_DEVICE_PATH_SUBTYPE) {
            *path = uefi_bytes(bytes, at);
            return UEFI_OK;
        }
    }
    return UEFI_NO_END;
}

/* The next node of a path that uefi_path returned, or of an instance that
 * uefi_path_next_instance returned: UEFI_END at the node that ends it, which is
 * not handed out. The nodes of a path are those of all its instances, with
 * the nodes that end the others (type 0x7f, any subtype but 0xff).
 *
 * In other bytes UEFI_NO_END if they end at the offset, or before it; UEFI_CUT; or
 * UEFI_SHORT_NODE. */
UEFI_CALL UEFI_NODISCARD UEFI_NONNULL UefiStatus
uefi_path_next_node(UefiBytes path, size_t *offset, UefiNode *out);

/* The next instance of a path: its bytes, with those of the node that ends
 * it. UEFI_END at the end of the path. Two ends side by side have an empty
 * instance between them, of the second end alone.
 *
 * In other bytes UEFI_NO_END, UEFI_CUT or UEFI_SHORT_NODE if no instance begins at
 * the offset: the fault of the first node from there on that can't be read. */
UEFI_CALL UEFI_NODISCARD UEFI_NONNULL UefiStatus
uefi_path_next_instance(UefiBytes path, size_t *offset, UefiBytes *instance);

/* Where bytes stop being a path: sets the offset to that of the first node that
 * can't be read, and returns UEFI_NO_END, UEFI_CUT or UEFI_SHORT_NODE. UEFI_OK if they
 * begin with a path, with the offset of its end. */
UEFI_CALL UEFI_NODISCARD UEFI_NONNULL UefiStatus
uefi_path_fault(UefiBytes path, size_t *offset);

/* Whether both begin with the same path, byte for byte. */
UEFI_CALL bool uefi_path_equal(UefiBytes path, UefiBytes other);

/* These write to the beginning of the buffer, which may not overlap what is read.
 *
 * A node. UEFI_TOO_LONG if it would have more than 65535 bytes. */
UEFI_CALL UEFI_NODISCARD UEFI_NONNULL UefiStatus
uefi_write_node(UefiBuffer buffer, const UefiNode *node, size_t *size);

/* The path that `path` begins with, and the node before its end, which has no data
 * then. UEFI_NO_PATH; UEFI_ENDS_PATH if the node is an end-entire node; UEFI_TOO_LONG. */
UEFI_CALL UEFI_NODISCARD UEFI_NONNULL UefiStatus
uefi_path_append_node(UefiBuffer buffer, UefiBytes path, const UefiNode *node, size_t *size);

/* The path that `path` begins with, and in the place of its end the path that
 * `other` begins with. UEFI_NO_PATH if one of them begins with none. */
UEFI_CALL UEFI_NODISCARD UEFI_NONNULL UefiStatus
uefi_path_append(UefiBuffer buffer, UefiBytes path, UefiBytes other, size_t *size);

/* ---- Texts (UEFI 2.10, 10.6), in UTF-8 without a NUL ---- */

/* Flags of a text. Without any, 0, it is the whole text, which uefi_path_from_text reads. */
#define UEFI_DISPLAY_ONLY 1u    /* it is for people, and may lack parts of nodes */
#define UEFI_ALLOW_SHORTCUTS 2u /* vendors' nodes may have forms such as VenVt100() */

/* The text of the path that `path` begins with, such as PciRoot(0x0)/Pci(0x2,0x0).
 * Other bits of `flags` than these two mean nothing. UEFI_NO_PATH; UEFI_TOO_LONG if
 * the text has more bytes than a size_t can state: then bytes of the buffer may be
 * written. That nothing else leads there is tested, not proved. */
UEFI_CALL UEFI_NODISCARD UEFI_NONNULL UefiStatus
uefi_path_text(UefiBuffer buffer, UefiBytes path, uint32_t flags, size_t *size);

/* The text of the node that `node` begins with, with its header of four bytes: those
 * of a path from the offset before uefi_path_next_node to the one after it. UEFI_NO_END,
 * UEFI_CUT, UEFI_SHORT_NODE; UEFI_TOO_LONG as above. */
UEFI_CALL UEFI_NODISCARD UEFI_NONNULL UefiStatus
uefi_node_text(UefiBuffer buffer, UefiBytes node, uint32_t flags, size_t *size);

/* The path whose text it is: `/` is between nodes, and `,` between instances. A node
 * without parentheses is a file's, such as \EFI\x; efibootmgr's File(..) isn't read. A
 * number that is left out is 0. If it is the text of no path, `*fault_at` is the offset
 * in bytes where that shows:
 *
 *     UEFI_UNKNOWN_NODE            no node has the name before this `(`
 *     UEFI_UNEXPECTED_CHARACTER    the character can't follow
 *     UEFI_MISSING_TEXT            what is before isn't complete
 *     UEFI_TOO_LONG                from there on a node is too long
 *
 * UEFI_NOT_TEXT if it isn't UTF-8: `*fault_at` then stays as it was, as at UEFI_OK and
 * UEFI_BUFFER_TOO_SMALL. */
UEFI_CALL UEFI_NODISCARD UEFI_NONNULL UefiStatus
uefi_path_from_text(UefiBuffer buffer, UefiBytes text, size_t *fault_at, size_t *size);

/* ---- Load options (UEFI 2.10, 3.1.3): values of Boot0000 and others ----
 *
 * The values of BootOrder, BootNext and BootCurrent are numbers of options, which
 * uefi_boot_order (event_data.h) returns by their indices: 1 is that of Boot0001. A file
 * of efivarfs has four bytes of attributes before the value: leave them out.
 *
 *     if (uefi_load_option(value, &option) == UEFI_OK &&
 *         uefi_ucs2_text(name, option.description, &name_size) == UEFI_OK && // text.h
 *         uefi_path_text(text, option.file_path, 0, &text_size) == UEFI_OK)
 *         list_option(number, option.attributes & UEFI_LOAD_OPTION_ACTIVE, name, text);
 *
 *     // A new one: `units` and `path` are buffers.
 *     if (uefi_ucs2_units(units, uefi_bytes("Mine", 4), &units_size) == UEFI_OK &&
 *         uefi_path_from_text(path, text, &fault_at, &path_size) == UEFI_OK) {
 *         UefiLoadOption mine = {0};
 *         mine.attributes = UEFI_LOAD_OPTION_ACTIVE;
 *         mine.description = uefi_bytes(units.at, units_size);
 *         mine.file_path_list = uefi_bytes(path.at, path_size);
 *         mine.file_path = mine.optional_data = uefi_bytes(NULL, 0);
 *         status = uefi_write_load_option(value, &mine, &value_size);
 *     }
 */

typedef struct {
    UefiBytes description; /* UCS-2: units of two bytes, of which the last, the NUL, alone is zero */
    UefiBytes file_path;   /* the path to the image, with its end: the first of the list */
    UefiBytes file_path_list;
    UefiBytes optional_data;
    uint32_t attributes;
} UefiLoadOption;

#define UEFI_LOAD_OPTION_ACTIVE 0x00000001u
#define UEFI_LOAD_OPTION_FORCE_RECONNECT 0x00000002u
#define UEFI_LOAD_OPTION_HIDDEN 0x00000008u
#define UEFI_LOAD_OPTION_CATEGORY 0x00001f00u

/* Reads the load option that all the bytes are. Fails with UEFI_TOO_SHORT if they
 * are fewer than six, UEFI_NOT_NUL_TERMINATED, UEFI_FILE_PATH_LIST_TOO_LONG or
 * UEFI_NO_FILE_PATH.
 *
 * `file_path_list` has the paths one after another. `file_path` is the first;
 * others are the operating system's, and aren't checked: uefi_load_option_next_path
 * reads them. The description includes its NUL; the name in a UefiVariable has none. */
UEFI_CALL UEFI_NODISCARD UEFI_NONNULL UefiStatus
uefi_load_option(UefiBytes bytes, UefiLoadOption *out);

/* The next path of a file path list. UEFI_END at the end of the list, and UEFI_NO_PATH
 * if no path begins at the offset:
 *
 *     size_t at = option.file_path.n;
 *     while (uefi_load_option_next_path(option.file_path_list, &at, &path) == UEFI_OK)
 *         further_path(path); */
UEFI_CALL UEFI_NODISCARD UEFI_NONNULL UefiStatus
uefi_load_option_next_path(UefiBytes file_path_list, size_t *offset, UefiBytes *path);

/* Writes a load option to the beginning of the buffer. `file_path` isn't read: it is
 * the first of the list.
 *
 *     UEFI_NO_FILE_PATH          the list begins with no path
 *     UEFI_NOT_NUL_TERMINATED    the description isn't units, of which the last alone is
 *                                zero: uefi_ucs2_units makes them of a text
 *     UEFI_TOO_LONG              the list has more than 65535 bytes */
UEFI_CALL UEFI_NODISCARD UEFI_NONNULL UefiStatus
uefi_write_load_option(UefiBuffer buffer, const UefiLoadOption *option, size_t *size);

#ifdef __cplusplus
}
#endif

#endif
