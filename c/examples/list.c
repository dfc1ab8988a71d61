/* Lists a file as the program uefi_list does:
 *
 *     list path|pci FILE
 *     list log1|log2|log2after FILE [LAST_ENTRY]
 *     list map FILE STRIDE
 *     list pairs FILE
 *
 * The last lists the pairs of a configuration text, for which uefi_list has no
 * command: `pair KEY`, and on a line below it `  value VALUE` where it has one.
 * The exit status is 0 where all was listed, 1 where the bytes were refused,
 * and 2 where the words ask for nothing or the file can't be read.
 */
#include <inttypes.h>
#include <stdio.h>
#include <stdlib.h>
#include <string.h>

#include "uefi_formats.h"

static void put_hex(UefiBytes bytes) {
    for (size_t i = 0; i < bytes.n; i++)
        printf("%02x", bytes.at[i]);
}

/* A space before bytes, if there are any. */
static void put_data(UefiBytes bytes) {
    if (bytes.n)
        putchar(' ');
    put_hex(bytes);
}

static int list_path(UefiBytes bytes) {
    UefiBytes path, instance;
    if (uefi_path(bytes, &path) != UEFI_OK) {
        puts("refused InvalidLength");
        return 1;
    }
    for (size_t at = 0; uefi_path_next_instance(path, &at, &instance) == UEFI_OK;) {
        UefiNode node;
        printf("instance %zu\n", instance.n);
        for (size_t next = 0; uefi_path_next_node(instance, &next, &node) == UEFI_OK;) {
            printf("  %02x %02x", node.device_type, node.sub_type);
            put_data(node.data);
            putchar('\n');
        }
    }
    printf("path %zu\n", path.n);
    return 0;
}

static int list_map(UefiBytes map, size_t stride) {
    UefiDescriptor entry;
    size_t index = 0;
    if (uefi_map_check(map, stride) != UEFI_OK) {
        puts("refused InvalidSize");
        return 1;
    }
    for (; uefi_map_entry(map, stride, index, &entry) == UEFI_OK; index++)
        printf("entry %" PRIu32 " 0x%" PRIx64 " 0x%" PRIx64 " %" PRIu64 " 0x%" PRIx64 "\n", entry.memory_type,
               entry.phys_start, entry.virt_start, entry.page_count, entry.attribute);
    printf("sorted %s\n", uefi_map_is_sorted(map, stride) ? "yes" : "no");
    printf("entries %zu\n", index);
    return 0;
}

static int list_log1(UefiBytes log, size_t last_entry) {
    UefiEvent1 event;
    size_t at = 0, count = 0;
    for (; uefi_log1_next(log, last_entry, &at, &event) == UEFI_OK; count++) {
        printf("event %" PRIu32 " 0x%08" PRIx32 " ", event.pcr_index, event.event_type);
        put_hex(uefi_bytes(event.digest, sizeof event.digest));
        put_data(event.event_data);
        putchar('\n');
    }
    printf("events %zu\n", count);
    return 0;
}

static void put_header(const UefiLogHeader *header) {
    printf("header %" PRIu32 " %u.%u.%u %u\n", header->platform_class, header->major, header->minor,
           header->errata, header->uintn_size);
    for (size_t i = 0; i + 4 <= header->rows.n; i += 4) {
        const uint8_t *row = header->rows.at + i;
        printf("  algorithm 0x%02x%02x %u\n", row[1], row[0], row[2] + 256u * row[3]);
    }
    printf("vendor");
    put_data(header->vendor);
    putchar('\n');
}

static int list_log2(UefiBytes log, size_t last_entry, bool after_header_event) {
    UefiLogHeader header;
    UefiEvent2 event;
    UefiDigest digest;
    size_t count = 0;
    if (uefi_log2_header(log, last_entry, &header) != UEFI_OK) {
        puts("header none\nevents 0");
        return 0;
    }
    put_header(&header);
    // Read a version 2 log by `iter_after_header_event`, in C from `event_end`: these are the
    // events that firmware writes, and that Linux, tpm2-tools and `uefi_audit` read; `iter`, in C
    // from `events_start`, starts where the Rust crate `uefi` does.
    size_t at = after_header_event ? header.event_end : header.events_start;
    for (; uefi_log2_next(log, last_entry, header.rows, &at, &event) == UEFI_OK; count++) {
        printf("event %" PRIu32 " 0x%08" PRIx32, event.pcr_index, event.event_type);
        put_data(event.event_data);
        putchar('\n');
        for (size_t next = 0; uefi_digest_next(event.digests, header.rows, &next, &digest) == UEFI_OK;) {
            printf("  digest 0x%04x", digest.algorithm);
            put_data(digest.bytes);
            putchar('\n');
        }
    }
    printf("events %zu\n", count);
    return 0;
}

/* Walks over the list, which is listed only if it is whole. Returns what the walk ends with. */
static UefiStatus walk_resources(UefiBytes list, size_t *at, size_t *count, bool shown) {
    static const char *const kinds[] = {"Memory", "Io", "Bus"};
    UefiResource range;
    UefiStatus status;
    for (*at = *count = 0; (status = uefi_pci_next(list, at, &range)) == UEFI_OK; ++*count) {
        if (!shown)
            continue;
        if (range.range_type < 3)
            printf("resource %s", kinds[range.range_type]);
        else
            printf("resource Unknown(%u)", range.range_type);
        printf(" %u %u 0x%" PRIx64 " 0x%" PRIx64 " 0x%" PRIx64 " 0x%" PRIx64 " 0x%" PRIx64 "\n",
               range.general_flags, range.type_specific_flags, range.granularity, range.address_min,
               range.address_max, range.translation_offset, range.address_length);
    }
    return status;
}

static int list_resources(UefiBytes list) {
    size_t at, count;
    UefiStatus status = walk_resources(list, &at, &count, false);
    if (status == UEFI_END) {
        walk_resources(list, &at, &count, true);
        printf("resources %zu\n", count);
        return 0;
    }
    if (status == UEFI_UNKNOWN_TAG)
        printf("refused UnknownTag(%u)\n", list.at[at]);
    else
        puts(status == UEFI_CUT ? "refused CutRecord" : "refused NoEndTag");
    return 1;
}

static int list_pairs(UefiBytes text) {
    UefiPair pair;
    size_t at = 0, count = 0;
    for (; uefi_config_next_pair(text, &at, &pair) == UEFI_OK; count++) {
        printf("pair ");
        fwrite(pair.key.at, 1, pair.key.n, stdout);
        if (pair.has_value) {
            printf("\n  value ");
            fwrite(pair.value.at, 1, pair.value.n, stdout);
        }
        putchar('\n');
    }
    printf("pairs %zu\n", count);
    return 0;
}

/* The bytes of a file, or NULL. */
static uint8_t *read_file(const char *name, size_t *n) {
    FILE *file = fopen(name, "rb");
    uint8_t *bytes = NULL;
    size_t room = 0;
    *n = 0;
    while (file && !feof(file) && !ferror(file)) {
        uint8_t *more = realloc(bytes, room += 1 << 16);
        if (!more)
            break;
        bytes = more;
        *n += fread(bytes + *n, 1, room - *n, file);
    }
    bool whole = file && feof(file);
    if (file)
        fclose(file);
    if (whole)
        return bytes;
    free(bytes);
    return NULL;
}

static int list(const char *command, UefiBytes bytes, size_t number) {
    if (!strcmp(command, "path"))
        return list_path(bytes);
    if (!strcmp(command, "map"))
        return list_map(bytes, number);
    if (!strcmp(command, "log1"))
        return list_log1(bytes, number);
    if (!strcmp(command, "log2"))
        return list_log2(bytes, number, false);
    if (!strcmp(command, "log2after"))
        return list_log2(bytes, number, true);
    if (!strcmp(command, "pci"))
        return list_resources(bytes);
    if (!strcmp(command, "pairs"))
        return list_pairs(bytes);
    return 2;
}

int main(int argc, char **argv) {
    if (argc != 3 && argc != 4)
        return 2;
    size_t n;
    uint8_t *file = read_file(argv[2], &n);
    if (!file)
        return 2;
    unsigned long long number = argc == 4 ? strtoull(argv[3], NULL, 10) : 0;
    size_t most = (size_t)-1;
    int status = list(argv[1], uefi_bytes(file, n), number < most ? (size_t)number : most);
    free(file);
    return status;
}
