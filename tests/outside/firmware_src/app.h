/* What the application's files share. <efi.h> is gnu-efi's. */
#ifndef APP_H
#define APP_H

#include <efi.h>
#include <string.h>

#include "plain.h"

extern EFI_SYSTEM_TABLE *firmware;

/* How many times a function of the library and plain C, or the firmware, said different things. */
extern size_t differences;

/* Writes to the debug port 0xe9, with `%s` for a text, `%u` for a uint64_t in decimal, and `%b` for the bytes of a
 * `const UefiBytes *` in hex. The host may keep the bytes of a line `file NAME HEX`. */
void print(const char *format, ...);

/* Counts a difference, and prints what differs, where this is false. Returns whether it is true. */
bool expect(bool same, const char *what);

/* Calls uefi_NAME and plain_NAME with the same arguments, which may name `&at` and `&out`. Both return the same, and
 * leave the same in `at` and, up to the member `last`, in `out`. The value is the status that they return. */
#define BOTH(out, last, at, name, ...)                                                                                 \
    ({                                                                                                                 \
        __typeof__(out) by_library;                                                                                    \
        size_t start = (at), n = offsetof(__typeof__(out), last) + sizeof((out).last);                                 \
        UefiStatus status = uefi_##name(__VA_ARGS__);                                                                  \
        size_t end = (at);                                                                                             \
        by_library = (out), (at) = start;                                                                              \
        expect(plain_##name(__VA_ARGS__) == status && (at) == end, #name);                                             \
        expect(status != UEFI_OK || !memcmp(&by_library, &(out), n), "what " #name " reads");                          \
        status;                                                                                                        \
    })

/* Reads the memory map that firmware has at this moment, and walks over it. False if there is none. */
bool read_map(void);

/* The bytes from there to the end of the range of memory that has them, by that map. */
UefiBytes readable_from(const void *at);

void read_paths(EFI_HANDLE image);
void read_log(void);

#endif
