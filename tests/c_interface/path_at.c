/* uefi_path_at over bytes that end before a page that can't be read: each prefix of each row, with each `most` with which
 * the function has no need to read beyond the prefix. What it returns is compared with what `plain` finds. It needs no
 * archive. The exit status is 0 if all is as `plain` has it, and 1 to 3 for what isn't; a byte that is read beyond the
 * prefix ends the program by a signal. */
#include "uefi_formats.h"

int run(void);

#define PAGE 4096u
/* A call of Linux returns an error from here on. */
#define FIRST_ERROR (~(size_t)0 - 4094)
#define LONG_NODE 260
#define COUNT_OF(array) (sizeof(array) / sizeof *(array))

/* The parts of rows: nodes, and what isn't one. */
#define PCI 1, 1, 6, 0, 0, 2
#define ACPI 2, 1, 12, 0, 0xd0, 0x41, 3, 0x0a, 0, 0, 0, 0
#define END_INSTANCE 0x7f, 1, 4, 0
#define END 0x7f, 0xff, 4, 0

typedef struct {
    size_t n;
    uint8_t bytes[LONG_NODE + 12];
} Row;

static const Row ROWS[] = {
    {4, {END}},
    {26, {PCI, ACPI, END, END}},
    {24, {PCI, END_INSTANCE, PCI, END, 1, 1, 3, 0}},
    {14, {END_INSTANCE, END_INSTANCE, END, 0x7f, 0xff}},
    {18, {PCI, 0x7f, 0xff, 8, 0, 1, 2, 3, 4, END}},         /* an end with data */
    {18, {PCI, 0xff, 0xff, 4, 0, 1, 0xff, 4, 0, END}},      /* no ends: of other types */
    {12, {0x7f, 0, 4, 0, 0xff, 0x7f, 4, 0, END}},
    {14, {PCI, 1, 1, 3, 0, END}},                           /* lengths below 4 */
    {14, {PCI, 0x7f, 0xff, 0, 0, END}},
    {10, {0x7f, 0xff, 3, 0, PCI}},
    {10, {PCI, 0x7f, 0xff, 0xff, 0xff}},                    /* lengths beyond each `most`, but for the largest */
    {10, {PCI, 4, 1, 0, 0x80}},
    {LONG_NODE + 8, {[0] = 4, 3, LONG_NODE & 0xff, LONG_NODE >> 8, [LONG_NODE] = END, END}},
    {12, {PCI, PCI}},                                       /* no end */
};

/* What the function has to return, and how many bytes it has to read. */
typedef struct {
    UefiStatus status;
    size_t length, read;
} Found;

static Found plain(const Row *row, size_t most) {
    const uint8_t *bytes = row->bytes;
    Found found = {UEFI_NO_END, 0, 0};
    for (size_t at = 0, after; found.status == UEFI_NO_END && at != most; at = after) {
        after = at;
        found.status = UEFI_CUT;
        if (most - at < 4)
            break;
        found.read = at + 4;
        /* So many bytes aren't in any prefix, so it doesn't matter what they are. */
        if (found.read > row->n)
            break;
        size_t stated = (size_t)bytes[at + 3] * 256 + bytes[at + 2];
        after = at + stated;
        if (stated < 4)
            found.status = UEFI_SHORT_NODE;
        else if (stated <= most - at)
            found.status = bytes[at] == 0x7f && bytes[at + 1] == 0xff ? UEFI_OK : UEFI_NO_END;
        found.length = after;
    }
    return found;
}

/* Calls the function over the bytes at `start`, and compares what it returns. */
static int call(const uint8_t *start, size_t most, Found wanted) {
    static const uint8_t other[1];
    UefiBytes path = {other, 7};
    if (uefi_path_at(start, most, &path) != wanted.status)
        return 1;
    if (wanted.status != UEFI_OK)
        return path.at == other && path.n == 7 ? 0 : 2;
    return path.at == start && path.n == wanted.length ? 0 : 3;
}

/* Each `most` over the first `n` bytes of a row, which end where the page does that can't be read. */
static int prefix(const Row *row, size_t n, uint8_t *end) {
    static const size_t large[] = {4095, 4096, 65535, 65536, ~(size_t)0 >> 1, ~(size_t)0};
    uint8_t *start = end - n;
    for (size_t i = 0; i < n; i++)
        start[i] = row->bytes[i];
    for (size_t i = 0; i <= row->n + 8 + COUNT_OF(large); i++) {
        size_t most = i <= row->n + 8 ? i : large[i - row->n - 9];
        Found wanted = plain(row, most);
        int status = wanted.read <= n ? call(start, most, wanted) : 0;
        if (status)
            return status;
    }
    return 0;
}

static uint8_t *two_pages(void);

int run(void) {
    uint8_t *page = two_pages();
    for (size_t i = 0; page && i < COUNT_OF(ROWS); i++)
        for (size_t n = 0; n <= ROWS[i].n; n++) {
            int status = prefix(&ROWS[i], n, page + PAGE);
            if (status)
                return status;
        }
    return page ? 0 : 4;
}

/* Calls of Linux: mmap and mprotect, without a C library. */
enum { READ_AND_WRITE = 3, NO_ACCESS = 0, PRIVATE_AND_ANONYMOUS = 0x22 };

#if defined(__x86_64__)
static size_t map(size_t size) {
    size_t found;
    register size_t flags __asm__("r10") = PRIVATE_AND_ANONYMOUS, file __asm__("r8") = ~(size_t)0, offset __asm__("r9") = 0;
    __asm__ volatile("syscall" : "=a"(found) : "0"((size_t)9), "D"((size_t)0), "S"(size), "d"((size_t)READ_AND_WRITE),
                     "r"(flags), "r"(file), "r"(offset) : "rcx", "r11", "memory");
    return found;
}

static size_t protect(size_t start, size_t size) {
    size_t status;
    __asm__ volatile("syscall" : "=a"(status) : "0"((size_t)10), "D"(start), "S"(size), "d"((size_t)NO_ACCESS)
                     : "rcx", "r11", "memory");
    return status;
}

__asm__(".globl _start\n_start: call run\n mov %eax, %edi\n mov $60, %eax\n syscall\n");
#else
static size_t map(size_t size) {
    size_t arguments[6] = {0, size, READ_AND_WRITE, PRIVATE_AND_ANONYMOUS, ~(size_t)0, 0}, found;
    __asm__ volatile("int $0x80" : "=a"(found) : "0"(90), "b"(arguments) : "memory");
    return found;
}

static size_t protect(size_t start, size_t size) {
    size_t status;
    __asm__ volatile("int $0x80" : "=a"(status) : "0"(125), "b"(start), "c"(size), "d"(NO_ACCESS) : "memory");
    return status;
}

__asm__(".globl _start\n_start: and $-16, %esp\n call run\n mov %eax, %ebx\n mov $1, %eax\n int $0x80\n");
#endif

/* A page of bytes before one that can't be read, or NULL. */
static uint8_t *two_pages(void) {
    size_t start = map(2 * PAGE);
    if (start >= FIRST_ERROR || protect(start + PAGE, PAGE))
        return NULL;
    return (uint8_t *)start;
}
