/* A program that reads a path and nothing else: for EFI, and with LINUX for Linux, where the exit status is 0 if the path
 * is read. */
#include "uefi_formats.h"

int efi_main(void *image, void *table);

/* How many nodes a path has that bytes begin with, or -1. */
static int count(UefiBytes bytes) {
    UefiBytes path;
    UefiNode node;
    size_t at = 0;
    int nodes = 0;
    if (uefi_path(bytes, &path) != UEFI_OK)
        return -1;
    while (uefi_path_next_node(path, &at, &node) == UEFI_OK)
        nodes++;
    return nodes;
}

int efi_main(void *image, void *table) {
    static const uint8_t bytes[] = {1, 1, 6, 0, 0, 2, 2, 1, 12, 0, 0xd0, 0x41, 3, 0x0a, 0, 0, 0, 0, 0x7f, 0xff, 4, 0};
    (void)image, (void)table;
    return count(uefi_bytes(bytes, sizeof bytes)) == 2 && count(uefi_bytes(bytes, sizeof bytes - 1)) == -1 ? 0 : 1;
}

#ifdef LINUX
__asm__(".globl _start\n_start: call efi_main\n mov %eax, %edi\n mov $60, %eax\n syscall\n");
#endif
