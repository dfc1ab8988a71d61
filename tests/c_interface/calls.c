/* Calls whose arguments and results go by each way that a calling convention has: registers, the stack, memory. With
 * EFI_FIRST or EFI_LAST gnu-efi's headers are included too, and with MACRO there is a macro like theirs. The exit status
 * is 0 if the results are right. */
#ifdef MACRO
#define __attribute__(x)
#endif
#ifdef EFI_FIRST
#include <efi.h>
#endif
#include "uefi_formats.h"
#ifdef EFI_LAST
#include <efi.h>
#endif

int run(void);

/* A map of two descriptors. */
static int map(void) {
    static const uint8_t bytes[96] = {[0] = 7, [24] = 2, [48] = 4, [72] = 3};
    UefiBytes map = uefi_bytes(bytes, sizeof bytes);
    UefiDescriptor descriptor = {0};
    if (uefi_map_check(map, 48) != UEFI_OK || uefi_map_check(map, 40) != UEFI_NOT_MAP || !uefi_map_is_sorted(map, 48))
        return 1;
    if (uefi_map_entry(map, 48, 1, &descriptor) != UEFI_OK || descriptor.memory_type != 4 || descriptor.page_count != 3)
        return 2;
    return uefi_map_entry(map, 48, 2, &descriptor) == UEFI_END ? 0 : 3;
}

/* An event, whose writer takes more arguments than go into registers, read again. */
static int event(void) {
    static const uint8_t digest[20] = {[19] = 9};
    static uint8_t room[40];
    UefiBuffer buffer = uefi_buffer(room, sizeof room);
    UefiEvent1 found;
    size_t size = 0, at = 0;
    if (uefi_write_event(buffer, uefi_bytes("data", 4), digest, 5, UEFI_EV_IPL, &size) != UEFI_OK || size != 36)
        return 4;
    if (uefi_log1_next(uefi_bytes(room, size), size, &at, &found) != UEFI_OK || at != 36)
        return 5;
    return found.pcr_index == 5 && found.event_type == UEFI_EV_IPL && found.digest[19] == 9 && found.event_data.n == 4 ? 0 : 6;
}

/* The call with the most arguments: a quote of no PCR, whose digest is that of no bytes. */
static int digest(void) {
    static const uint8_t bytes[41] = {0xff, 0x54, 0x43, 0x47, 0x80, 0x18};
    static UefiWorkspace workspace;
    UefiBytes message = uefi_bytes(bytes, sizeof bytes), log = uefi_bytes(NULL, 0);
    UefiQuoteDigest found;
    UefiStatus status = uefi_quote_digest(message, UEFI_TPM_ALG_SHA256, log, UEFI_EMPTY_LOG, 0, &workspace, &found);
    return status == UEFI_OK && found.status == UEFI_OK && found.size == 32 && found.value[0] == 0xe3 ? 0 : 7;
}

/* A number of 32 bits as a result, a status as a parameter, and a call without parameters. */
static int numbers(void) {
    UefiBytes text = {0};
    uefi_status_text((UefiStatus)1000, &text);
    if (text.n != 14 || text.at[0] != 'u' || text.at[13] != 's')
        return 8;
    return uefi_formats_version() == UEFI_FORMATS_VERSION ? 0 : 9;
}

int run(void) {
    int status = map();
    status = status ? status : event();
    status = status ? status : digest();
    return status ? status : numbers();
}

/* Below the frame of `_start` is the room of 32 bytes that Microsoft's convention wants. */
#if defined(__x86_64__)
__asm__(".globl _start\n_start: sub $32, %rsp\n call run\n mov %eax, %edi\n mov $60, %eax\n syscall\n");
#else
__asm__(".globl _start\n_start: and $-16, %esp\n call run\n mov %eax, %ebx\n mov $1, %eax\n int $0x80\n");
#endif
