/* An EFI application that reads the firmware's own memory map, device paths and event log through the functions of
 * libuefi_formats.a, and by plain C beside them. It prints a line for each, `differences N` and `done`, and turns the
 * machine off. */
#include "app.h"

EFI_SYSTEM_TABLE *firmware;
size_t differences;

static void port(char c) {
    __asm__ volatile("outb %0, $0xe9" ::"a"(c));
}

static void print_number(uint64_t n) {
    if (n >= 10)
        print_number(n / 10);
    port('0' + n % 10);
}

static void print_bytes(UefiBytes bytes) {
    for (size_t k = 0; k < bytes.n; k++) {
        port("0123456789abcdef"[bytes.at[k] >> 4]);
        port("0123456789abcdef"[bytes.at[k] & 15]);
    }
}

void print(const char *format, ...) {
    __builtin_va_list given;
    __builtin_va_start(given, format);
    for (; *format; format++) {
        if (*format != '%')
            port(*format);
        else if (*++format == 's')
            print(__builtin_va_arg(given, const char *));
        else if (*format == 'b')
            print_bytes(*__builtin_va_arg(given, const UefiBytes *));
        else
            print_number(__builtin_va_arg(given, uint64_t));
    }
    __builtin_va_end(given);
}

bool expect(bool same, const char *what) {
    if (!same)
        print("differs: %s\n", what);
    differences += !same;
    return same;
}

EFI_STATUS efi_main(EFI_HANDLE image, EFI_SYSTEM_TABLE *table);

EFI_STATUS efi_main(EFI_HANDLE image, EFI_SYSTEM_TABLE *table) {
    firmware = table;
    if (expect(read_map(), "there is a memory map")) {
        read_paths(image);
        read_log();
    }
    print("differences %u\ndone\n", differences);
    table->RuntimeServices->ResetSystem(EfiResetShutdown, EFI_SUCCESS, 0, NULL);
    return EFI_SUCCESS;
}
