/* How many bytes of the stack calls over a log take, on x86-64: `stack LOG`. Each call runs on a stack of its own, whose
 * bytes all have one value before. A line has the name of a call and how many bytes it took, without its arguments and the
 * address that it returns to. */
#include <stdio.h>

#include "uefi_formats.h"

enum { STACK = 1 << 16, MOST_LOG = 1 << 20, BEFORE = 0xa7, OF_REGISTERS = 6, OF_STACK = 2 };

static uint8_t stack[STACK] __attribute__((aligned(64)));
static uint8_t log_bytes[MOST_LOG];
static UefiWorkspace workspace;
static UefiPcr pcrs[24];

/* Calls a function on the other stack. It takes its arguments as numbers: six in registers, the others on the stack. */
static void call(size_t function, const size_t *arguments, size_t *top) {
    register size_t fifth __asm__("r8") = arguments[4], sixth __asm__("r9") = arguments[5];
    size_t first = arguments[0], second = arguments[1], third = arguments[2], fourth = arguments[3];
    for (int i = 0; i < OF_STACK; i++)
        top[i] = arguments[OF_REGISTERS + i];
    __asm__ volatile("mov %%rsp, %%rbx\n mov %%rax, %%rsp\n call *%[function]\n mov %%rbx, %%rsp"
                     : "+D"(first), "+S"(second), "+d"(third), "+c"(fourth), "+r"(fifth), "+r"(sixth), "+a"(top)
                     : [function] "r"(function)
                     : "rbx", "r10", "r11", "memory", "cc", "xmm0", "xmm1", "xmm2", "xmm3", "xmm4", "xmm5", "xmm6", "xmm7",
                       "xmm8", "xmm9", "xmm10", "xmm11", "xmm12", "xmm13", "xmm14", "xmm15");
}

/* Prints how many bytes a call takes. */
static void measure(const char *name, size_t function, const size_t *arguments) {
    size_t *top = (size_t *)(void *)(stack + STACK - 64);
    size_t untouched = 0;
    for (size_t i = 0; i < STACK; i++)
        stack[i] = BEFORE;
    call(function, arguments, top);
    while (untouched < STACK && stack[untouched] == BEFORE)
        untouched++;
    printf("%s %zu\n", name, STACK - 64 - sizeof(size_t) - untouched);
}

#define AT(it) ((size_t)&(it))
#define MEASURE(name, ...) measure(#name, (size_t)name, (size_t[OF_REGISTERS + OF_STACK]){__VA_ARGS__})

int main(int count, char **words) {
    static const uint16_t banks[] = {UEFI_TPM_ALG_SHA1, UEFI_TPM_ALG_SHA256, UEFI_TPM_ALG_SHA384, UEFI_TPM_ALG_SHA512};
    FILE *file = count == 2 ? fopen(words[1], "rb") : NULL;
    size_t n = file ? fread(log_bytes, 1, MOST_LOG, file) : 0, at = 0;
    UefiLogHeader header;
    UefiEvent2 event;
    uint8_t locality, guid_text[36];
    if (uefi_log2_header(uefi_bytes(log_bytes, n), n, &header) != UEFI_OK)
        return 1;
    MEASURE(uefi_log_read, AT(log_bytes), n, n, AT(at));
    MEASURE(uefi_log2_header, AT(log_bytes), n, n, AT(header));
    at = header.event_end;
    MEASURE(uefi_log2_next, AT(log_bytes), n, n, (size_t)header.rows.at, header.rows.n, AT(at), AT(event));
    MEASURE(uefi_startup_locality, AT(log_bytes), n, n, AT(locality));
    MEASURE(uefi_guid_text, AT(guid_text), AT(log_bytes));
    for (size_t i = 0; i < sizeof banks / sizeof *banks; i++) {
        MEASURE(uefi_bank_is_active, AT(log_bytes), n, n, banks[i]);
        MEASURE(uefi_replay, AT(log_bytes), n, n, banks[i], UEFI_LOCALITY_OF_LOG, AT(workspace), AT(pcrs));
        MEASURE(uefi_replay_pcr, AT(log_bytes), n, n, banks[i], UEFI_LOCALITY_OF_LOG, 7, AT(workspace), AT(pcrs));
    }
    static const char text[] = "PciRoot(0x0)/HD(1,GPT,C12A7328-F81F-11D2-BA4B-00C04FD430C8,0x800,0x1000)/IPv6(::1)/\\a,Uri(a)/VenHw(00000000-0000-0000-0000-000000000000,AB)";
    static uint8_t path[256], room[512];
    size_t size = sizeof path;
    MEASURE(uefi_path_from_text, AT(path), sizeof path, AT(text), sizeof text - 1, AT(at), AT(size));
    MEASURE(uefi_path_text, AT(room), sizeof room, AT(path), sizeof path, 0, AT(size));
    MEASURE(uefi_node_text, AT(room), sizeof room, AT(path), sizeof path, 0, AT(size));
    return size == 12 ? 0 : 1;
}
