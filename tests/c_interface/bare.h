/* What the programs without a C library share: each has a function run, where it begins, which calls end. */
#ifndef BARE_H
#define BARE_H

#include "uefi_formats.h"

/* A number of bytes where a pointer has eight, and where it has four. */
#define EITHER(of_64, of_32) (sizeof(void *) == 8 ? (of_64) : (of_32))
#define HAS(type, size, member, offset, what) \
    _Static_assert(sizeof(type) == (size) && offsetof(type, member) == (offset), what)

static inline size_t length_of(const char *text) {
    size_t n = 0;
    while (text[n])
        n++;
    return n;
}

static inline bool are_same(const uint8_t *bytes, const void *others, size_t n) {
    for (size_t i = 0; i < n; i++)
        if (bytes[i] != ((const uint8_t *)others)[i])
            return false;
    return true;
}

__attribute__((noreturn)) static void end(long status) {
#if defined(__x86_64__)
    __asm__ volatile("syscall" : : "a"(60L), "D"(status) : "memory");
#elif defined(__aarch64__)
    register long number __asm__("x8") = 93, first __asm__("x0") = status;
    __asm__ volatile("svc 0" : : "r"(number), "r"(first) : "memory");
#else
    __asm__ volatile("int $0x80" : : "a"(1L), "b"(status) : "memory");
#endif
    __builtin_unreachable();
}

#if defined(__x86_64__)
__asm__(".globl _start\n_start: xor %ebp, %ebp\n call run\n");
#elif defined(__aarch64__)
__asm__(".globl _start\n_start: bl run\n");
#else
__asm__(".globl _start\n_start: and $-16, %esp\n call run\n");
#endif

#endif
