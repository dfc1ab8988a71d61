/* Bytes that are read, buffers that are written, and for which processors there are archives. */
#ifndef UEFI_FORMATS_BYTES_H
#define UEFI_FORMATS_BYTES_H

/* Linux has the same names in a header of its own. */
#ifdef __KERNEL__
#include <linux/types.h>
#else
#include <stdbool.h>
#include <stddef.h>
#include <stdint.h>
#endif

#define UEFI_FORMATS_VERSION_MAJOR 0
#define UEFI_FORMATS_VERSION_MINOR 1
#define UEFI_FORMATS_VERSION_PATCH 0
/* 0x010203 would be 1.2.3. */
#define UEFI_FORMATS_VERSION                                                                        \
    (UEFI_FORMATS_VERSION_MAJOR << 16 | UEFI_FORMATS_VERSION_MINOR << 8 | UEFI_FORMATS_VERSION_PATCH)

/* UEFI_CALL is the calling convention that the archives are compiled for: System
 * V on x86-64, that of C elsewhere. Compilers whose functions follow another one,
 * by their target or by an option, call these functions by it. Define it yourself
 * only where the compiler has another keyword for the same convention: no compiler
 * or linker notices a wrong one.
 *
 * The keyword is written `__attribute`, since gnu-efi's headers make the one with
 * more underscores a macro without a value. */
#ifdef __attribute
#error "uefi_formats.h: __attribute is a macro: include uefi_formats.h before the header that defines it, or undefine it"
#endif
#if defined(__x86_64__) || defined(_M_X64)
#ifdef __ILP32__
#error "uefi_formats.h: there is no archive for x32: compile for a target whose pointers have 64 bits"
#endif
#ifdef UEFI_CALL
#elif defined(__GNUC__) || defined(__clang__)
#define UEFI_CALL __attribute((__sysv_abi__))
#elif defined(_WIN32) || defined(__UEFI__)
#error "uefi_formats.h: this compiler can't call functions of the System V convention"
#endif
#elif defined(__aarch64__) && defined(__AARCH64EL__) && !defined(__ILP32__)
#elif defined(__i386__) && !defined(_WIN32)
#if !defined(UEFI_CALL) && (defined(__GNUC__) || defined(__clang__))
#define UEFI_CALL __attribute((__cdecl__, __regparm__(0)))
#endif
#else
#error "uefi_formats.h: there is no archive for this target"
#endif

#ifndef UEFI_CALL
#define UEFI_CALL
#endif

/* A compiler warns where a status isn't used, and where NULL is passed for a
 * pointer. */
#if defined(__GNUC__) || defined(__clang__)
#define UEFI_NODISCARD __attribute((__warn_unused_result__))
#define UEFI_NONNULL __attribute((__nonnull__))
#else
#define UEFI_NODISCARD
#define UEFI_NONNULL
#endif

#ifdef __cplusplus
extern "C" {
#endif

/* UEFI_FORMATS_VERSION of the archive that is linked. */
UEFI_CALL uint32_t uefi_formats_version(void);

#ifdef __cplusplus
}
#endif

/* How many elements an array has at least: a compiler of C may warn of a smaller one. */
#ifdef __cplusplus
#define UEFI_AT_LEAST(n) n
#else
#define UEFI_AT_LEAST(n) static n
#endif

/* A value as another type: a compiler of C++ may warn of casts that C has too. */
#ifdef __cplusplus
#define UEFI_CAST(type, value) static_cast<type>(value)
#else
#define UEFI_CAST(type, value) ((type)(value))
#endif

typedef struct {
    const uint8_t *at;
    size_t n;
} UefiBytes;

typedef struct {
    uint8_t *at;
    size_t n;
} UefiBuffer;

/* The `n` bytes at `at`; none if `at` is NULL. */
static inline UefiBytes uefi_bytes(const void *at, size_t n) {
    static const uint8_t none[1] = {0};
    UefiBytes bytes = {at && n ? UEFI_CAST(const uint8_t *, at) : none, at ? n : 0};
    return bytes;
}

static inline UefiBuffer uefi_buffer(void *at, size_t n) {
    static uint8_t none[1];
    UefiBuffer buffer = {at && n ? UEFI_CAST(uint8_t *, at) : none, at ? n : 0};
    return buffer;
}

/* Two arguments of printf: printf("%.*s", UEFI_TEXT(name)). */
#define UEFI_TEXT(bytes) UEFI_CAST(int, (bytes).n), UEFI_CAST(const char *, UEFI_CAST(const void *, (bytes).at))

#endif
