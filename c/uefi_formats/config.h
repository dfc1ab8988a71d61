/* HII configuration texts (UEFI 2.10, 35.2.1). */
#ifndef UEFI_FORMATS_CONFIG_H
#define UEFI_FORMATS_CONFIG_H

#include "status.h"

#ifdef __cplusplus
extern "C" {
#endif

typedef struct {
    UefiBytes key;
    UefiBytes value; /* without meaning where there is none */
    bool has_value;
} UefiPair;

/* The next pair of a text: the piece up to the next `&`, cut at its first
 * `=`. An empty last piece is no pair. */
UEFI_CALL UEFI_NODISCARD UEFI_NONNULL UefiStatus
uefi_config_next_pair(UefiBytes text, size_t *offset, UefiPair *out);

/* Writes the bytes that a text in UTF-8 spells in hex: one for each two bytes of
 * the text, and one for an odd last one. Two digits spell a byte, as do a plus
 * sign and a digit, and an odd last digit; all else spells 0. UEFI_NOT_TEXT if
 * the text isn't UTF-8. */
UEFI_CALL UEFI_NODISCARD UEFI_NONNULL UefiStatus
uefi_hex(UefiBuffer buffer, UefiBytes text, size_t *size);

/* Writes the name that the value of a pair with the key `NAME` spells, in UTF-8
 * and without a NUL. The value is a text in UTF-8, of an even number of bytes,
 * that spells bytes as for uefi_hex. Two of them are a character, the high byte
 * first: not zero, and not 0xd800 to 0xdfff. An odd last one is 0, and no
 * character. UEFI_NOT_TEXT if the value spells no name. */
UEFI_CALL UEFI_NODISCARD UEFI_NONNULL UefiStatus
uefi_config_name(UefiBuffer buffer, UefiBytes value, size_t *size);

/* The number that a text in UTF-8 spells in hex, the highest byte first.
 * UEFI_NOT_NUMBER if it spells another count of bytes than 1, 2, 4 or 8, or
 * isn't UTF-8. */
UEFI_CALL UEFI_NODISCARD UEFI_NONNULL UefiStatus
uefi_config_number(UefiBytes text, uint64_t *out);

#ifdef __cplusplus
}
#endif

#endif
