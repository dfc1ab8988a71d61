/* Texts. */
#ifndef UEFI_FORMATS_TEXT_H
#define UEFI_FORMATS_TEXT_H

#include "status.h"

#ifdef __cplusplus
extern "C" {
#endif

/* Writes the text of a GUID, without a NUL: five groups of lowercase hex digits,
 * separated by dashes. */
UEFI_CALL UEFI_NONNULL void uefi_guid_text(uint8_t text[UEFI_AT_LEAST(36)], const uint8_t guid[UEFI_AT_LEAST(16)]);

/* The GUID of a text of 36 bytes, with hex digits of either case, or UEFI_NOT_TEXT:
 * then `guid` is as it was. */
UEFI_CALL UEFI_NODISCARD UEFI_NONNULL UefiStatus
uefi_guid_from_text(uint8_t guid[UEFI_AT_LEAST(16)], UefiBytes text);

/* UCS-2 text (UEFI 2.10, 2.3.1, CHAR16) is units of two bytes, little-endian. The
 * last unit is zero, the NUL. Each other one is a character: not zero, and not
 * 0xd800 to 0xdfff. There are at most 2^31 units, the NUL too. */

/* Writes the characters of UCS-2 text in UTF-8, without a NUL. `units` are the
 * whole text, up to and with the NUL, as `name` of a UefiFileInfo and `description` of
 * a UefiLoadOption. UEFI_NOT_TEXT if they are no such text. Control characters stay:
 * a terminal may follow them. */
UEFI_CALL UEFI_NODISCARD UEFI_NONNULL UefiStatus
uefi_ucs2_text(UefiBuffer buffer, UefiBytes units, size_t *size);

/* Writes a text in UTF-8, which has no NUL, as UCS-2 with its NUL: two bytes for
 * each character, and two for the NUL. UEFI_NOT_TEXT if it isn't UTF-8, or no UCS-2
 * text has its characters: U+0000, or one above U+FFFF. */
UEFI_CALL UEFI_NODISCARD UEFI_NONNULL UefiStatus
uefi_ucs2_units(UefiBuffer buffer, UefiBytes text, size_t *size);

#ifdef __cplusplus
}
#endif

#endif
