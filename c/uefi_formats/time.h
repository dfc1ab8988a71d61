/* Times (UEFI 2.10, 8.3 GetTime). */
#ifndef UEFI_FORMATS_TIME_H
#define UEFI_FORMATS_TIME_H

#include "status.h"

#ifdef __cplusplus
extern "C" {
#endif

typedef struct {
    uint32_t nanosecond;
    uint16_t year;
    int16_t zone; /* minutes from UTC; 0x07ff: local time */
    uint8_t month;
    uint8_t day;
    uint8_t hour;
    uint8_t minute;
    uint8_t second;
    uint8_t daylight;
} UefiTime;

typedef struct {
    bool year;       /* isn't 1900 to 9999 */
    bool month;      /* isn't 1 to 12 */
    bool day;        /* isn't 1 to 31 */
    bool hour;       /* is above 23 */
    bool minute;     /* is above 59 */
    bool second;     /* is above 59 */
    bool nanosecond; /* is above 999,999,999 */
    bool zone;       /* is neither 0x07ff nor -1440 to 1440 */
    bool daylight;   /* has a bit without a name; then all other fields are false */
} UefiTimeFaults;

/* The time in the first sixteen bytes. UEFI_TOO_SHORT if there are fewer,
 * UEFI_BAD_TIME if a field is at fault. */
UEFI_CALL UEFI_NODISCARD UEFI_NONNULL UefiStatus
uefi_time(UefiBytes bytes, UefiTime *out);

/* The fields at fault of the time in the first sixteen bytes: all false if none
 * is. UEFI_TOO_SHORT if there are fewer bytes. */
UEFI_CALL UEFI_NODISCARD UEFI_NONNULL UefiStatus
uefi_time_faults(UefiBytes bytes, UefiTimeFaults *out);

/* Writes the sixteen bytes of a time, with zeros as padding. UEFI_BAD_TIME if a
 * field is out of its range; daylight may have any bits. */
UEFI_CALL UEFI_NODISCARD UEFI_NONNULL UefiStatus
uefi_write_time(uint8_t bytes[UEFI_AT_LEAST(16)], const UefiTime *time);

#ifdef __cplusplus
}
#endif

#endif
