/* What a call ends with: UEFI_OK, or why there is no result. */
#ifndef UEFI_FORMATS_STATUS_H
#define UEFI_FORMATS_STATUS_H

#include "bytes.h"

#ifdef __cplusplus
extern "C" {
#endif

typedef enum {
    UEFI_OK = 0,                        /* the result is in *out */
    UEFI_END = 1,                       /* the walk has ended: nothing follows, or there is no such index */
    UEFI_BUFFER_TOO_SMALL = 2,          /* *size (*needed) is the length that the buffer needs */
    UEFI_NOT_TEXT = 3,                  /* the bytes are no text of the kind that is asked for */
    UEFI_NOT_NUMBER = 4,                /* the text spells no number of 1, 2, 4 or 8 bytes */
    UEFI_NO_NAME = 5,                   /* the standard has no name for the number */
    UEFI_TOO_LONG = 6,                  /* the data have more bytes than the record can state */
    UEFI_TOO_SHORT = 7,                 /* the bytes end within a field, or before one */
    UEFI_LEFT_OVER = 8,                 /* bytes follow the last event of the log, or the quote */
    UEFI_CUT = 9,                       /* the bytes end inside the item that begins at the offset */
    UEFI_NO_END = 10,                   /* the bytes end, without the node or the tag that ends the list */
    UEFI_SHORT_NODE = 11,               /* the node at the offset states a length below 4 */
    UEFI_NO_PATH = 12,                  /* the bytes begin with no path */
    UEFI_NOT_NUL_TERMINATED = 13,       /* no unit of the description, the name or the label is zero */
    UEFI_FILE_PATH_LIST_TOO_LONG = 14,  /* fewer bytes follow than the file path list is stated to have */
    UEFI_NO_FILE_PATH = 15,             /* the file path list begins with no path */
    UEFI_UNKNOWN_TAG = 16,              /* the byte at the offset is neither tag of the list */
    UEFI_NOT_MAP = 17,                  /* the bytes are no memory map with this stride */
    UEFI_BAD_TIME = 18,                 /* a field of the time is out of its range */
    UEFI_OTHER_DATA = 19,               /* the data aren't that structure, whole and alone */
    UEFI_NO_HEADER = 20,                /* the log has no header of version 2 */
    UEFI_NO_EVENT = 21,                 /* the log has no event, or none starts at the offset */
    UEFI_CROSSES_LAST_ENTRY = 22,       /* the event starts before the last entry, and ends after it */
    UEFI_UNKNOWN_ALGORITHM = 23,        /* a digest is of an algorithm that has no row in the table */
    UEFI_TOO_MANY_DIGESTS = 24,         /* the event states more digests than the table has rows */
    UEFI_TOO_MANY_ALGORITHMS = 25,      /* the table has too many rows */
    UEFI_NO_DIGEST = 26,                /* the event has no digest of the algorithm */
    UEFI_TWO_DIGESTS = 27,              /* the event has two digests of the algorithm, or more */
    UEFI_OTHER_LENGTH = 28,             /* the digest hasn't the length that the bank's digests have */
    UEFI_UNKNOWN_LOCALITY = 29,         /* the event states a locality at which no TPM is started: not 0, 3 or 4 */
    UEFI_OTHER_LOCALITY = 30,           /* it states another locality than an event before it, or than the 4 of
                                         * a hardware CRTM */
    UEFI_LATE_LOCALITY = 31,            /* it states the locality after PCR 0 was extended, but not by a
                                         * hardware CRTM */
    UEFI_NO_LOCALITY = 32,              /* the log doesn't say at which locality the TPM was started */
    UEFI_NO_HASH = 33,                  /* there is no hash function here for the algorithm */
    UEFI_NO_PCR = 34,                   /* there is no such PCR: its number is above 23 */
    UEFI_NO_BANK = 35,                  /* a PCR is selected of a bank that isn't active in the log, or can't be
                                         * replayed */
    UEFI_NOT_GENERATED = 36,            /* the first four bytes aren't TPM_GENERATED_VALUE */
    UEFI_NOT_QUOTE = 37,                /* the TPM signed another structure */
    UEFI_BAD_SAFE = 38,                 /* the byte `safe` is neither 0 nor 1 */
    UEFI_BAD_SELECTION = 39,            /* a PCR above 23 is selected, or a bitmap has more than four bytes */
    UEFI_BAD_SIGNATURE_LIST = 40,       /* the bytes at the offset begin with no signature list */
    UEFI_BAD_SIGNATURE_SIZE = 41,       /* a signature's size is below the sixteen bytes of its owner */
    UEFI_ENDS_PATH = 42,                /* the node is an end-entire node, with which each path ends */
    UEFI_UNKNOWN_NODE = 43,             /* no node has the name before the offset */
    UEFI_UNEXPECTED_CHARACTER = 44,     /* the character at the offset isn't expected */
    UEFI_MISSING_TEXT = 45              /* something is missing from the text at the offset */
} UefiStatus;

/* The archives return a status in four bytes, so -fshort-enums is an error. */
typedef char uefi_status_has_four_bytes[sizeof(UefiStatus) == 4 ? 1 : -1];

/* The text of a status, in English, without a NUL: such as `the buffer is too
 * small`, and `unknown status` of a number that has no meaning. */
UEFI_CALL UEFI_NONNULL void uefi_status_text(UefiStatus status, UefiBytes *text);

#ifdef __cplusplus
}
#endif

#endif
