/* What the files of the program share. */
#ifndef FUZZ_H
#define FUZZ_H

#include <stdio.h>
#include <stdlib.h>
#include <string.h>

#include "plain.h"

/* The most bytes of an input, and of what is written of it. */
enum { AREA = 1 << 14, ROOM = 2 * AREA + 128 };

/* Numbers from the seed: any, and one below a limit (0 for the limit 0). */
uint64_t any(void);
size_t below(size_t n);

/* Ends the program where this is false. */
void need(bool holds, const char *what, const char *file, int line);
#define NEED(holds) need(holds, #holds, __FILE__, __LINE__)

/* Memory whose end is before a page that can't be read. The value is that end. */
uint8_t *area(void);

/* How often a call, at one place of the program, returned each status. */
enum { STATUSES = UEFI_MISSING_TEXT + 1 };
typedef struct Count {
    const char *name;
    size_t results[STATUSES];
    bool is_known, is_bool;
    struct Count *next;
} Count;

uint32_t counted(Count *calls, uint32_t result);

/* Prints how often each call returned each status. Ends the program where one returned a status that it hasn't, or never
 * returned one that it has, of so many inputs. */
enum { ENOUGH_INPUTS = 1 << 14 };
void need_statuses(const Count *all_calls, bool is_enough);

/* Whether the bytes are the same, but for words that are ANY in what plain C wrote. */
bool is_same(const void *found, const void *wanted, size_t n);
#define ANY ((uintptr_t)0xa5a5a5a5a5a5a5a5)

/* The bytes from an offset on; and a slice of a structure that may be anywhere if it has no byte. */
UefiBytes from(UefiBytes bytes, size_t at);
UefiBytes slice(const uint8_t *at, size_t n);

/* What a call returned, with its count. */
#define COUNTED(call, result) \
    ({ static Count calls_ = {.name = #call}; counted(&calls_, result); })
#define COUNTED_BOOL(call, result) \
    ({ static Count calls_ = {.name = #call, .is_bool = true}; counted(&calls_, result); })

/* Calls uefi_NAME, and plain_NAME with the same arguments, which may name `&at` and `&out`. Both return the same,
 * leave the same number in `at`, and write the same to `out`, whose bytes are 0xcc before. The value is the result. */
#define BOTH(out, at, call, ...)                                                                    \
    ({                                                                                              \
        __typeof__(out) found_;                                                                     \
        size_t start_ = (at), end_;                                                                 \
        memset(&(out), 0xcc, sizeof(out));                                                          \
        uint32_t result_ = uefi_##call(__VA_ARGS__);                                                \
        memcpy(&found_, &(out), sizeof(out)), end_ = (at);                                          \
        memset(&(out), 0xcc, sizeof(out)), (at) = start_;                                           \
        NEED(plain_##call(__VA_ARGS__) == result_ && (at) == end_);                                 \
        __builtin_clear_padding(&found_), __builtin_clear_padding(&(out));                          \
        NEED(is_same(&found_, &(out), sizeof(out)));                                                \
        COUNTED(call, result_);                                                                     \
    })
#define READ(type, call, ...) ({ type out_; size_t none_ = 0; BOTH(out_, none_, call, __VA_ARGS__, &out_); })
#define NEXT(type, at, call, ...) ({ type out_; BOTH(out_, at, call, __VA_ARGS__, &(at), &out_); })
#define SAME(call, ...) ({ size_t none_ = 0, out_; BOTH(out_, none_, call, __VA_ARGS__); })
#define SAME_AT(at, call, ...) ({ size_t out_; BOTH(out_, at, call, __VA_ARGS__, &(at)); })
#define SAME_BOOL(call, ...) ({ bool result_ = uefi_##call(__VA_ARGS__); NEED(plain_##call(__VA_ARGS__) == result_); COUNTED_BOOL(call, result_); })

/* The same of a call that writes to a `buffer`, of a length near to the `size` that it states. */
#define WRITE(call, ...)                                                                            \
    ({                                                                                              \
        static uint8_t large[ROOM];                                                                 \
        UefiBuffer buffer = {large, ROOM};                                                          \
        size_t size = 0;                                                                            \
        plain_##call(__VA_ARGS__);                                                                  \
        WRITE_TO(any() & 3 ? size + below(9) : below(size + 1), call, __VA_ARGS__);                 \
    })
#define WRITE_TO(n, call, ...)                                                                      \
    ({                                                                                              \
        uint8_t bytes[(n) + 8];                                                                     \
        UefiBuffer buffer = uefi_buffer(bytes, sizeof bytes - 8);                                   \
        size_t size = 7;                                                                            \
        BOTH(bytes, size, call, __VA_ARGS__);                                                       \
    })

/* Puts bytes into a buffer that has room for them, and states their count. */
UefiStatus put(const uint8_t *bytes, size_t n, UefiBuffer buffer, size_t *size);

/* The length of the character that UTF-8 has there, and the byte that hex spells there. */
size_t character(const uint8_t *b, size_t n);
bool is_utf8(UefiBytes text);
uint8_t plain_byte(const uint8_t *b, size_t n);
UefiStatus plain_hex(UefiBuffer buffer, UefiBytes text, size_t *size);

/* The fields of sixteen bytes, and the bytes of fields. */
UefiTime time_at(const uint8_t *b);
void put_time(const UefiTime *time, uint8_t *b);

/* A node of these fields. */
UefiStatus plain_write_node(UefiBuffer buffer, const UefiNode *node, size_t *size);

UefiStatus plain_log2_digest(UefiBytes log, size_t last, UefiBytes rows, size_t at, uint16_t algorithm, UefiBytes *out);

/* Makes a quote at the end of the bytes, mostly a whole one. */
UefiBytes make_quote(UefiBytes bytes);
UefiStatus plain_quote(UefiBytes message, UefiQuote *out);
UefiStatus plain_quote_next_selection(UefiBytes message, size_t *cursor, UefiPcrSelection *out);

/* A log as one value. */
UefiStatus plain_log(UefiBytes bytes, size_t last_entry, UefiLog *out);
UefiStatus plain_log_next(UefiLog *log, UefiEvent *out);
UefiStatus plain_event_digest(const UefiEvent *event, uint16_t algorithm, UefiBytes *out);
void one_log(UefiBytes bytes, size_t last_entry);
void other_logs(UefiBytes bytes, size_t last_entry, UefiBytes rows);

/* What is read of these bytes, and written. */
void records_of(UefiBytes part);
void calls_of(UefiBytes part);
void paths_of(UefiBytes part);
void nodes_of(UefiBytes part);
void texts_of(UefiBytes part);
void contents_of(UefiBytes part);
void names_of(UefiBytes part);
void quotes_of(UefiBytes part);

/* Names of numbers, and PCRs of logs that are made. */
void numbers(void);
void pcrs(void);

/* What is read of memory of more than 2^32 bytes, where a size_t can state so many. */
#define HAS_HUGE (SIZE_MAX > UINT32_MAX)
void huge(void);

#endif
