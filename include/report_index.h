/* The exported calls of the report index. Each is proved to meet its contract (crates/index_c/src/lib.rt) for all bytes it can be lent.
 * docs/FORMAT.md lays out frames, refusals and the memory.
 *
 * The caller lends all memory: an arena of bytes (64 to a block), a table of 32-bit entries, three counters, a frame, and for listings
 * 32-bit result lists. A pointer is followed by the number of elements behind it. Nothing is kept between calls.
 *
 * What a caller has to see to:
 * - Each pointer leads to as many elements as its length says, and lent memory does not overlap. Table, counters and lists are aligned as
 *   uint32_t is; arena and frame need no alignment. An arena that begins at a multiple of 64 bytes is read a little faster.
 * - A length of 0 may come with any pointer that is not null.
 * - Calls that are lent the same memory must not run at the same time in several threads, except listings, which only read arena, table and
 *   counters. Calls over other memory may: the library has no memory of its own.
 * - A call uses less than 64 KiB of stack. It takes no memory from the system and makes no system call.
 * - The library is for x86-64 and is linked as a static archive:  cc program.c -I include target/staticlib/libindex.a
 */
#ifndef REPORT_INDEX_H
#define REPORT_INDEX_H

#include <stdbool.h>
#include <stddef.h>
#include <stdint.h>

/* Rises when a struct or the parameters of a call change. */
#define REPORT_INDEX_ABI 1

#ifdef __cplusplus
extern "C" {
#endif

/* What an answer's `refusal` says: 0, or the first condition that held. */
enum report_index_refusal {
    REPORT_INDEX_DONE = 0,
    REPORT_INDEX_HEADER = 1,   /* the frame: fewer than 4 bytes, or a version other than 1 */
    REPORT_INDEX_LENGTH = 2,   /* its length field is over 4,096 or not the bytes that follow */
    REPORT_INDEX_KIND = 3,     /* a kind of another call */
    REPORT_INDEX_FIELDS = 4,   /* a field passes the end, or too few or too many terms */
    REPORT_INDEX_TERM = 5,     /* a term of 0 or more than 36 bytes, or with a barred byte */
    REPORT_INDEX_COUNT = 6,    /* a count of 0 */
    REPORT_INDEX_REPEAT = 7,   /* two lines with the same term */
    REPORT_INDEX_COUNTERS = 8, /* counters that do not fit arena and table */
    REPORT_INDEX_REPORTS = 9,  /* all report numbers are taken */
    REPORT_INDEX_DAMAGE = 10,  /* arena or table are damaged */
    REPORT_INDEX_TERMS = 11,   /* no room in the table for the new terms */
    REPORT_INDEX_ROOM = 12,    /* no room in the arena */
    REPORT_INDEX_WRITING = 13  /* a line could not be written after others were: only damage brings it */
};

struct report_index_counters {
    uint32_t used;    /* blocks used */
    uint32_t terms;   /* terms held */
    uint32_t reports; /* reports held */
};

struct report_index_report_answer {
    uint8_t refusal;
    uint32_t number; /* the report's number; 0 where it is refused */
};

struct report_index_list_answer {
    uint8_t refusal;
    bool more;       /* reports that match remain beyond the lists */
    uint32_t filled; /* how many places were filled; later places keep their contents */
};

/* Clears the table and the counters; the arena is left alone. */
void report_index_start(uint32_t *table, size_t table_length, struct report_index_counters *counters);

/* Takes a report (frame of kind 01). A refusal other than 13 changes nothing. */
struct report_index_report_answer report_index_report(
    uint8_t *arena, size_t arena_length, uint32_t *table, size_t table_length,
    struct report_index_counters *counters, const uint8_t *frame, size_t frame_length);

/* Lists the reports that hold one term (frame of kind 02), with its count in each, up to the lesser of the two lists' lengths. */
struct report_index_list_answer report_index_list_one(
    const uint8_t *arena, size_t arena_length, const uint32_t *table, size_t table_length,
    const struct report_index_counters *counters, const uint8_t *frame, size_t frame_length,
    uint32_t *numbers, size_t numbers_length, uint32_t *counts, size_t counts_length);

/* Lists the reports that hold all of 1 to 8 terms (frame of kind 03). */
struct report_index_list_answer report_index_list_all(
    const uint8_t *arena, size_t arena_length, const uint32_t *table, size_t table_length,
    const struct report_index_counters *counters, const uint8_t *frame, size_t frame_length,
    uint32_t *numbers, size_t numbers_length);

#ifdef __cplusplus
}
#endif

#endif
