/* The report index from C: two reports are taken, one term and two terms are looked for, and a frame with a barred byte is refused.
 *
 *     cc -I include examples/example.c target/staticlib/libindex.a -o example && ./example
 */
#include <stdio.h>
#include <stdlib.h>

#include "report_index.h"

enum { BLOCKS = 1000, ENTRIES = 512, PLACES = 16 };

struct index {
    uint8_t *arena;
    uint32_t *table;
    struct report_index_counters counters;
};

static const uint8_t ZN_AND_PLOT[] = "\1\0\x10\1" "\2zn" "\0\0\0\3" "\3P17" "\0\0\0\1";
static const uint8_t ZN[] = "\1\0\x08\1" "\2zn" "\0\0\0\4";
static const uint8_t FIND_ZN[] = "\1\0\x08\2" "\0\0\0\0" "\2zn";
static const uint8_t FIND_BOTH[] = "\1\0\x0C\3" "\0\0\0\0" "\2zn" "\3p17";
static const uint8_t BARRED[] = "\1\0\x09\1" "\3z n" "\0\0\0\1";

/* A string's array has a null byte behind the frame. */
#define FRAME(bytes) (bytes), sizeof (bytes) - 1

static void take(struct index *index, const uint8_t *frame, size_t length)
{
    struct report_index_report_answer answer = report_index_report(
        index->arena, BLOCKS * 64, index->table, ENTRIES, &index->counters, frame, length);
    if (answer.refusal == REPORT_INDEX_DONE)
        printf("report %u\n", (unsigned) answer.number);
    else
        printf("refused %u\n", (unsigned) answer.refusal);
}

static void find_one(const struct index *index, const uint8_t *frame, size_t length)
{
    uint32_t numbers[PLACES], counts[PLACES];
    struct report_index_list_answer answer = report_index_list_one(
        index->arena, BLOCKS * 64, index->table, ENTRIES, &index->counters, frame, length, numbers, PLACES, counts, PLACES);
    printf("found");
    for (uint32_t i = 0; i < answer.filled; i++)
        printf(" %u:%u", (unsigned) numbers[i], (unsigned) counts[i]);
    printf("%s\n", answer.more ? " +" : "");
}

static void find_all(const struct index *index, const uint8_t *frame, size_t length)
{
    uint32_t numbers[PLACES];
    struct report_index_list_answer answer = report_index_list_all(
        index->arena, BLOCKS * 64, index->table, ENTRIES, &index->counters, frame, length, numbers, PLACES);
    printf("found");
    for (uint32_t i = 0; i < answer.filled; i++)
        printf(" %u", (unsigned) numbers[i]);
    printf("%s\n", answer.more ? " +" : "");
}

int main(void)
{
    struct index index = {calloc(BLOCKS, 64), calloc(ENTRIES, sizeof (uint32_t)), {0, 0, 0}};
    if (index.arena == NULL || index.table == NULL) {
        fprintf(stderr, "no memory\n");
        return 1;
    }
    report_index_start(index.table, ENTRIES, &index.counters);
    take(&index, FRAME(ZN_AND_PLOT));
    take(&index, FRAME(ZN));
    find_one(&index, FRAME(FIND_ZN));
    find_all(&index, FRAME(FIND_BOTH));
    take(&index, FRAME(BARRED));
    free(index.arena);
    free(index.table);
    return 0;
}
