/*
** Readings one by one: shows the readings of an utterance under a grammar, the least
** first, and stops at the one that was meant, here the third.
**
**   cc -Iinclude examples/one_by_one.c util/spireyerba_util.c target/staticlib/libspireyerba.a -o one_by_one
**   ./one_by_one examples/doors/grammar.bin examples/doors/utterance.bin
**
** It prints what the lister prints of each: rank, weight and rule numbers. Those
** behind the third are never looked for.
*/
#include "spireyerba_util.h"

#include <stdio.h>
#include <stdlib.h>

enum { MEANT = 3 };

static uint8_t block[SPIREYERBA_GRAMMAR_BLOCK_MAX], heard[SPIREYERBA_UTTERANCE_BLOCK_MAX];
static uint8_t out[SPIREYERBA_GRAPH_READING_BLOCK_MAX];

/* Reads the front of a file; answers its length. */
static size_t read_block(const char *name, uint8_t *into, size_t most) {
    FILE *file = fopen(name, "rb");
    size_t length;
    if (file == NULL) {
        perror(name);
        exit(2);
    }
    length = fread(into, 1, most, file);
    fclose(file);
    return length;
}

static void print_reading(uint32_t rank, const spireyerba_util_reading *reading) {
    uint32_t node;
    printf("%u %u", (unsigned)rank, (unsigned)reading->weight);
    for (node = 0; node < reading->nodes; node++)
        printf(" %u", (unsigned)reading->rule[node]);
    printf("\n");
}

int main(int count, char **names) {
    size_t g, u;
    uint32_t *work;
    spireyerba_util_grammar grammar;
    spireyerba_util_lengths lengths;
    spireyerba_util_reading reading;
    spireyerba_place place;

    if (count != 3) {
        fprintf(stderr, "usage: one_by_one GRAMMAR UTTERANCE\n");
        return 2;
    }
    g = read_block(names[1], block, sizeof block);
    u = read_block(names[2], heard, sizeof heard);
    spireyerba_util_answered(spireyerba_util_read_grammar(block, g, &grammar));
    spireyerba_util_answered(spireyerba_util_measure(&grammar, heard, u, SPIREYERBA_MAX_READINGS, &lengths));
    work = malloc(lengths.work * sizeof *work);
    if (work == NULL)
        return 2;
    spireyerba_util_answered(spireyerba_open(block, g, heard, u, &place, work, lengths.work));
    while (spireyerba_util_answered(spireyerba_next(block, g, heard, u, &place, work, lengths.work, out, sizeof out)) ==
           SPIREYERBA_NEXT_READING) {
        spireyerba_util_answered(spireyerba_util_read_reading(&grammar, out, lengths.reading, &reading));
        print_reading(place.handed, &reading);
        if (place.handed == MEANT)
            break;
    }
    free(work);
    return 0;
}
