/*
** Calls the functions of spireyerba_util.h, a call for each line of standard input, and prints a line for each: what was
** answered, or `refused N`. tests/tests/util.rs writes the lines and knows the answers. Compiled as C and as C++.
**
**   version                             of header, library and interface, and whether they match
**   words NUMBER                        of a refusal
**   lengths SYMBOLS SLOTS RULES WANTED  all of them
**   grammar BLOCK                       its sizes, and the word and the mark of each rule
**   measure GRAMMAR HEARD WANTED        what a listing is to be lent
**   reading GRAMMAR BLOCK               weight, rules, words and edges
**   list GRAMMAR HEARD WANTED           of each reading found the same, with a bar before it
**   graph GRAMMAR LENGTH PLACES EDGE..  its block, in an output of that length; an edge is four numbers
**
** Blocks are written in hexadecimal digits, an empty one as `-`.
*/
#include "spireyerba_util.h"

#include <stdio.h>
#include <stdlib.h>
#include <string.h>

enum { LINE = 1 << 20, NOISE = 0xa5 };

typedef struct {
    uint8_t bytes[LINE / 2];
    size_t length;
} block;

static char line[LINE];
static block grammar_block, other_block;

static uint32_t number(void) {
    const char *word = strtok(NULL, " \n");
    return word == NULL ? 0 : (uint32_t)strtoul(word, NULL, 10);
}

static void read_block(block *into) {
    const char *digits = strtok(NULL, " \n");
    unsigned byte;
    into->length = 0;
    if (digits == NULL || *digits == '-')
        return;
    for (; sscanf(digits, "%2x", &byte) == 1; digits += 2)
        into->bytes[into->length++] = (uint8_t)byte;
}

static void print_numbers(const char *name, const uint32_t *numbers, uint32_t count) {
    uint32_t k;
    printf(" %s", name);
    for (k = 0; k < count; k++)
        printf(" %ld", numbers[k] == SPIREYERBA_UTIL_NO_WORD ? -1 : (long)numbers[k]);
}

/* Whether something was answered; says so if not. */
static int is_answered(int32_t answer) {
    if (answer < 0)
        printf("refused %d", (int)-answer);
    return answer >= 0;
}

static void call_lengths(void) {
    uint32_t symbols = number(), slots = number(), rules = number(), wanted = number();
    printf("%lu %lu %lu %lu", (unsigned long)spireyerba_util_rule_width(rules),
           (unsigned long)spireyerba_util_reading_length(slots, rules),
           (unsigned long)spireyerba_util_graph_reading_length(slots, rules),
           (unsigned long)spireyerba_util_work_length(symbols, slots, wanted));
}

static void call_grammar(void) {
    spireyerba_util_grammar grammar;
    read_block(&other_block);
    if (!is_answered(spireyerba_util_read_grammar(other_block.bytes, other_block.length, &grammar)))
        return;
    printf("%u %u %u %u", (unsigned)grammar.symbols, (unsigned)grammar.words, (unsigned)grammar.rules,
           (unsigned)grammar.has_marks);
    print_numbers("words", grammar.word, grammar.rules);
    print_numbers("marks", grammar.is_marked, grammar.rules);
}

static void call_measure(void) {
    spireyerba_util_grammar grammar;
    spireyerba_util_lengths lengths;
    read_block(&grammar_block);
    read_block(&other_block);
    if (!is_answered(spireyerba_util_read_grammar(grammar_block.bytes, grammar_block.length, &grammar)))
        return;
    if (is_answered(spireyerba_util_measure(&grammar, other_block.bytes, other_block.length, number(), &lengths)))
        printf("%u %u %lu %lu %lu", (unsigned)lengths.longest, (unsigned)lengths.of_graph, (unsigned long)lengths.reading,
               (unsigned long)lengths.work, (unsigned long)lengths.out);
}

static void print_reading(const spireyerba_util_reading *reading) {
    printf("%u %u", (unsigned)reading->weight, (unsigned)reading->of_graph);
    print_numbers("rules", reading->rule, reading->nodes);
    print_numbers("words", reading->word, reading->leaves);
    print_numbers("edges", reading->edge, reading->leaves);
}

static void call_list(void) {
    static spireyerba_util_lister lister; /* one for all calls */
    static spireyerba_util_reading all[SPIREYERBA_MAX_READINGS];
    spireyerba_util_reading reading;
    int32_t found, rank;
    read_block(&grammar_block);
    read_block(&other_block);
    if (!is_answered(spireyerba_util_set_block(&lister, grammar_block.bytes, grammar_block.length)))
        return;
    found = spireyerba_util_list_block(&lister, other_block.bytes, other_block.length, number());
    if (!is_answered(found))
        return;
    is_answered(spireyerba_util_read_readings(&lister.grammar, lister.out, lister.lengths.reading, lister.found, all));
    for (rank = 0; rank < found; rank++) {
        printf(" | ");
        if (is_answered(spireyerba_util_reading_at(&lister, (uint32_t)rank, &reading)))
            print_reading(&reading);
        if (reading.weight != all[rank].weight || memcmp(reading.rule, all[rank].rule, reading.nodes * sizeof *reading.rule) != 0)
            printf(" otherwise when all are read");
    }
    if (spireyerba_util_reading_at(&lister, (uint32_t)found, &reading) != -SPIREYERBA_READING_END)
        printf("one too many");
    if (found == 1)
        spireyerba_util_free(&lister);
}

static void call_reading(void) {
    spireyerba_util_grammar grammar;
    spireyerba_util_reading reading;
    read_block(&grammar_block);
    read_block(&other_block);
    if (!is_answered(spireyerba_util_read_grammar(grammar_block.bytes, grammar_block.length, &grammar)) ||
        !is_answered(spireyerba_util_read_reading(&grammar, other_block.bytes, other_block.length, &reading)))
        return;
    print_reading(&reading);
}

/* The edges that are left of the line; one more than a graph can have are enough. */
static size_t read_edges(spireyerba_util_edge *edges) {
    const char *word;
    size_t count = 0;
    while (count <= SPIREYERBA_MAX_EDGES && (word = strtok(NULL, " \n")) != NULL) {
        edges[count].from = (uint32_t)strtoul(word, NULL, 10);
        edges[count].to = number();
        edges[count].word = number();
        edges[count++].cost = number();
    }
    return count;
}

/* The edges of the block are read again as they are. */
static void check_edges_again(uint32_t places, const spireyerba_util_edge *edges, size_t count) {
    spireyerba_util_edge again[SPIREYERBA_MAX_EDGES];
    uint32_t places_again = 0;
    int32_t answer = spireyerba_util_read_graph(grammar_block.bytes, grammar_block.length, other_block.bytes,
                                                other_block.length, &places_again, again);
    if (answer != (int32_t)count || places_again != places || memcmp(again, edges, count * sizeof *edges) != 0)
        printf(" is read otherwise");
    answer = spireyerba_util_read_graph(grammar_block.bytes, grammar_block.length, other_block.bytes,
                                        other_block.length - 1, &places_again, again);
    if (answer != -SPIREYERBA_UTTERANCE_END)
        printf(" is read when it is cut");
}

static void call_graph(void) {
    spireyerba_util_edge edges[SPIREYERBA_MAX_EDGES + 1];
    size_t count, length, k;
    uint32_t places;
    int32_t answer;
    read_block(&grammar_block);
    length = number();
    places = number();
    count = read_edges(edges);
    memset(other_block.bytes, NOISE, sizeof other_block.bytes);
    answer = spireyerba_util_graph_to_block(grammar_block.bytes, grammar_block.length, places, edges, count,
                                            other_block.bytes, length);
    if (other_block.bytes[answer < 0 ? 0 : answer] != NOISE)
        printf("overwritten ");
    if (!is_answered(answer))
        return;
    for (k = 0; k < (size_t)answer; k++)
        printf("%02x", (unsigned)other_block.bytes[k]);
    other_block.length = (size_t)answer;
    check_edges_again(places, edges, count);
}

static void call(const char *name) {
    if (strcmp(name, "version") == 0)
        printf("%s %s %d %d", SPIREYERBA_VERSION, spireyerba_util_version(), (int)spireyerba_util_interface(),
               spireyerba_util_is_compatible());
    else if (strcmp(name, "words") == 0)
        printf("%s", spireyerba_util_words((int32_t)strtol(strtok(NULL, " \n"), NULL, 10)));
    else if (strcmp(name, "lengths") == 0)
        call_lengths();
    else if (strcmp(name, "grammar") == 0)
        call_grammar();
    else if (strcmp(name, "measure") == 0)
        call_measure();
    else if (strcmp(name, "reading") == 0)
        call_reading();
    else if (strcmp(name, "list") == 0)
        call_list();
    else if (strcmp(name, "graph") == 0)
        call_graph();
    printf("\n");
}

int main(void) {
    while (fgets(line, sizeof line, stdin) != NULL)
        call(strtok(line, " \n"));
    return 0;
}
