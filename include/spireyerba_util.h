/*
** Spireyerba: conveniences for programs in C and C++ that call the library.
**
** NOT PROVED. What is here stands apart from the proved library, which has no part
** of it: it is one small file in C, util/spireyerba_util.c, that is tested beside
** the Rust crate. Whatever is searched, weighed or checked, the library does it.
** All names begin with spireyerba_util_.
**
** Installed, libspireyerba.so has these functions beside the library's, and for
** static programs they are in libspireyerba_util.a:
**
**   cc program.c $(pkg-config --cflags --libs spireyerba)
**
** In the repository:
**
**   cc -Iinclude program.c util/spireyerba_util.c target/staticlib/libspireyerba.a
**
** Functions that return an int32_t answer and refuse as the library's do: less
** than zero is minus a refusal's number, and then nothing was written, unless a
** function says otherwise. They keep nothing, and any may run at once on any
** threads. Only a lister, the last part of this header, takes memory, by malloc.
*/
#ifndef SPIREYERBA_UTIL_H
#define SPIREYERBA_UTIL_H

#include "spireyerba.h"

#ifdef __cplusplus
extern "C" {
#endif

/*
** VERSION. The interface's number is raised when a program that was compiled with
** this header might not run with another library; it is that of the shared
** library's name, libspireyerba.so.1.
*/
#define SPIREYERBA_VERSION "0.1.0"
#define SPIREYERBA_INTERFACE 1

/* The version, and the interface's number, that the library was built with. */
const char *spireyerba_util_version(void);
int32_t spireyerba_util_interface(void);

/* Whether the library that the program runs with is of the interface that it was compiled with. */
static inline int spireyerba_util_is_compatible(void) {
    return spireyerba_util_interface() == SPIREYERBA_INTERFACE;
}

/*
** REFUSALS. The words of a refusal, given as it was answered (less than zero) or by
** its number. For what is none: "no refusal".
*/
const char *spireyerba_util_words(int32_t refusal);

/*
** Hands on an answer; a refusal is printed to standard error, number and words, and
** ends the program with exit status 1. For small programs.
*/
size_t spireyerba_util_answered(int32_t answer);

/* LENGTHS, as functions for languages that cannot call those of spireyerba.h, which are inline. */
size_t spireyerba_util_rule_width(uint32_t rules);
size_t spireyerba_util_reading_length(uint32_t slots, uint32_t rules);
size_t spireyerba_util_graph_reading_length(uint32_t edges, uint32_t rules);
size_t spireyerba_util_work_length(uint32_t symbols, uint32_t slots, uint32_t wanted);

/* What a rule has in place of a word if its body is two symbols. */
#define SPIREYERBA_UTIL_NO_WORD 0xffffffffu

/* What a grammar's block holds that its readings need. */
typedef struct {
    uint32_t symbols, words, rules;
    uint32_t has_marks;                        /* 1 if its rules have marks, else 0       */
    uint32_t word[SPIREYERBA_MAX_RULES];       /* of each rule: its word, or NO_WORD      */
    uint32_t is_marked[SPIREYERBA_MAX_RULES];  /* of each rule: 1 if it is marked, else 0 */
} spireyerba_util_grammar;

/* Reads a grammar's block. Answers the number of rules. Refuses with any of GRAMMAR_.... */
int32_t spireyerba_util_read_grammar(
    const uint8_t *block, size_t block_len,
    spireyerba_util_grammar *grammar);

/* What is to be lent to a listing. */
typedef struct {
    uint32_t longest; /* the words of its longest reading: n, or P - 1 */
    uint32_t of_graph;
    size_t reading;   /* the bytes of a reading in the output, L       */
    size_t work;      /* the numbers of the work table                 */
    size_t out;       /* the bytes of the output                       */
} spireyerba_util_lengths;

/*
** What a listing of so many readings of a block, of slots or of a graph, needs; for an
** open listing wanted is SPIREYERBA_MAX_READINGS. Only the front of the block is
** looked at. Answers its longest. Refuses with UTTERANCE_END, _KIND, _RANGE,
** LISTING_WANTED.
*/
int32_t spireyerba_util_measure(
    const spireyerba_util_grammar *grammar,
    const uint8_t *utterance, size_t utterance_len,
    uint32_t wanted,
    spireyerba_util_lengths *lengths);

/* The nodes of the largest reading. */
#define SPIREYERBA_UTIL_MAX_NODES (2 * SPIREYERBA_MAX_SLOTS - 1)

/* The fields of a reading. */
typedef struct {
    uint32_t weight;
    uint32_t nodes;                           /* 2 * leaves - 1                                  */
    uint32_t leaves;                          /* its slots, or the edges of its path             */
    uint32_t of_graph;                        /* 1 if it is a graph's, else 0                    */
    uint32_t rule[SPIREYERBA_UTIL_MAX_NODES]; /* of each node: a node, its left, its right part  */
    uint32_t word[SPIREYERBA_MAX_SLOTS];      /* of each leaf                                    */
    uint32_t edge[SPIREYERBA_MAX_SLOTS];      /* of each leaf: its edge in the graph, or its slot */
} spireyerba_util_reading;

/*
** Reads the block of a reading, of slots or of a graph, with or without zeros behind
** it. Answers its number of leaves. Any bytes may be handed in: refuses with
** READING_END, _KIND, _SLOTS for a number that is not 1 to 24, and _WALK for a rule
** that the grammar does not have or a number of word rules that is not that of leaves.
** Whether it is a derivation's is for spireyerba_check to say.
*/
int32_t spireyerba_util_read_reading(
    const spireyerba_util_grammar *grammar,
    const uint8_t *block, size_t block_len,
    spireyerba_util_reading *reading);

/*
** Reads so many readings that stand one behind the other, each so many bytes long, as a
** listing leaves them. Answers their number, or refuses as for the first that is refused;
** those before it are then written.
*/
int32_t spireyerba_util_read_readings(
    const spireyerba_util_grammar *grammar,
    const uint8_t *blocks, size_t length,
    uint32_t count,
    spireyerba_util_reading *readings);

/* An edge of a word graph. */
typedef struct {
    uint32_t from, to, word, cost;
} spireyerba_util_edge;

/*
** Packs a word graph under a grammar, given as its block. Answers the bytes written to
** out, at most SPIREYERBA_GRAPH_BLOCK_MAX. Refuses with any of GRAMMAR_..., with
** UTTERANCE_RANGE for the number of places, then of edges; edge by edge with
** EDGE_PLACES, UTTERANCE_WORD, SHEET_VALUE for its cost, EDGE_REPEAT; then with
** OUTPUT_SHORT.
*/
int32_t spireyerba_util_graph_to_block(
    const uint8_t *grammar, size_t grammar_len,
    uint32_t places,
    const spireyerba_util_edge *edges, size_t count,
    uint8_t *out, size_t out_len);

/*
** Reads the block of a word graph under a grammar, given as its block. Answers its number of
** edges, writes them to edges, which has room for SPIREYERBA_MAX_EDGES, and the number of
** places to *places. Refuses as a listing does; slots with UTTERANCE_KIND.
*/
int32_t spireyerba_util_read_graph(
    const uint8_t *grammar, size_t grammar_len,
    const uint8_t *block, size_t block_len,
    uint32_t *places,
    spireyerba_util_edge *edges);

/*
** LISTERS. A lister keeps a grammar and the memory that its listings need from one
** listing to the next. It is all zeros before its first use, and each thread has its
** own.
*/
typedef struct {
    spireyerba_util_grammar grammar;
    spireyerba_util_lengths lengths; /* of the last listing                */
    uint32_t found;                  /* the readings that it found         */
    uint8_t block[SPIREYERBA_GRAMMAR_BLOCK_MAX];
    size_t block_len;
    uint32_t *work;
    size_t work_len;
    uint8_t *out;                    /* the readings, lengths.reading each */
    size_t out_len;
} spireyerba_util_lister;

/*
** Gives a lister its grammar, as a sheet or as a block, and refuses as
** spireyerba_grammar_to_block and spireyerba_grammar_to_sheet do. Answers the number of
** rules.
*/
int32_t spireyerba_util_set_sheet(spireyerba_util_lister *lister, const uint32_t *sheet, size_t sheet_len);
int32_t spireyerba_util_set_block(spireyerba_util_lister *lister, const uint8_t *block, size_t block_len);

/*
** Lists the readings of an utterance under the lister's grammar, given as the sheet of
** slots or as the block of either. Answers the number found, and refuses as
** spireyerba_utterance_to_block and spireyerba_listing do; with LISTING_WORK where
** there is no memory.
*/
int32_t spireyerba_util_list_sheet(spireyerba_util_lister *lister, const uint32_t *sheet, size_t sheet_len, uint32_t wanted);
int32_t spireyerba_util_list_block(spireyerba_util_lister *lister, const uint8_t *block, size_t block_len, uint32_t wanted);

/* Reads the reading of a rank, 0 for the first, of the last listing. Answers its leaves; READING_END for a rank that was not found. */
int32_t spireyerba_util_reading_at(const spireyerba_util_lister *lister, uint32_t rank, spireyerba_util_reading *reading);

/* Gives the memory back. The lister keeps its grammar. */
void spireyerba_util_free(spireyerba_util_lister *lister);

#ifdef __cplusplus
}
#endif

#endif /* SPIREYERBA_UTIL_H */
