/*
** Spireyerba: ranked readings of an utterance under a weighted grammar, heard
** as slots of words or as a word graph.
**
** This header is the whole interface of libspireyerba.a, for C and C++. The
** library is written in Rattle: what each function answers and what it writes
** is proved for every input, from definitions that this header puts in words
** (README.md, "What is proved").
**
**   cc -Iinclude program.c target/staticlib/libspireyerba.a
**
** ANSWERS. Every function returns an int32_t. Zero or more is its answer. Less
** than zero is a refusal: minus one of the numbers SPIREYERBA_... below, such
** as -SPIREYERBA_GRAMMAR_KIND. Where several conditions hold, the one that is
** met first is answered: the grammar's, then the utterance's, then the
** reading's, each field by field unless its function says otherwise; then those
** of a number wanted, of shares and of lengths lent, in the order that its
** function names.
** To refuse "for the blocks" is to refuse with any of GRAMMAR_..., then with any
** of UTTERANCE_..., and of EDGE_... where a graph is taken.
**
** MEMORY. A slice is a pointer and a length, and the length counts elements
** (uint8_t or uint32_t), not bytes. A second result goes to one number that a
** pointer is given to. All memory is the caller's: it is lent for
** the time of one call, and no pointer is kept. The library allocates nothing,
** and 64 KiB of stack suffice (measured, not proved: tests/tests/stack.rs). A
** pointer must be valid for its length, aligned for its type and not null (for
** an empty slice, any address that is not null will do); out, work, place, chance,
** least and greatest may not overlap each other or another slice.
**
** WHAT IS WRITTEN. Only out, work, place, chance, least and greatest are ever
** changed, and a refusal changes nothing at all. An answer leaves its result at the
** front of out, as long as the function says, everything behind it as it was, and
** all of work zero. This holds whatever out and work held before. Only
** spireyerba_next goes on with what work holds and leaves an open listing in it.
**
** THREADS. The library has no state: no variable, no file, no lock. Any
** functions may run at once on any threads, as long as nothing that is written to
** is lent to two calls at a time.
*/
#ifndef SPIREYERBA_H
#define SPIREYERBA_H

#include <stddef.h>
#include <stdint.h>

#ifdef __cplusplus
extern "C" {
#endif

/*
** LIMITS. Symbols and words are numbered apart, each from 0; symbol 0 is the
** start. Rules are numbered from 0 in the order of the block.
*/
#define SPIREYERBA_MAX_SYMBOLS 32      /* S is 1 to 32                        */
#define SPIREYERBA_MAX_WORDS 200       /* W is 1 to 200                       */
#define SPIREYERBA_MAX_RULES 256       /* R is 1 to 256                       */
#define SPIREYERBA_MAX_SLOTS 24        /* n is 1 to 24                        */
#define SPIREYERBA_MAX_CANDIDATES 7    /* of a slot: 1 to 7                   */
#define SPIREYERBA_MAX_PLACES 25       /* of a word graph: P is 2 to 25       */
#define SPIREYERBA_MAX_EDGES 96        /* of a word graph: 1 to 96            */
#define SPIREYERBA_MAX_WEIGHT 65535    /* of a rule, and cost of a word       */
#define SPIREYERBA_NOT_HEARD 65535     /* cost of a word: not offered         */
#define SPIREYERBA_MAX_ITEMS 6         /* of the body of an office's rule     */
#define SPIREYERBA_MAX_SHARE 1024      /* of a rule: 1 to 1,024, of 1,024     */

/*
** SIZES. No accepted block or sheet is longer; an output of this length is
** never too short for a conversion. Blocks are in bytes, sheets in numbers.
*/
#define SPIREYERBA_GRAMMAR_BLOCK_MAX 1060   /* without marks 1,028 */
#define SPIREYERBA_UTTERANCE_BLOCK_MAX 515
#define SPIREYERBA_GRAPH_BLOCK_MAX 410
#define SPIREYERBA_GRAMMAR_SHEET_MAX 1539   /* without marks 1,283 */
#define SPIREYERBA_UTTERANCE_SHEET_MAX 361

/* The length of the sheet of a grammar with so many rules, without and with marks. */
#define SPIREYERBA_GRAMMAR_SHEET_LENGTH(rules) (3 + 5 * (size_t)(rules))
#define SPIREYERBA_MARKED_SHEET_LENGTH(rules) (3 + 6 * (size_t)(rules))

/* Refusals of a grammar. From a sheet: RANGE, SYMBOL, WORD, REPEAT only. */
enum {
    SPIREYERBA_GRAMMAR_END = 1,      /* a field passes the end of the block       */
    SPIREYERBA_GRAMMAR_KIND = 2,     /* the block's kind is not 1 or 4            */
    SPIREYERBA_GRAMMAR_RANGE = 3,    /* S, W or R is out of range                 */
    SPIREYERBA_GRAMMAR_SYMBOL = 4,   /* a symbol is not below S                   */
    SPIREYERBA_GRAMMAR_WORD = 5,     /* a word is not below W                     */
    SPIREYERBA_GRAMMAR_REPEAT = 6,   /* kind, head and body equal an earlier rule's, in an office sheet head and items */
    SPIREYERBA_GRAMMAR_FILL = 7      /* nonzero fill in the last byte, or further bytes */
};

/* Refusals of an utterance, of slots or a word graph. From a sheet: RANGE, WORD, ORDER only; of a graph all but ORDER. */
enum {
    SPIREYERBA_UTTERANCE_END = 11,   /* a field passes the end of the block       */
    SPIREYERBA_UTTERANCE_KIND = 12,  /* the block's kind is not 2, nor 5 where a graph is taken */
    SPIREYERBA_UTTERANCE_RANGE = 13, /* n or a slot's count, P or the number of edges is out of range */
    SPIREYERBA_UTTERANCE_WORD = 14,  /* a word is not below the grammar's W       */
    SPIREYERBA_UTTERANCE_ORDER = 15, /* a word is not above the one before it in its slot */
    SPIREYERBA_UTTERANCE_FILL = 16   /* nonzero fill in the last byte, or further bytes */
};

/* Further refusals of a word graph. */
enum {
    SPIREYERBA_EDGE_PLACES = 51,     /* from is not below to, or to is not below P */
    SPIREYERBA_EDGE_REPEAT = 52      /* from, to and word equal an earlier edge's */
};

/* Further refusals of sheets, and that of the output of all conversions and of word margins. */
enum {
    SPIREYERBA_SHEET_COUNT = 41,     /* numbers are missing or left over          */
    SPIREYERBA_SHEET_VALUE = 42,     /* a rule's or an item's kind or a mark is not 0 or 1, a weight or
                                        cost passes 65,535, or a word rule's fifth number is not 0 */
    SPIREYERBA_OUTPUT_SHORT = 43     /* the output is shorter than the result     */
};

/* Further refusals of an office sheet. */
enum {
    SPIREYERBA_ITEM_COUNT = 54,      /* a body has not 1 to 6 items               */
    SPIREYERBA_ITEM_ALONE = 55,      /* a body is one symbol                      */
    SPIREYERBA_OFFICE_SIZE = 56      /* the result passes 32 symbols or 256 rules */
};

/*
** CONVERSIONS. A block is packed bits, most significant bit first, its last
** byte filled with zero bits. A sheet is the same as plain 32-bit numbers:
**
**   grammar     S, W, R, then for each rule five numbers: 0 (pair rule), head,
**               weight, first symbol, second symbol; or 1 (word rule), head,
**               weight, word, 0; with marks, each rule has a sixth number: 1 for
**               a helper's rule, 0 otherwise
**   utterance   n, then for each slot its count, and word and cost of each
**               candidate, words ascending; a cost of 65,535 (NOT_HEARD) says
**               that the word was not heard, and is carried unchanged
**
** A grammar block has the fields kind (4 bits, 1), S (6), W (8), R (9), then of
** each rule 0 or 1 (1 bit), head, weight (16), and two symbols or one word. An
** utterance block has kind (4 bits, 2), n (6), then of each slot its count (3)
** and word and cost (16) of each candidate. A symbol has as many bits as S - 1
** needs, a word as many as W - 1, at least 1. A grammar block with marks has
** kind 4, and behind each rule its mark (1 bit). Every function takes a grammar
** of either kind; only the conversions and the program lister look at marks.
**
** A word graph has no sheet: to a conversion its block is of another kind,
** UTTERANCE_KIND.
**
** Each conversion answers the number of elements written, which is never 0.
** Sheets and blocks that are accepted turn into each other without change:
** there and back again is what was handed in.
*/

/*
** Packs a grammar's sheet. Answers the bytes written to out.
** Refuses with GRAMMAR_RANGE, _SYMBOL, _WORD, _REPEAT, SHEET_COUNT,
** SHEET_VALUE, OUTPUT_SHORT: SHEET_COUNT for fewer than three numbers, then
** GRAMMAR_RANGE, then SHEET_COUNT unless there are 3 + 5R numbers, or 3 + 6R
** for a grammar with marks, then the rules field by field; _REPEAT comes after
** the mark, which is no part of it.
*/
int32_t spireyerba_grammar_to_block(
    const uint32_t *sheet, size_t sheet_len,
    uint8_t *out, size_t out_len);

/*
** Unpacks a grammar's block. Answers the numbers written to out.
** Refuses with any of GRAMMAR_..., OUTPUT_SHORT.
*/
int32_t spireyerba_grammar_to_sheet(
    const uint8_t *block, size_t block_len,
    uint32_t *out, size_t out_len);

/*
** OFFICE SHEETS. An office writes rules whose body is one word, or two to six
** items, each a symbol or a word. Its sheet has S, W, R, then for each rule head,
** weight, item count, and for each item 0 (symbol) or 1 (word) and its number.
** Packs it as a grammar in normal form with marks. Answers the bytes written to
** out.
**
** The office's rules keep their numbers and weights; a body of one word stays
** one. In a longer body each word becomes a helper symbol, one for each word in
** the whole grammar, and of the symbols X1 to XL the head joins X1 with a new
** helper, that one joins X2 with the next, and the last joins the final two.
** Helpers are numbered from S as met, a rule's words first; helper S + k has
** the one rule R + k, of weight 0 and with mark 1, and all others have mark 0.
** The derivations of the office's grammar and of the block's match one to one,
** with equal weight.
**
** Refuses number by number with SHEET_COUNT (a number is missing), GRAMMAR_RANGE,
** _SYMBOL, _WORD, SHEET_VALUE, ITEM_COUNT at the count, ITEM_ALONE at the 0 of a
** body's only item, and after a rule's last item with GRAMMAR_REPEAT (the weight
** is no part of it); then with SHEET_COUNT (numbers are left over), OFFICE_SIZE,
** OUTPUT_SHORT.
*/
int32_t spireyerba_office_to_block(
    const uint32_t *sheet, size_t sheet_len,
    uint8_t *out, size_t out_len);

/*
** Packs an utterance's sheet under a grammar, given as its block. Answers the
** bytes written to out.
** Refuses with any of GRAMMAR_..., then UTTERANCE_RANGE, _WORD, _ORDER,
** SHEET_COUNT, SHEET_VALUE (SHEET_COUNT for a missing number at its field, for
** surplus ones at the end), then OUTPUT_SHORT.
*/
int32_t spireyerba_utterance_to_block(
    const uint8_t *grammar, size_t grammar_len,
    const uint32_t *sheet, size_t sheet_len,
    uint8_t *out, size_t out_len);

/*
** Unpacks the block of an utterance of slots under a grammar, given as its
** block. Answers the numbers written to out.
** Refuses with any of GRAMMAR_..., any of UTTERANCE_..., OUTPUT_SHORT.
*/
int32_t spireyerba_utterance_to_sheet(
    const uint8_t *grammar, size_t grammar_len,
    const uint8_t *block, size_t block_len,
    uint32_t *out, size_t out_len);

/*
** WORD GRAPHS. Both listings, open listings, the check and the chance take a word
** graph in place of slots. It has P places, numbered from 0, and edges, numbered
** from 0 in the order of the block; an edge is a word that was heard from one place
** to a later one. A derivation then spans a path from place 0 to place P - 1, each
** word an edge of it. A graph without such a path is no refusal: it has no readings.
**
** A graph block has the fields kind (4 bits, 5), P (5), the number of edges (7),
** then of each edge from (5), to (5), word and cost (16). Its fields are checked
** as others are; EDGE_PLACES stands behind an edge's to, EDGE_REPEAT behind its
** cost.
**
** The slots of an utterance with at most 96 words in all can be redrawn as a
** graph, place k before slot k and each word an edge over its slot: it has the
** same derivations in the same order.
*/

/* Refusals of a reading. */
enum {
    SPIREYERBA_READING_END = 31,     /* a field passes the end of the block       */
    SPIREYERBA_READING_KIND = 32,    /* the block's kind is not 3, or for a graph not 6 */
    SPIREYERBA_READING_SLOTS = 33,   /* n is not the utterance's, or for a graph not 1 to P - 1 */
    SPIREYERBA_READING_WALK = 34,    /* the numbers are not the walk of a derivation */
    SPIREYERBA_READING_WEIGHT = 35,  /* the weight is not the derivation's        */
    SPIREYERBA_READING_FILL = 36     /* nonzero fill in the last byte, or further bytes */
};

/*
** CHECK. A reading block has the fields kind (4 bits, 3), n (6), weight (24),
** then the rule number of each of the 2n - 1 nodes of a derivation: a node, its
** left part, its right part. A rule number has as many bits as R - 1 needs, at
** least 1. A derivation has symbol 0 as its head and spans all slots; its
** weight is the sum of its rules' weights and of the costs of its words. It
** uses only words that are offered: those of a cost below NOT_HEARD.
**
** The reading of a graph has kind 6, for n the number of edges of its path, and
** after the number of each word rule that of its edge (7 bits). The check takes
** it cut to its own length, spireyerba_graph_reading_length(n, R).
**
** Answers 0 if the block is the reading of a derivation of this utterance under
** this grammar, with its true weight. Refuses for the blocks, then with any of
** READING_...; of these _WALK, _WEIGHT and _FILL come after all fields are read, in
** this order. The fields of a graph's reading are all there if it has bits for n
** word rules and n - 1 pair rules; another mix of rules is READING_WALK. No slice is
** changed.
*/
int32_t spireyerba_check(
    const uint8_t *grammar, size_t grammar_len,
    const uint8_t *utterance, size_t utterance_len,
    const uint8_t *reading, size_t reading_len);

/* Refusals of the shares of a grammar's rules. */
enum {
    SPIREYERBA_SHARES_COUNT = 60,    /* there is not one share for each rule      */
    SPIREYERBA_SHARE_RANGE = 61      /* a share is not 1 to 1,024                 */
};

/*
** CHANCE. Some offices have a share for each rule, of 1,024. The chance of a
** reading, of slots or of a graph, is the product of the shares of its nodes,
** each over 1,024. It is written to *chance as a float of 64 bits: 1.0 times
** each factor in the order of the walk, every product rounded to the nearest
** float, to even at a tie. A factor is exact, and so is a chance of one node.
** With m nodes and P the exact product of their whole shares, the float times
** 2 to the power 10 m differs from P by at most m * P / 2 to the power 52.
**
** Takes the share of each of the R rules, in the order of the rules. Answers 0.
** Refuses as the check does, then with SHARES_COUNT, SHARE_RANGE. The caller's
** rounding mode is to be the usual one, to nearest.
*/
int32_t spireyerba_chance(
    const uint8_t *grammar, size_t grammar_len,
    const uint8_t *utterance, size_t utterance_len,
    const uint8_t *reading, size_t reading_len,
    const uint32_t *shares, size_t shares_len,
    double *chance);

/* Refusals of the specimen and of the next phrase. */
enum {
    SPIREYERBA_SPECIMEN_LENGTH = 25, /* the length is not 1 to 24, or not 1 to 6  */
    SPIREYERBA_SPECIMEN_OUTPUT = 26  /* the output is shorter than the length     */
};

/*
** SPECIMEN. Finds the least word string of a wanted length that the grammar
** derives, compared word number by word number from the left, and writes it to
** out, one word number a byte. Answers the length, or 0 if no string of that
** length is derived; then nothing is written.
** Refuses with any of GRAMMAR_..., then SPECIMEN_LENGTH, SPECIMEN_OUTPUT.
*/
int32_t spireyerba_specimen(
    const uint8_t *grammar, size_t grammar_len,
    uint32_t length,
    uint8_t *out, size_t out_len);

#define SPIREYERBA_MAX_PHRASE 6

/*
** NEXT PHRASE. Hands out the word strings of a length, 1 to 6, that the grammar
** derives, one a call and each once, the least first. A first call (first not 0)
** gives what the specimen gives, whatever out holds. A later call (first 0) takes
** the first length bytes of out as a string, any bytes, and writes the least
** derived string above it in its place, one word number a byte; strings compare
** as for the specimen. So a first call and then later calls, each with out as it
** was left, give all strings. Answers the length, or 0 at the end: no string is
** left, and nothing is written.
** Refuses with any of GRAMMAR_..., then SPECIMEN_LENGTH, SPECIMEN_OUTPUT.
*/
int32_t spireyerba_next_phrase(
    const uint8_t *grammar, size_t grammar_len,
    uint32_t length,
    uint32_t first,
    uint8_t *out, size_t out_len);

/* Refusals of the listing. The number 24 was one, of a weight that passes 24 bits; no input reaches it, and it is not used again. */
enum {
    SPIREYERBA_LISTING_WANTED = 21,  /* the number wanted is not 1 to 256         */
    SPIREYERBA_LISTING_WORK = 22,    /* the work table is short                   */
    SPIREYERBA_LISTING_OUTPUT = 23   /* the output is short                       */
};

#define SPIREYERBA_MAX_READINGS 256
#define SPIREYERBA_READING_BLOCK_MAX 52
#define SPIREYERBA_GRAPH_READING_BLOCK_MAX 73

/* The bits of a rule number under a grammar of so many rules, 1 to 256. */
static inline size_t spireyerba_rule_width(uint32_t rules) {
    size_t width = 1;
    while (width < 8 && (rules - 1) >> width != 0)
        width++;
    return width;
}

/* The bytes of a reading's block over so many slots, 1 to 24, under a grammar of so many rules, 1 to 256. */
static inline size_t spireyerba_reading_length(uint32_t slots, uint32_t rules) {
    return (34 + (2 * (size_t)slots - 1) * spireyerba_rule_width(rules) + 7) / 8;
}

/* The bytes of the block of a graph's reading over a path of so many edges, 1 to 24, under so many rules, 1 to 256. */
static inline size_t spireyerba_graph_reading_length(uint32_t edges, uint32_t rules) {
    return (34 + (2 * (size_t)edges - 1) * spireyerba_rule_width(rules) + 7 * (size_t)edges + 7) / 8;
}

/* The numbers of work table that a listing needs, at most 9,830,400. A graph of P places needs what P - 1 slots do. */
static inline size_t spireyerba_work_length(uint32_t symbols, uint32_t slots, uint32_t wanted) {
    return 4 * (size_t)symbols * ((size_t)slots * (slots + 1) / 2) * wanted;
}

/*
** LISTING. Finds the readings of least weight of an utterance under a grammar,
** as many as wanted or as there are, the least first. Where weights are equal
** the lower sum of the costs of its words comes first, then the lower rule
** number, then the tree with fewer slots in its left part (in a graph: whose left
** part ends at a lower place), then the lesser left part by this same order,
** weight and costs included, then the lesser right part.
**
** Answers the number found, m, which is 0 if the grammar does not derive the
** utterance. A word of cost NOT_HEARD is not offered and so in no reading; if a
** slot has no other, m is 0. The first m * L bytes of out are the m readings,
** each L bytes. Of slots each is a block of the same length, which is
** L = spireyerba_reading_length(n, R). Of a graph a reading is as long as its
** path, with zeros behind it up to L = spireyerba_graph_reading_length(P - 1, R).
**
** work is scratch memory of at least spireyerba_work_length(S, n, wanted)
** numbers, for a graph with P - 1 for n, whatever it holds; after an answer all
** of it is zero, also what is beyond that length. out has at least wanted * L
** bytes, also where fewer readings exist.
**
** Refuses for the blocks, then with LISTING_WANTED, LISTING_WORK, LISTING_OUTPUT.
*/
int32_t spireyerba_listing(
    const uint8_t *grammar, size_t grammar_len,
    const uint8_t *utterance, size_t utterance_len,
    uint32_t wanted,
    uint32_t *work, size_t work_len,
    uint8_t *out, size_t out_len);

/* Refusal of an open listing, the last of all. */
enum {
    SPIREYERBA_ALTERED_WALK = 53     /* the walk that altered numbers spell is not a reading that passes */
};

/*
** READINGS ONE BY ONE. An open listing hands out the readings of the listing one a
** call, for whoever stops at the one that was meant. It keeps itself in place and
** work, which are the caller's and come back as they were left; out is free between
** calls. To end it there is nothing to do.
*/
typedef struct {
    uint32_t handed; /* the readings that were handed out */
    uint32_t opened; /* 1 once it was opened              */
} spireyerba_place;

/*
** OPEN. Opens a listing of an utterance under a grammar, slots or a graph. Answers
** 0; then *place is {0, 1} and all of work is zero, whatever both held.
**
** work has at least spireyerba_work_length(S, n, SPIREYERBA_MAX_READINGS) numbers,
** for a graph with P - 1 for n.
**
** Refuses for the blocks, then with LISTING_WORK.
*/
int32_t spireyerba_open(
    const uint8_t *grammar, size_t grammar_len,
    const uint8_t *utterance, size_t utterance_len,
    spireyerba_place *place,
    uint32_t *work, size_t work_len);

/* The answers of spireyerba_next. */
enum {
    SPIREYERBA_NEXT_NO_MORE = 0,     /* there is no further reading               */
    SPIREYERBA_NEXT_READING = 1,     /* one more reading was handed out           */
    SPIREYERBA_NEXT_FULL = 2         /* 256 readings were handed out before       */
};

/*
** NEXT. Hands out one more reading of an open listing. With the blocks that it was
** opened with, and place and work as the call before left them, a call after k
** readings answers
**
**   NEXT_READING   the first L bytes of out are the reading that is number k + 1 in
**                  the listing, byte for byte, and what is behind them is as it
**                  was; handed is k + 1
**   NEXT_NO_MORE   exactly if k is below 256 and there are no more than k readings
**   NEXT_FULL      exactly if k is 256
**
** The last two, like any refusal, change nothing: not place, not work, not out.
** L is that of the listing; out has at least L bytes, and work is as for opening.
**
** A tree is found once it stands in work. The call that hands out the first reading
** finds at most one for each symbol and span, and each later call at most 2n - 1
** more in all, for a graph with P - 1 for n: no call does the work of the whole
** listing.
**
** Where place or work was altered, or the blocks are others, a call ends, what it
** hands out passes the check (that of a graph cut to its own length), and no tree
** that stands in work is written over. What work spells at the rank that is asked
** for decides: it is handed out if it passes the check. Where opened is not 1, and in
** a first call where the first ranks in work are not zeros, nothing is looked for
** and work is taken as it stands. What is handed out is spelled from found ranks
** alone, and a rank is found once a tree of its own symbol and span stands there: a
** graph's leaf whose edge goes over another span is no tree of that span. Of slots no
** edge number counts, since a reading of slots has none.
**
** Refuses for the blocks, then with LISTING_WORK, LISTING_OUTPUT, and last of all
** with ALTERED_WALK: the walk that altered numbers spell is not a reading that
** passes, as where a place was never opened and work is zeros. NEXT_FULL comes
** before it.
*/
int32_t spireyerba_next(
    const uint8_t *grammar, size_t grammar_len,
    const uint8_t *utterance, size_t utterance_len,
    spireyerba_place *place,
    uint32_t *work, size_t work_len,
    uint8_t *out, size_t out_len);

/* Further refusals of the panel's listing. */
enum {
    SPIREYERBA_PANEL_SLOTS = 57,     /* more than 12 slots, or 13 places          */
    SPIREYERBA_PANEL_WANTED = 58     /* the number wanted is above 16             */
};

/*
** The panel's limits, and what suffices for whatever is within them: no call of
** the panel needs more numbers of work or more bytes of out.
*/
#define SPIREYERBA_PANEL_MAX_SLOTS 12
#define SPIREYERBA_PANEL_MAX_PLACES 13
#define SPIREYERBA_PANEL_MAX_READINGS 16
#define SPIREYERBA_PANEL_WORK_MAX 159744
#define SPIREYERBA_PANEL_OUTPUT_MAX 608

/*
** PANEL LISTING. The listing within the limits of a panel for plan desks: at most
** 12 slots, or 13 places of a word graph, and at most 16 readings. Within them
** it answers what the listing answers and leaves the same in work and out, to
** the byte; work and out are as long as for the listing.
**
** Refuses for the blocks, then with PANEL_SLOTS, LISTING_WANTED, PANEL_WANTED,
** LISTING_WORK, LISTING_OUTPUT. So a number wanted of 0 or above 256 is
** LISTING_WANTED here too, and more than 24 slots are UTTERANCE_RANGE.
*/
int32_t spireyerba_panel_listing(
    const uint8_t *grammar, size_t grammar_len,
    const uint8_t *utterance, size_t utterance_len,
    uint32_t wanted,
    uint32_t *work, size_t work_len,
    uint8_t *out, size_t out_len);

/* Refusal of ranges of costs. */
enum {
    SPIREYERBA_RANGES_DISAGREE = 59  /* other than costs differs, a cost falls, or NOT_HEARD is in one only */
};

/* The answers of spireyerba_cost_ranges, about the first reading for the low costs. */
enum {
    SPIREYERBA_FIRST_NOTHING = 0,    /* there is none, under no choice of costs   */
    SPIREYERBA_FIRST_OUTWEIGHED = 1, /* under some choice another is lighter      */
    SPIREYERBA_FIRST_STANDS = 2      /* under every choice it has least weight    */
};

/*
** COST RANGES. A recogniser may know the cost of each word of each slot only
** within a range. low and high are blocks of two utterances of slots, alike but
** for their costs, none of which falls from low to high; NOT_HEARD stands in both
** or in neither. A choice gives each word a cost from its low to its high one.
**
** Answers FIRST_NOTHING if there is no derivation; then there is none under any
** choice. Else *least and *greatest are the least and the greatest weight that a
** first reading has over all choices, both of them reached, and the answer is about
** the first reading for the low costs, by the order of the listing:
** FIRST_OUTWEIGHED if under some choice some derivation is strictly lighter,
** FIRST_STANDS if under none. A tie does not outweigh.
**
** work is as for a listing of one reading, spireyerba_work_length(S, n, 1)
** numbers; after an answer, also FIRST_NOTHING, all of it is zero. With that one,
** and with a refusal, *least and *greatest are as they were.
**
** Refuses for the blocks, low before high (a graph is UTTERANCE_KIND), then with
** RANGES_DISAGREE, LISTING_WORK.
*/
int32_t spireyerba_cost_ranges(
    const uint8_t *grammar, size_t grammar_len,
    const uint8_t *low, size_t low_len,
    const uint8_t *high, size_t high_len,
    uint32_t *work, size_t work_len,
    uint32_t *least, uint32_t *greatest);

/* The numbers of an entry, and those of the longest output that there can be. */
#define SPIREYERBA_MARGIN_NUMBERS 4
#define SPIREYERBA_MARGINS_MAX 672

/*
** WORD MARGINS. Which word to listen to again: for each offered word of each slot
** that the first reading does not use there, the least whole amount by which its
** cost alone must fall for some reading to be strictly lighter than the first is
** now. Left out are a word whose cost cannot fall so far and one that no reading
** uses there. An entry is four numbers: that amount, 1 to the word's cost; the slot
** and the word, numbered from 0; and the weight that the lighter reading has now.
**
** Answers the number of entries, m, which is 0 also if there is no reading. The
** first 4 * m numbers of out are the entries, ascending by amount, then slot, then
** word.
**
** work is as for a listing of one reading, spireyerba_work_length(S, n, 1) numbers;
** after an answer, also 0, all of it is zero. out has at least
** SPIREYERBA_MARGIN_NUMBERS numbers for each word of each slot, those of cost
** NOT_HEARD included, also where fewer entries exist.
**
** Refuses for the blocks (a graph is UTTERANCE_KIND), then with LISTING_WORK,
** OUTPUT_SHORT.
*/
int32_t spireyerba_word_margins(
    const uint8_t *grammar, size_t grammar_len,
    const uint8_t *utterance, size_t utterance_len,
    uint32_t *work, size_t work_len,
    uint32_t *out, size_t out_len);

#ifdef __cplusplus
}
#endif

#endif /* SPIREYERBA_H */
