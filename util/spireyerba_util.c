/*
** The conveniences of include/spireyerba_util.h, which says what each does. They are
** not proved, and no part of the proved library: tests/tests/util.rs compares them
** with the Rust crate.
*/
#include "spireyerba_util.h"

#include <stdio.h>
#include <stdlib.h>
#include <string.h>

/* The kinds of blocks, and the bits of the fields that stand at their fronts. */
enum { SLOTS_KIND = 2, READING_KIND = 3, GRAPH_KIND = 5, GRAPH_READING_KIND = 6 };
enum { KIND_BITS = 4, SLOTS_BITS = 6, WEIGHT_BITS = 24, PLACES_BITS = 5, EDGES_BITS = 7, EDGE_BITS = 7, COST_BITS = 16 };

/* A grammar's sheet: the numbers at its front, then those of each rule, the mark last if it has one. */
enum { SHEET_SYMBOLS, SHEET_WORDS, SHEET_RULES, SHEET_FRONT };
enum { RULE_KIND, RULE_WORD = 3, RULE_MARK = 5, WORD_RULE = 1 };

const char *spireyerba_util_version(void) {
    return SPIREYERBA_VERSION;
}

int32_t spireyerba_util_interface(void) {
    return SPIREYERBA_INTERFACE;
}

static const struct {
    int32_t number;
    const char *words;
} refusals[] = {
    {SPIREYERBA_GRAMMAR_END, "a field of the grammar block passes its end"},
    {SPIREYERBA_GRAMMAR_KIND, "the grammar block's kind is not 1 or 4"},
    {SPIREYERBA_GRAMMAR_RANGE, "the grammar's number of symbols, words or rules is out of range"},
    {SPIREYERBA_GRAMMAR_SYMBOL, "a symbol of the grammar is not below the number of symbols"},
    {SPIREYERBA_GRAMMAR_WORD, "a word of the grammar is not below the number of words"},
    {SPIREYERBA_GRAMMAR_REPEAT, "a rule has kind, head and body of an earlier one, or in an office sheet head and items"},
    {SPIREYERBA_GRAMMAR_FILL, "the grammar block has nonzero fill in its last byte, or further bytes"},
    {SPIREYERBA_UTTERANCE_END, "a field of the utterance block passes its end"},
    {SPIREYERBA_UTTERANCE_KIND, "the utterance block's kind is not 2, nor 5 where a word graph is taken"},
    {SPIREYERBA_UTTERANCE_RANGE,
     "the utterance's number of slots, of words in a slot, of places or of edges is out of range"},
    {SPIREYERBA_UTTERANCE_WORD, "a word of the utterance is not below the grammar's number of words"},
    {SPIREYERBA_UTTERANCE_ORDER, "a word is not above the one before it in its slot"},
    {SPIREYERBA_UTTERANCE_FILL, "the utterance block has nonzero fill in its last byte, or further bytes"},
    {SPIREYERBA_LISTING_WANTED, "the number of readings wanted is not 1 to 256"},
    {SPIREYERBA_LISTING_WORK, "the work table is short"},
    {SPIREYERBA_LISTING_OUTPUT, "the output is short for the readings wanted"},
    {SPIREYERBA_SPECIMEN_LENGTH, "the length wanted is not 1 to 24, or for phrases not 1 to 6"},
    {SPIREYERBA_SPECIMEN_OUTPUT, "the output is shorter than the length wanted"},
    {SPIREYERBA_READING_END, "a field of the reading block passes its end"},
    {SPIREYERBA_READING_KIND, "the reading block's kind is not 3, or for a word graph not 6"},
    {SPIREYERBA_READING_SLOTS,
     "the reading's number of slots is not the utterance's, or that of edges is not 1 to P - 1"},
    {SPIREYERBA_READING_WALK, "the reading's rule and edge numbers are not the walk of a derivation"},
    {SPIREYERBA_READING_WEIGHT, "the reading's weight is not its derivation's"},
    {SPIREYERBA_READING_FILL, "the reading block has nonzero fill in its last byte, or further bytes"},
    {SPIREYERBA_SHEET_COUNT, "numbers of the sheet are missing or left over"},
    {SPIREYERBA_SHEET_VALUE, "a rule's or an item's kind or a mark is not 0 or 1, a weight or cost passes 65,535, "
                             "or a word rule's fifth number is not 0"},
    {SPIREYERBA_OUTPUT_SHORT, "the output is shorter than the result"},
    {SPIREYERBA_EDGE_PLACES, "an edge does not end above where it starts, or not below the number of places"},
    {SPIREYERBA_EDGE_REPEAT, "an edge has the places and the word of an earlier one"},
    {SPIREYERBA_ALTERED_WALK, "the walk that altered numbers spell is not a reading that passes"},
    {SPIREYERBA_ITEM_COUNT, "a body of an office sheet does not have 1 to 6 items"},
    {SPIREYERBA_ITEM_ALONE, "a body of an office sheet is one symbol"},
    {SPIREYERBA_OFFICE_SIZE, "the grammar that an office sheet becomes passes 32 symbols or 256 rules"},
    {SPIREYERBA_PANEL_SLOTS, "the panel takes at most 12 slots, or 13 places of a word graph"},
    {SPIREYERBA_PANEL_WANTED, "the panel lists at most 16 readings"},
    {SPIREYERBA_RANGES_DISAGREE, "the utterances differ elsewhere than in costs, a cost falls, or 65,535 stands in one only"},
    {SPIREYERBA_SHARES_COUNT, "there is not one share for each rule of the grammar"},
    {SPIREYERBA_SHARE_RANGE, "a share is not 1 to 1,024"},
};

const char *spireyerba_util_words(int32_t refusal) {
    size_t k;
    for (k = 0; k < sizeof refusals / sizeof *refusals; k++)
        if (refusal == refusals[k].number || refusal == -refusals[k].number)
            return refusals[k].words;
    return "no refusal";
}

size_t spireyerba_util_answered(int32_t answer) {
    if (answer < 0) {
        fprintf(stderr, "refused %ld: %s\n", -(long)answer, spireyerba_util_words(answer));
        exit(EXIT_FAILURE);
    }
    return (size_t)answer;
}

size_t spireyerba_util_rule_width(uint32_t rules) {
    return spireyerba_rule_width(rules);
}

size_t spireyerba_util_reading_length(uint32_t slots, uint32_t rules) {
    return spireyerba_reading_length(slots, rules);
}

size_t spireyerba_util_graph_reading_length(uint32_t edges, uint32_t rules) {
    return spireyerba_graph_reading_length(edges, rules);
}

size_t spireyerba_util_work_length(uint32_t symbols, uint32_t slots, uint32_t wanted) {
    return spireyerba_work_length(symbols, slots, wanted);
}

int32_t spireyerba_util_read_grammar(const uint8_t *block, size_t block_len, spireyerba_util_grammar *grammar) {
    uint32_t sheet[SPIREYERBA_GRAMMAR_SHEET_MAX], rule;
    int32_t length = spireyerba_grammar_to_sheet(block, block_len, sheet, SPIREYERBA_GRAMMAR_SHEET_MAX);
    size_t numbers;
    if (length < 0)
        return length;
    grammar->symbols = sheet[SHEET_SYMBOLS];
    grammar->words = sheet[SHEET_WORDS];
    grammar->rules = sheet[SHEET_RULES];
    numbers = ((size_t)length - SHEET_FRONT) / grammar->rules;
    grammar->has_marks = numbers > RULE_MARK;
    for (rule = 0; rule < grammar->rules; rule++) {
        const uint32_t *of_rule = sheet + SHEET_FRONT + rule * numbers;
        grammar->word[rule] = of_rule[RULE_KIND] == WORD_RULE ? of_rule[RULE_WORD] : SPIREYERBA_UTIL_NO_WORD;
        grammar->is_marked[rule] = grammar->has_marks ? of_rule[RULE_MARK] : 0;
    }
    return (int32_t)grammar->rules;
}

/* Where a block is read or written: at a bit of it, which may be behind its end. */
typedef struct {
    size_t at, bits;
} cursor;

static cursor front_of(size_t bytes) {
    cursor front = {0, 8 * bytes};
    return front;
}

static int is_past_end(const cursor *cursor) {
    return cursor->at > cursor->bits;
}

/* The next field, of 1 to 24 bits, most significant bit first; 0 if it passes the end. */
static uint32_t take(cursor *cursor, const uint8_t *block, size_t width) {
    size_t byte = cursor->at / 8, end = cursor->at + width;
    uint32_t value = 0;
    cursor->at = end;
    if (is_past_end(cursor))
        return 0;
    for (; 8 * byte < end; byte++)
        value = value << 8 | block[byte];
    return value >> (8 * byte - end) & (((uint32_t)1 << width) - 1);
}

int32_t spireyerba_util_measure(const spireyerba_util_grammar *grammar, const uint8_t *utterance, size_t utterance_len,
                                uint32_t wanted, spireyerba_util_lengths *lengths) {
    cursor cursor = front_of(utterance_len);
    uint32_t kind = take(&cursor, utterance, KIND_BITS), longest;
    int of_graph = kind == GRAPH_KIND;
    if (is_past_end(&cursor))
        return -SPIREYERBA_UTTERANCE_END;
    if (!of_graph && kind != SLOTS_KIND)
        return -SPIREYERBA_UTTERANCE_KIND;
    longest = take(&cursor, utterance, of_graph ? PLACES_BITS : SLOTS_BITS);
    if (is_past_end(&cursor))
        return -SPIREYERBA_UTTERANCE_END;
    if (of_graph && longest > 0)
        longest--;
    if (longest < 1 || longest > SPIREYERBA_MAX_SLOTS)
        return -SPIREYERBA_UTTERANCE_RANGE;
    if (wanted < 1 || wanted > SPIREYERBA_MAX_READINGS)
        return -SPIREYERBA_LISTING_WANTED;
    lengths->longest = longest;
    lengths->of_graph = (uint32_t)of_graph;
    lengths->reading = of_graph ? spireyerba_graph_reading_length(longest, grammar->rules)
                                : spireyerba_reading_length(longest, grammar->rules);
    lengths->work = spireyerba_work_length(grammar->symbols, longest, wanted);
    lengths->out = wanted * lengths->reading;
    return (int32_t)longest;
}

/* The front of a reading: all but its nodes. */
static int32_t read_front(cursor *cursor, const uint8_t *block, spireyerba_util_reading *reading) {
    uint32_t kind = take(cursor, block, KIND_BITS);
    if (is_past_end(cursor))
        return -SPIREYERBA_READING_END;
    if (kind != READING_KIND && kind != GRAPH_READING_KIND)
        return -SPIREYERBA_READING_KIND;
    reading->of_graph = kind == GRAPH_READING_KIND;
    reading->leaves = take(cursor, block, SLOTS_BITS);
    if (is_past_end(cursor))
        return -SPIREYERBA_READING_END;
    if (reading->leaves < 1 || reading->leaves > SPIREYERBA_MAX_SLOTS)
        return -SPIREYERBA_READING_SLOTS;
    reading->nodes = 2 * reading->leaves - 1;
    reading->weight = take(cursor, block, WEIGHT_BITS);
    return 0;
}

int32_t spireyerba_util_read_reading(const spireyerba_util_grammar *grammar, const uint8_t *block, size_t block_len,
                                     spireyerba_util_reading *reading) {
    spireyerba_util_reading read;
    cursor cursor = front_of(block_len);
    size_t width = spireyerba_rule_width(grammar->rules);
    uint32_t node, leaf = 0;
    int32_t refused = read_front(&cursor, block, &read);
    if (refused < 0)
        return refused;
    for (node = 0; node < read.nodes; node++) {
        uint32_t rule = take(&cursor, block, width);
        if (rule >= grammar->rules)
            return -SPIREYERBA_READING_WALK;
        read.rule[node] = rule;
        if (grammar->word[rule] == SPIREYERBA_UTIL_NO_WORD)
            continue;
        if (leaf == read.leaves)
            return is_past_end(&cursor) ? -SPIREYERBA_READING_END : -SPIREYERBA_READING_WALK;
        read.word[leaf] = grammar->word[rule];
        read.edge[leaf] = read.of_graph ? take(&cursor, block, EDGE_BITS) : leaf;
        leaf++;
    }
    if (is_past_end(&cursor))
        return -SPIREYERBA_READING_END;
    if (leaf != read.leaves)
        return -SPIREYERBA_READING_WALK;
    *reading = read;
    return (int32_t)read.leaves;
}

int32_t spireyerba_util_read_readings(const spireyerba_util_grammar *grammar, const uint8_t *blocks, size_t length,
                                      uint32_t count, spireyerba_util_reading *readings) {
    uint32_t k;
    for (k = 0; k < count; k++) {
        int32_t answer = spireyerba_util_read_reading(grammar, blocks + k * length, length, &readings[k]);
        if (answer < 0)
            return answer;
    }
    return (int32_t)count;
}

/* Writes the next field; the block's bits are zero there. */
static void put(cursor *cursor, uint8_t *block, size_t width, uint32_t value) {
    for (; width > 0; width--, cursor->at++)
        block[cursor->at / 8] |= (uint8_t)((value >> (width - 1) & 1) << (7 - cursor->at % 8));
}

/* The bits of a word's number under a grammar of so many words. */
static size_t word_width(uint32_t words) {
    return spireyerba_rule_width(words);
}

/* Whether an edge has the places and the word of one of the first edges. */
static int is_repeated(const spireyerba_util_edge *edges, size_t first, const spireyerba_util_edge *edge) {
    size_t k;
    for (k = 0; k < first; k++)
        if (edges[k].from == edge->from && edges[k].to == edge->to && edges[k].word == edge->word)
            return 1;
    return 0;
}

/* Refuses what no graph's block can hold, or answers 0. */
static int32_t check_edges(uint32_t words, uint32_t places, const spireyerba_util_edge *edges, size_t count) {
    size_t k;
    if (places < 2 || places > SPIREYERBA_MAX_PLACES || count < 1 || count > SPIREYERBA_MAX_EDGES)
        return -SPIREYERBA_UTTERANCE_RANGE;
    for (k = 0; k < count; k++) {
        if (edges[k].from >= edges[k].to || edges[k].to >= places)
            return -SPIREYERBA_EDGE_PLACES;
        if (edges[k].word >= words)
            return -SPIREYERBA_UTTERANCE_WORD;
        if (edges[k].cost > SPIREYERBA_MAX_WEIGHT)
            return -SPIREYERBA_SHEET_VALUE;
        if (is_repeated(edges, k, &edges[k]))
            return -SPIREYERBA_EDGE_REPEAT;
    }
    return 0;
}

static void put_edge(cursor *cursor, uint8_t *block, size_t width, const spireyerba_util_edge *edge) {
    put(cursor, block, PLACES_BITS, edge->from);
    put(cursor, block, PLACES_BITS, edge->to);
    put(cursor, block, width, edge->word);
    put(cursor, block, COST_BITS, edge->cost);
}

int32_t spireyerba_util_graph_to_block(const uint8_t *grammar, size_t grammar_len, uint32_t places,
                                       const spireyerba_util_edge *edges, size_t count, uint8_t *out, size_t out_len) {
    spireyerba_util_grammar under;
    size_t width, bytes, k;
    cursor cursor = {0, 0};
    int32_t refused = spireyerba_util_read_grammar(grammar, grammar_len, &under);
    if (refused >= 0)
        refused = check_edges(under.words, places, edges, count);
    if (refused < 0)
        return refused;
    width = word_width(under.words);
    bytes = (KIND_BITS + PLACES_BITS + EDGES_BITS + count * (2 * PLACES_BITS + width + COST_BITS) + 7) / 8;
    if (out_len < bytes)
        return -SPIREYERBA_OUTPUT_SHORT;
    memset(out, 0, bytes);
    put(&cursor, out, KIND_BITS, GRAPH_KIND);
    put(&cursor, out, PLACES_BITS, places);
    put(&cursor, out, EDGES_BITS, (uint32_t)count);
    for (k = 0; k < count; k++)
        put_edge(&cursor, out, width, &edges[k]);
    return (int32_t)bytes;
}

/* Refuses what a listing refuses for the blocks, or answers 0: it refuses a number wanted of 0 after them. */
static int32_t check_blocks(const uint8_t *grammar, size_t grammar_len, const uint8_t *block, size_t block_len) {
    uint32_t no_work;
    uint8_t no_out;
    int32_t refused = spireyerba_listing(grammar, grammar_len, block, block_len, 0, &no_work, 0, &no_out, 0);
    return refused == -SPIREYERBA_LISTING_WANTED ? 0 : refused;
}

int32_t spireyerba_util_read_graph(const uint8_t *grammar, size_t grammar_len, const uint8_t *block, size_t block_len,
                                   uint32_t *places, spireyerba_util_edge *edges) {
    spireyerba_util_grammar under;
    cursor cursor = front_of(block_len);
    size_t width;
    uint32_t count, k;
    int32_t refused = check_blocks(grammar, grammar_len, block, block_len);
    if (refused < 0)
        return refused;
    if (take(&cursor, block, KIND_BITS) != GRAPH_KIND)
        return -SPIREYERBA_UTTERANCE_KIND;
    spireyerba_util_read_grammar(grammar, grammar_len, &under);
    width = word_width(under.words);
    *places = take(&cursor, block, PLACES_BITS);
    count = take(&cursor, block, EDGES_BITS);
    for (k = 0; k < count; k++) {
        edges[k].from = take(&cursor, block, PLACES_BITS);
        edges[k].to = take(&cursor, block, PLACES_BITS);
        edges[k].word = take(&cursor, block, width);
        edges[k].cost = take(&cursor, block, COST_BITS);
    }
    return (int32_t)count;
}

int32_t spireyerba_util_set_sheet(spireyerba_util_lister *lister, const uint32_t *sheet, size_t sheet_len) {
    uint8_t block[SPIREYERBA_GRAMMAR_BLOCK_MAX];
    int32_t length = spireyerba_grammar_to_block(sheet, sheet_len, block, sizeof block);
    return length < 0 ? length : spireyerba_util_set_block(lister, block, (size_t)length);
}

int32_t spireyerba_util_set_block(spireyerba_util_lister *lister, const uint8_t *block, size_t block_len) {
    int32_t rules = spireyerba_util_read_grammar(block, block_len, &lister->grammar);
    if (rules < 0)
        return rules;
    memcpy(lister->block, block, block_len);
    lister->block_len = block_len;
    lister->found = 0;
    return rules;
}

/* Memory for what was measured; what was there is not kept. Answers whether there is so much. */
static int is_grown(spireyerba_util_lister *lister, const spireyerba_util_lengths *lengths) {
    if (lister->work_len < lengths->work) {
        free(lister->work);
        lister->work = (uint32_t *)malloc(lengths->work * sizeof *lister->work);
        lister->work_len = lister->work == NULL ? 0 : lengths->work;
    }
    if (lister->out_len < lengths->out) {
        free(lister->out);
        lister->out = (uint8_t *)malloc(lengths->out);
        lister->out_len = lister->out == NULL ? 0 : lengths->out;
    }
    return lister->work != NULL && lister->out != NULL;
}

int32_t spireyerba_util_list_sheet(spireyerba_util_lister *lister, const uint32_t *sheet, size_t sheet_len, uint32_t wanted) {
    uint8_t block[SPIREYERBA_UTTERANCE_BLOCK_MAX];
    int32_t length = spireyerba_utterance_to_block(lister->block, lister->block_len, sheet, sheet_len, block, sizeof block);
    return length < 0 ? length : spireyerba_util_list_block(lister, block, (size_t)length, wanted);
}

int32_t spireyerba_util_list_block(spireyerba_util_lister *lister, const uint8_t *block, size_t block_len, uint32_t wanted) {
    spireyerba_util_lengths lengths;
    int32_t found = spireyerba_util_measure(&lister->grammar, block, block_len, wanted, &lengths);
    if (found >= 0 && !is_grown(lister, &lengths))
        return -SPIREYERBA_LISTING_WORK;
    if (found >= 0)
        found = spireyerba_listing(lister->block, lister->block_len, block, block_len, wanted, lister->work, lengths.work,
                                   lister->out, lengths.out);
    if (found < 0)
        return found;
    lister->lengths = lengths;
    lister->found = (uint32_t)found;
    return found;
}

int32_t spireyerba_util_reading_at(const spireyerba_util_lister *lister, uint32_t rank, spireyerba_util_reading *reading) {
    size_t length = lister->lengths.reading;
    if (rank >= lister->found)
        return -SPIREYERBA_READING_END;
    return spireyerba_util_read_reading(&lister->grammar, lister->out + rank * length, length, reading);
}

void spireyerba_util_free(spireyerba_util_lister *lister) {
    free(lister->work);
    free(lister->out);
    lister->work = NULL;
    lister->out = NULL;
    lister->work_len = lister->out_len = 0;
    lister->found = 0;
}
