/* Calls every function of the header, on document 01's grammar G and utterance U. Compiled as C and as C++. */

#include "spireyerba.h"

#include <stdio.h>
#include <string.h>

static const uint32_t g_sheet[] = {1, 1, 2, 0, 0, 1, 0, 0, 1, 0, 0, 0, 0};
static const uint8_t g_block[] = {0x10, 0x40, 0x40, 0x40, 0x00, 0x09, 0x00, 0x00, 0x00};
static const uint32_t u_sheet[] = {4, 1, 0, 0, 1, 0, 0, 1, 0, 0, 1, 0, 0};
static const uint8_t u_block[] = {0x21, 0x08, 0x00, 0x00, 0x80, 0x00, 0x08, 0x00, 0x00, 0x80, 0x00, 0x00};

#define LENGTH(array) (sizeof(array) / sizeof((array)[0]))

static uint8_t block[SPIREYERBA_GRAMMAR_BLOCK_MAX];
static uint32_t sheet[SPIREYERBA_GRAMMAR_SHEET_MAX];
static const uint8_t reading[] = {0x31, 0x00, 0x00, 0x00, 0xd5, 0x80};
static const uint8_t specimen[] = {0, 0, 0};
/* One slot, whose word was not heard. */
static const uint32_t silent_sheet[] = {1, 1, 0, SPIREYERBA_NOT_HEARD};
static uint8_t silent_block[4];
/* 0 to 1 2; 1 to word 1; 1 to 2 1; 2 to word 0; 2 to 2 2: of length 3 it derives 1 0 0 and 0 1 0. */
static const uint8_t two_strings[] = {0x10, 0xc0, 0x80, 0xa0, 0x00, 0x01, 0xa8, 0x00, 0x04,
                                      0x80, 0x00, 0x4e, 0x00, 0x00, 0x20, 0x00, 0x0a};
static const uint8_t least[] = {0, 1, 0};
static const uint8_t greatest[] = {1, 0, 0};
/* Document 02's word graph of four places: an edge over each step, and one over the first two at cost 3. */
static const uint8_t graph_block[] = {0x52, 0x04, 0x00, 0x40, 0x00, 0x01, 0x10, 0x00,
                                      0x00, 0x02, 0x00, 0x01, 0x88, 0x60, 0x00, 0x00};
static const uint8_t graph_readings[3][8] = {{0x60, 0xc0, 0x00, 0x00, 0x90, 0x08, 0x18, 0x30},
                                             {0x60, 0xc0, 0x00, 0x00, 0x88, 0x08, 0x18, 0x30},
                                             {0x60, 0x80, 0x00, 0x01, 0x10, 0x50, 0x60, 0x00}};
/* G with marks 0 and 1; one office rule, from symbol 0 to word 0; and one whose body is a symbol. */
static const uint32_t marked_sheet[] = {1, 1, 2, 0, 0, 1, 0, 0, 0, 1, 0, 0, 0, 0, 1};
static const uint8_t marked_block[] = {0x40, 0x40, 0x40, 0x40, 0x00, 0x08, 0x80, 0x00, 0x10};
static const uint32_t office_sheet[] = {1, 1, 1, 0, 0, 1, 1, 0};
static const uint8_t office_block[] = {0x40, 0x40, 0x40, 0x30, 0x00, 0x00};
static const uint32_t lone_symbol[] = {1, 1, 1, 0, 0, 1, 0, 0};
/* Document 02's shares of G's two rules, with the chance of the reading: 2 to the power -3. */
static const uint32_t shares[] = {512, SPIREYERBA_MAX_SHARE};
/* Document 01's fifth P grammar and two slots of two words each: costs from 0 up to 9 3 and 2 9. */
static const uint8_t fifth_block[] = {0x10, 0xc1, 0x00, 0xa0, 0x00, 0x01, 0xa8, 0x00, 0x29,
                                      0x40, 0x00, 0xdc, 0x00, 0x03, 0x60, 0x00, 0x3c};
static const uint8_t low_block[] = {0x20, 0x90, 0x00, 0x00, 0x80, 0x00, 0x28, 0x00, 0x03, 0x00, 0x00};
static const uint8_t high_block[] = {0x20, 0x90, 0x00, 0x12, 0x80, 0x01, 0xa8, 0x00, 0x0b, 0x00, 0x09};
/* Two slots with costs 4 7 and 3 2, and what is to be listened to again: two words, by 2 each, for readings of weight 14. */
static const uint8_t margins_block[] = {0x20, 0x90, 0x00, 0x08, 0x80, 0x03, 0xa8, 0x00, 0x0f, 0x00, 0x02};
static const uint32_t margins[] = {2, 0, 1, 14, 2, 1, 3, 14};
static uint32_t work[320];
/* U's readings under G, of which the last is known too, and the table of an open listing of them. */
enum { U_READINGS = 5 };
static const uint8_t last_reading[] = {0x31, 0x00, 0x00, 0x00, 0xc7, 0x80};
static uint32_t open_work[10240];
static int failures;

static void expect(int holds, const char *what) {
    if (!holds) {
        printf("header.c: not so: %s\n", what);
        failures++;
    }
}

/* An output held noise; the answer's elements are the result, and the next one is still noise. */
static void expect_block(int32_t answer, const uint8_t *result, size_t length, const char *what) {
    expect(answer == (int32_t)length && memcmp(block, result, length) == 0 && block[length] == 0xa5, what);
}

static void expect_sheet(int32_t answer, const uint32_t *result, size_t length, const char *what) {
    expect(answer == (int32_t)length && memcmp(sheet, result, 4 * length) == 0 && sheet[length] == 0xa5a5a5a5, what);
}

static void fill_outputs(void) {
    memset(block, 0xa5, sizeof block);
    memset(sheet, 0xa5, sizeof sheet);
}

/* A listing of U under G from opening to its end. */
static void expect_one_by_one(void) {
    spireyerba_place place = {7, 0};
    int32_t answer;
    uint32_t handed;

    expect(spireyerba_work_length(1, 4, SPIREYERBA_MAX_READINGS) == LENGTH(open_work), "an open listing has room for 256");
    memset(open_work, 0xa5, sizeof open_work);
    answer = spireyerba_open(g_block, LENGTH(g_block), u_block, LENGTH(u_block), &place, open_work, LENGTH(open_work) - 1);
    expect(answer == -SPIREYERBA_LISTING_WORK && place.handed == 7 && open_work[0] == 0xa5a5a5a5, "a short table is refused");
    fill_outputs();
    answer = spireyerba_next(g_block, LENGTH(g_block), u_block, LENGTH(u_block), &place, open_work, LENGTH(open_work), block,
                             LENGTH(reading));
    expect(answer == -SPIREYERBA_ALTERED_WALK && place.handed == 7 && block[0] == 0xa5, "what was never opened hands out nothing");
    answer = spireyerba_open(g_block, LENGTH(g_block), u_block, LENGTH(u_block), &place, open_work, LENGTH(open_work));
    expect(answer == 0 && place.handed == 0 && place.opened == 1 && open_work[0] == 0, "a listing is opened");
    for (handed = 1; handed <= U_READINGS; handed++) {
        fill_outputs();
        answer = spireyerba_next(g_block, LENGTH(g_block), u_block, LENGTH(u_block), &place, open_work, LENGTH(open_work), block,
                                 LENGTH(reading));
        expect(answer == SPIREYERBA_NEXT_READING && place.handed == handed && block[LENGTH(reading)] == 0xa5, "one more reading");
        expect(handed > 1 || memcmp(block, reading, LENGTH(reading)) == 0, "the known one comes first");
    }
    expect(memcmp(block, last_reading, LENGTH(last_reading)) == 0, "the last one is the last of the listing");
    answer = spireyerba_next(g_block, LENGTH(g_block), u_block, LENGTH(u_block), &place, open_work, LENGTH(open_work), block,
                             LENGTH(reading));
    expect(answer == SPIREYERBA_NEXT_NO_MORE && place.handed == U_READINGS, "then there are no more");
    place.handed = SPIREYERBA_MAX_READINGS;
    answer = spireyerba_next(g_block, LENGTH(g_block), u_block, LENGTH(u_block), &place, open_work, LENGTH(open_work), block,
                             LENGTH(reading));
    expect(answer == SPIREYERBA_NEXT_FULL, "after 256 the listing is full");
}

int main(void) {
    int32_t answer;
    double chance;
    uint32_t least_weight, greatest_weight;

    fill_outputs();
    answer = spireyerba_grammar_to_block(g_sheet, LENGTH(g_sheet), block, LENGTH(block));
    expect_block(answer, g_block, LENGTH(g_block), "the sheet of G packs to its block");
    answer = spireyerba_grammar_to_sheet(g_block, LENGTH(g_block), sheet, LENGTH(sheet));
    expect_sheet(answer, g_sheet, LENGTH(g_sheet), "the block of G unpacks to its sheet");
    expect(LENGTH(g_sheet) == SPIREYERBA_GRAMMAR_SHEET_LENGTH(2), "a sheet of two rules has the stated length");

    fill_outputs();
    answer = spireyerba_grammar_to_block(marked_sheet, LENGTH(marked_sheet), block, LENGTH(block));
    expect_block(answer, marked_block, LENGTH(marked_block), "a sheet with marks packs to its block");
    answer = spireyerba_grammar_to_sheet(marked_block, LENGTH(marked_block), sheet, LENGTH(sheet));
    expect_sheet(answer, marked_sheet, LENGTH(marked_sheet), "a block with marks unpacks to its sheet");
    expect(LENGTH(marked_sheet) == SPIREYERBA_MARKED_SHEET_LENGTH(2), "a sheet with marks has the stated length");
    fill_outputs();
    answer = spireyerba_office_to_block(office_sheet, LENGTH(office_sheet), block, LENGTH(block));
    expect_block(answer, office_block, LENGTH(office_block), "an office's rule of one word stays a word rule");
    answer = spireyerba_office_to_block(lone_symbol, LENGTH(lone_symbol), block, LENGTH(block));
    expect(answer == -SPIREYERBA_ITEM_ALONE, "a body of one symbol is refused");

    fill_outputs();
    answer = spireyerba_utterance_to_block(g_block, LENGTH(g_block), u_sheet, LENGTH(u_sheet), block, LENGTH(block));
    expect_block(answer, u_block, LENGTH(u_block), "the sheet of U packs to its block");
    answer = spireyerba_utterance_to_sheet(g_block, LENGTH(g_block), u_block, LENGTH(u_block), sheet, LENGTH(sheet));
    expect_sheet(answer, u_sheet, LENGTH(u_sheet), "the block of U unpacks to its sheet");

    fill_outputs();
    answer = spireyerba_grammar_to_sheet(u_block, LENGTH(u_block), sheet, LENGTH(sheet));
    expect(answer == -SPIREYERBA_GRAMMAR_KIND && sheet[0] == 0xa5a5a5a5, "an utterance is no grammar");
    answer = spireyerba_grammar_to_block(g_sheet, LENGTH(g_sheet), block, LENGTH(g_block) - 1);
    expect(answer == -SPIREYERBA_OUTPUT_SHORT && block[0] == 0xa5, "an output that is one short is refused");

    answer = spireyerba_check(g_block, LENGTH(g_block), u_block, LENGTH(u_block), reading, LENGTH(reading));
    expect(answer == 0, "document 01's reading passes the check");
    answer = spireyerba_check(g_block, LENGTH(g_block), u_block, LENGTH(u_block), reading, LENGTH(reading) - 1);
    expect(answer == -SPIREYERBA_READING_END, "a reading that is cut is refused");

    chance = -1.0;
    answer = spireyerba_chance(g_block, LENGTH(g_block), u_block, LENGTH(u_block), reading, LENGTH(reading), shares, 1, &chance);
    expect(answer == -SPIREYERBA_SHARES_COUNT && chance == -1.0, "a share is missing, and nothing is written");
    answer = spireyerba_chance(g_block, LENGTH(g_block), u_block, LENGTH(u_block), reading, LENGTH(reading), shares,
                               LENGTH(shares), &chance);
    expect(answer == 0 && chance == 0.125, "the chance of document 01's reading is an eighth");

    fill_outputs();
    answer = spireyerba_specimen(g_block, LENGTH(g_block), 3, block, LENGTH(block));
    expect_block(answer, specimen, LENGTH(specimen), "the specimen of G of length 3 is 0 0 0");
    fill_outputs();
    answer = spireyerba_specimen(two_strings, LENGTH(two_strings), 3, block, LENGTH(block));
    expect_block(answer, least, LENGTH(least), "of two strings the specimen is the least");
    fill_outputs();
    answer = spireyerba_specimen(two_strings, LENGTH(two_strings), 1, block, LENGTH(block));
    expect(answer == 0 && block[0] == 0xa5, "where there is no string nothing is written");
    answer = spireyerba_specimen(g_block, LENGTH(g_block), 25, block, LENGTH(block));
    expect(answer == -SPIREYERBA_SPECIMEN_LENGTH, "a specimen of length 25 is refused");

    fill_outputs();
    answer = spireyerba_next_phrase(two_strings, LENGTH(two_strings), 3, 7, block, LENGTH(block));
    expect_block(answer, least, LENGTH(least), "the first phrase is the specimen");
    answer = spireyerba_next_phrase(two_strings, LENGTH(two_strings), 3, 0, block, LENGTH(block));
    expect_block(answer, greatest, LENGTH(greatest), "above it comes the other");
    answer = spireyerba_next_phrase(two_strings, LENGTH(two_strings), 3, 0, block, LENGTH(block));
    expect(answer == 0 && memcmp(block, greatest, LENGTH(greatest)) == 0, "then the end, and nothing is written");
    answer = spireyerba_next_phrase(g_block, LENGTH(g_block), SPIREYERBA_MAX_PHRASE + 1, 0, block, LENGTH(block));
    expect(answer == -SPIREYERBA_SPECIMEN_LENGTH, "phrases of length 7 are refused");

    expect(spireyerba_work_length(1, 4, 8) == LENGTH(work) && spireyerba_reading_length(4, 2) * 8 == 48 &&
               spireyerba_reading_length(24, 256) == SPIREYERBA_READING_BLOCK_MAX,
           "sizes are as document 01 has them");
    fill_outputs();
    memset(work, 0xa5, sizeof work);
    answer = spireyerba_listing(g_block, LENGTH(g_block), u_block, LENGTH(u_block), 8, work, LENGTH(work), block, 48);
    expect(answer == 5 && memcmp(block, reading, LENGTH(reading)) == 0 && block[5 * LENGTH(reading)] == 0xa5,
           "the listing finds five readings of U under G, the known one first");
    expect(work[0] == 0 && work[LENGTH(work) - 1] == 0, "the listing leaves its work table zero");
    fill_outputs();
    answer = spireyerba_listing(marked_block, LENGTH(marked_block), u_block, LENGTH(u_block), 8, work, LENGTH(work), block, 48);
    expect(answer == 5 && memcmp(block, reading, LENGTH(reading)) == 0, "with marks the readings are the same");

    fill_outputs();
    memset(work, 0xa5, sizeof work);
    answer = spireyerba_panel_listing(g_block, LENGTH(g_block), u_block, LENGTH(u_block), 8, work, LENGTH(work), block, 48);
    expect(answer == 5 && memcmp(block, reading, LENGTH(reading)) == 0 && block[5 * LENGTH(reading)] == 0xa5 && work[0] == 0,
           "the panel finds the same five");
    answer = spireyerba_panel_listing(g_block, LENGTH(g_block), u_block, LENGTH(u_block), SPIREYERBA_PANEL_MAX_READINGS + 1, work,
                                      LENGTH(work), block, LENGTH(block));
    expect(answer == -SPIREYERBA_PANEL_WANTED, "the panel does not list 17 readings");
    expect(spireyerba_work_length(32, SPIREYERBA_PANEL_MAX_SLOTS, SPIREYERBA_PANEL_MAX_READINGS) == SPIREYERBA_PANEL_WORK_MAX &&
               SPIREYERBA_PANEL_MAX_READINGS * spireyerba_graph_reading_length(SPIREYERBA_PANEL_MAX_PLACES - 1, 256) ==
                   SPIREYERBA_PANEL_OUTPUT_MAX,
           "the panel's greatest sizes are by the same formulas");

    expect_one_by_one();

    answer = spireyerba_utterance_to_block(g_block, LENGTH(g_block), silent_sheet, LENGTH(silent_sheet), silent_block,
                                           LENGTH(silent_block));
    expect(answer == (int32_t)LENGTH(silent_block), "an utterance of which nothing was heard packs as any other");
    fill_outputs();
    answer = spireyerba_listing(g_block, LENGTH(g_block), silent_block, LENGTH(silent_block), 8, work, LENGTH(work), block,
                                LENGTH(block));
    expect(answer == 0 && block[0] == 0xa5, "it has no reading");

    expect(spireyerba_graph_reading_length(3, 2) == sizeof graph_readings[0] && spireyerba_graph_reading_length(2, 2) == 7 &&
               spireyerba_graph_reading_length(24, 256) == SPIREYERBA_GRAPH_READING_BLOCK_MAX,
           "sizes of a graph's readings are as document 02 has them");
    fill_outputs();
    memset(work, 0xa5, sizeof work);
    answer = spireyerba_listing(g_block, LENGTH(g_block), graph_block, LENGTH(graph_block), 8, work,
                                spireyerba_work_length(1, 3, 8), block, 64);
    expect(answer == 3 && memcmp(block, graph_readings, sizeof graph_readings) == 0 && block[sizeof graph_readings] == 0xa5,
           "the listing finds three readings of the graph, with zeros behind the shorter one");
    answer = spireyerba_check(g_block, LENGTH(g_block), graph_block, LENGTH(graph_block), graph_readings[2], 7);
    expect(answer == 0, "the shorter one passes the check, cut to its own length");
    answer = spireyerba_check(g_block, LENGTH(g_block), graph_block, LENGTH(graph_block), graph_readings[2], 8);
    expect(answer == -SPIREYERBA_READING_FILL, "with its zeros it is refused");
    answer = spireyerba_check(g_block, LENGTH(g_block), graph_block, LENGTH(graph_block), reading, LENGTH(reading));
    expect(answer == -SPIREYERBA_READING_KIND, "a reading of slots is none of a graph");
    answer = spireyerba_utterance_to_sheet(g_block, LENGTH(g_block), graph_block, LENGTH(graph_block), sheet, LENGTH(sheet));
    expect(answer == -SPIREYERBA_UTTERANCE_KIND, "a graph has no sheet");

    memset(work, 0xa5, sizeof work);
    least_weight = greatest_weight = 0xa5a5a5a5;
    answer = spireyerba_cost_ranges(fifth_block, LENGTH(fifth_block), high_block, LENGTH(high_block), low_block, LENGTH(low_block),
                                    work, LENGTH(work), &least_weight, &greatest_weight);
    expect(answer == -SPIREYERBA_RANGES_DISAGREE && least_weight == 0xa5a5a5a5 && greatest_weight == 0xa5a5a5a5 && work[0] == 0xa5a5a5a5,
           "a cost that falls is refused, and nothing is written");
    answer = spireyerba_cost_ranges(fifth_block, LENGTH(fifth_block), low_block, LENGTH(low_block), high_block, LENGTH(high_block),
                                    work, spireyerba_work_length(3, 2, 1), &least_weight, &greatest_weight);
    expect(answer == SPIREYERBA_FIRST_OUTWEIGHED && least_weight == 4 && greatest_weight == 9, "the first weight is from 4 to 9, and the first reading is outweighed");
    expect(work[0] == 0 && work[35] == 0 && work[36] == 0xa5a5a5a5, "the work table is zero, and nothing behind it is touched");

    fill_outputs();
    memset(work, 0xa5, sizeof work);
    answer = spireyerba_word_margins(fifth_block, LENGTH(fifth_block), margins_block, LENGTH(margins_block), work, 36, sheet, 15);
    expect(answer == -SPIREYERBA_OUTPUT_SHORT && sheet[0] == 0xa5a5a5a5 && work[0] == 0xa5a5a5a5,
           "four numbers for each of four words are needed");
    answer = spireyerba_word_margins(fifth_block, LENGTH(fifth_block), margins_block, LENGTH(margins_block), work,
                                     spireyerba_work_length(3, 2, 1), sheet, SPIREYERBA_MARGIN_NUMBERS * 4);
    expect(answer == 2 && memcmp(sheet, margins, sizeof margins) == 0 && sheet[LENGTH(margins)] == 0xa5a5a5a5,
           "two words are worth listening to again");
    expect(work[0] == 0 && work[35] == 0 && work[36] == 0xa5a5a5a5, "their work table is zero, and nothing behind it is touched");
    expect(SPIREYERBA_MARGINS_MAX == SPIREYERBA_MARGIN_NUMBERS * SPIREYERBA_MAX_SLOTS * SPIREYERBA_MAX_CANDIDATES,
           "the longest output is for all words of all slots");

    return failures != 0;
}
