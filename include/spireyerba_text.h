/*
** Spireyerba: grammars, utterances, word graphs, networks and lattices as texts, for
** programs in C and for languages that call C. The readers are those of the command.
**
** NOT PROVED: like spireyerba_util.h this stands apart from the proved library. It is
** the Rust crate's, in libspireyerba_text.so. Any functions may run at once on any threads.
**
** `spireyerba help texts` says how texts are written.
*/
#ifndef SPIREYERBA_TEXT_H
#define SPIREYERBA_TEXT_H

#include <stddef.h>
#include <stdint.h>

#ifdef __cplusplus
extern "C" {
#endif

/* The number in the library's name, libspireyerba_text.so.1. */
#define SPIREYERBA_TEXT_INTERFACE 1

/* Bytes that are lent for the time of a call. Of a text they are UTF-8. */
typedef struct {
    const uint8_t *start;
    size_t length;
} spireyerba_text;

/* Where an answer goes. */
typedef struct {
    uint8_t *start;
    size_t room;   /* as many bytes may be written          */
    size_t length; /* set to the bytes of the answer, always */
} spireyerba_text_out;

/* What is answered. */
enum {
    SPIREYERBA_TEXT_READ = 0,    /* the answer was written                                         */
    SPIREYERBA_TEXT_FAULT = 1,   /* the text cannot be read, and what is wrong was written         */
    SPIREYERBA_TEXT_SHORT = 2    /* nothing was written: the answer is longer than there is room for */
};

/*
** GRAMMARS. A grammar with its names is read once and kept until it is given back. Nothing
** changes it, and any threads may lend it at once.
*/
typedef struct spireyerba_text_grammar spireyerba_text_grammar;

/*
** Reads a grammar's text. *grammar is the grammar, or NULL unless it was read. The answer is
** lines of UTF-8, each ended by a newline: the block in hexadecimal digits; the numbers S, W
** and R of the symbols, words and rules as they are written, which may be others than the
** block's; the S symbols; the W words; the R rules, each as it is written in a text.
**
** A fault is two lines: the refusal's number or 0, line and column, or 0 0; and what is
** wrong, in words.
*/
int32_t spireyerba_text_read_grammar(
    const spireyerba_text *text,
    spireyerba_text_grammar **grammar,
    spireyerba_text_out *out);

/*
** The same of a grammar's block with the names of its symbols and words, a line each in the order
** of their numbers. Where names are missing, symbols are called S0, S1 .. and words w0, w1 ...
*/
int32_t spireyerba_text_name_grammar(
    const spireyerba_text *block,
    const spireyerba_text *symbols,
    const spireyerba_text *words,
    spireyerba_text_grammar **grammar,
    spireyerba_text_out *out);

/* Gives a grammar back; NULL is none. */
void spireyerba_text_free(spireyerba_text_grammar *grammar);

/* How what was heard is read. All zeros: costs as they are written, nothing is left out. */
typedef struct {
    double scale;                /* of networks and lattices: a cost is minus so many times a logarithm; 0: there is none */
    uint32_t drop_unknown;       /* not 0: words that the grammar does not have are left out                             */
    uint32_t drop_deletes;       /* not 0: *DELETE* of confusion networks is left out                                    */
    spireyerba_text empty_words; /* of lattices, a line each: words that nobody says                                     */
} spireyerba_text_options;

/*
** HEARD. Reads the text of an utterance, of a confusion network, of a word graph or of a
** lattice under a grammar. The answer is the block in hexadecimal digits, and behind it what a
** user is to be told, a line each, such as what was left out. Faults are as for a grammar.
*/
int32_t spireyerba_text_heard(
    const spireyerba_text_grammar *grammar,
    const spireyerba_text *text,
    const spireyerba_text_options *options,
    spireyerba_text_out *out);

/*
** TREE. The tree of a reading's rule numbers in the rules as they are written. The answer is two
** lines: the tree, and what it becomes by the translations of the text's rules, or its
** words. A node is [rule, symbol, weight, [below]] and a word [word, number], numbers all of
** them; the number of a word is that of the words to its left. Numbers that are not the walk
** of a tree are a fault, as for a grammar.
*/
int32_t spireyerba_text_tree(
    const spireyerba_text_grammar *grammar,
    const uint32_t *rules, size_t count,
    spireyerba_text_out *out);

/*
** SHARES. Reads the text of the shares of the rules as they are written. The answer is one line: the
** share of each rule of the block, as spireyerba_chance takes them. Faults are as for a
** grammar.
*/
int32_t spireyerba_text_shares(
    const spireyerba_text_grammar *grammar,
    const spireyerba_text *text,
    spireyerba_text_out *out);

#ifdef __cplusplus
}
#endif

#endif /* SPIREYERBA_TEXT_H */
