/* The words of a line, read against a call's form. */
#ifndef REFERENCE_WORDS_H
#define REFERENCE_WORDS_H

#include "reference_reply.h"

enum { MOST_NUMBERS = 15, MOST_RECORDS = 2 };

struct word {
    const uint8_t *text;
    size_t length;
};

/* What is still to be read of a line; `at` is NULL when no word is left. */
struct rest {
    const uint8_t *at, *end;
};

/* The bytes that a HEX word gives, in memory of exactly that size. */
struct lent {
    uint8_t *bytes;
    size_t length;
};

/* A call's words once they are read: its numbers, its records and its list, each in their order. All zero at first. */
struct words {
    int64_t numbers[MOST_NUMBERS];
    struct lent records[MOST_RECORDS];
    int32_t *days;
    size_t listed;
};

/* The next word: the line is split at every single space, so a word may be empty. False where none is left. */
int next_word(struct rest *rest, struct word *word);
int word_is(struct word word, const char *text, size_t length);

/*
 * Reads the rest against a form: its first word is the call's name, and the kinds are a letter for each word after it:
 * h HEX, b byte, w u16, d u32, i i16, and last l, a list that may be left out. False where a word is wrong or one too
 * few or too many: the reply then says so.
 */
int read_words(const char *form, const char *kinds, struct rest rest, struct words *words, struct reply *reply);
void free_words(struct words *words);

#endif
