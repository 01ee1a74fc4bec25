/* Text that grows, and the words of a desk's line, written as this or that program may write them. */
#ifndef DESK_TEXT_H
#define DESK_TEXT_H

#include "inputs.h"

struct text {
    char *bytes; /* freed by the owner */
    size_t length, room;
};

void text_add(struct text *text, const void *bytes, size_t length);
void text_words(struct text *text, const char *words);
void text_fill(struct text *text, char byte, size_t times);

/* A space, then the word: a number, now and then with zeros before it; bytes in digits of either case. */
void text_number(struct text *text, struct random *random, int64_t number);
void text_hex(struct text *text, struct random *random, const void *bytes, size_t length);

/* Puts other bytes in the place of those from `from` up to `to`. */
void text_replace(struct text *text, size_t from, size_t to, const void *bytes, size_t length);

#endif
