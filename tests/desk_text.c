/* Growing text, numbers and hexadecimal digits. */
#include "desk_text.h"

#include <stdio.h>
#include <stdlib.h>
#include <string.h>

static void make_room(struct text *text, size_t more)
{
    if (text->room - text->length >= more)
        return;
    text->room = 2 * text->room + more + 256;
    if ((text->bytes = realloc(text->bytes, text->room)) == NULL) {
        perror("memory for a text");
        exit(2);
    }
}

void text_add(struct text *text, const void *bytes, size_t length)
{
    make_room(text, length + 1);
    if (length > 0)
        memcpy(text->bytes + text->length, bytes, length);
    text->length += length;
}

void text_words(struct text *text, const char *words)
{
    text_add(text, words, strlen(words));
}

void text_fill(struct text *text, char byte, size_t times)
{
    make_room(text, times + 1);
    memset(text->bytes + text->length, byte, times);
    text->length += times;
}

void text_number(struct text *text, struct random *random, int64_t number)
{
    char digits[32];
    text_words(text, number < 0 ? " -" : " ");
    if (random_one_in(random, 24))
        text_fill(text, '0', random_between(random, 1, 24));
    snprintf(digits, sizeof digits, "%llu", (unsigned long long)(number < 0 ? -number : number));
    text_words(text, digits);
}

/* Lower case mostly, upper case, or mixed from digit to digit. */
void text_hex(struct text *text, struct random *random, const void *bytes, size_t length)
{
    static const char lower[] = "0123456789abcdef", upper[] = "0123456789ABCDEF";
    uint32_t style = random_below(random, 8);
    const uint8_t *from = bytes;
    make_room(text, 2 * length + 2);
    char *at = text->bytes + text->length;
    *at++ = ' ';
    for (size_t i = 0; i < length; i++) {
        uint64_t mixed = style == 7 ? random_bits(random) : style == 6 ? 3 : 0;
        *at++ = (mixed & 1 ? upper : lower)[from[i] >> 4];
        *at++ = (mixed & 2 ? upper : lower)[from[i] & 15];
    }
    text->length = (size_t)(at - text->bytes);
}

void text_replace(struct text *text, size_t from, size_t to, const void *bytes, size_t length)
{
    size_t after = text->length - to;
    make_room(text, length + 1);
    memmove(text->bytes + from + length, text->bytes + to, after);
    if (length > 0)
        memcpy(text->bytes + from, bytes, length);
    text->length = from + length + after;
}
