/* Words are read from left to right: the first that is wrong, missing or left over decides what is said. */
#include "reference_words.h"

#include <stdlib.h>
#include <string.h>

/* ---- Splitting. ---- */

int next_word(struct rest *rest, struct word *word)
{
    if (rest->at == NULL)
        return 0;
    const uint8_t *space = memchr(rest->at, ' ', (size_t)(rest->end - rest->at));
    const uint8_t *end = space != NULL ? space : rest->end;
    *word = (struct word){rest->at, (size_t)(end - rest->at)};
    rest->at = space != NULL ? space + 1 : NULL;
    return 1;
}

int word_is(struct word word, const char *text, size_t length)
{
    return word.length == length && memcmp(word.text, text, length) == 0;
}

/* ---- Kinds. ---- */

struct kind {
    char letter;
    int64_t least, most;
    const char *words;
};

static const struct kind *kind_of(char letter)
{
    static const struct kind kinds[] = {
        {'h', 0, 0, "hexadecimal digits, two for each byte"},
        {'b', 0, 255, "a number from 0 to 255"},
        {'w', 0, 65535, "a number from 0 to 65535"},
        {'d', 0, 4294967295, "a number from 0 to 4294967295"},
        {'i', -32768, 32767, "a number from -32768 to 32767"},
    };
    const struct kind *kind = kinds;
    while (kind->letter != letter)
        kind++;
    return kind;
}

static int read_number(struct word word, const struct kind *kind, int64_t *number)
{
    size_t sign = kind->least < 0 && word.length > 0 && word.text[0] == '-';
    int64_t value = 0;
    if (word.length == sign)
        return 0;
    for (size_t i = sign; i < word.length; i++) {
        if (word.text[i] < '0' || word.text[i] > '9')
            return 0;
        value = 10 * value + (word.text[i] - '0');
        if (value > 4294967295) /* above every kind, and it stays so */
            return 0;
    }
    *number = sign ? -value : value;
    return *number >= kind->least && *number <= kind->most;
}

static int digit_of(uint8_t character)
{
    if (character >= '0' && character <= '9')
        return character - '0';
    if (character >= 'a' && character <= 'f')
        return character - 'a' + 10;
    if (character >= 'A' && character <= 'F')
        return character - 'A' + 10;
    return -1;
}

static int read_hex(struct word word, struct lent *lent)
{
    if (word.length % 2 != 0)
        return 0;
    lent->length = word.length / 2;
    lent->bytes = desk_memory(lent->length);
    for (size_t i = 0; i < lent->length; i++) {
        int high = digit_of(word.text[2 * i]), low = digit_of(word.text[2 * i + 1]);
        if (high < 0 || low < 0)
            return 0;
        lent->bytes[i] = (uint8_t)(16 * high + low);
    }
    return 1;
}

/* ---- What is said of a wrong line. ---- */

static int wrong_form(const char *form, struct reply *reply)
{
    say(reply, "what? expected ");
    say(reply, form);
    return 0;
}

static int wrong_word(const char *form, struct word name, const struct kind *kind, struct reply *reply)
{
    wrong_form(form, reply);
    say(reply, ": ");
    say_bytes(reply, name.text, name.length);
    say(reply, " is ");
    say(reply, kind->words);
    return 0;
}

/* ---- A form. ---- */

/* Nothing, or the word `days` and any number of days. */
static int read_list(const char *form, struct rest rest, struct words *words, struct reply *reply)
{
    const struct kind *kind = kind_of('i');
    struct word word;
    int64_t day;
    if (!next_word(&rest, &word))
        return 1;
    if (!word_is(word, "days", 4))
        return wrong_form(form, reply);
    if (rest.at != NULL) /* a day and its space are two characters at least, and the last has no space */
        words->days = desk_memory(((size_t)(rest.end - rest.at) / 2 + 1) * sizeof *words->days);
    while (next_word(&rest, &word)) {
        if (!read_number(word, kind, &day))
            return wrong_word(form, (struct word){(const uint8_t *)"DAY", 3}, kind, reply);
        words->days[words->listed++] = (int32_t)day;
    }
    return 1;
}

int read_words(const char *form, const char *kinds, struct rest rest, struct words *words, struct reply *reply)
{
    struct rest names = {(const uint8_t *)form, (const uint8_t *)form + strlen(form)};
    struct lent *record = words->records;
    int64_t *number = words->numbers;
    struct word name, word;

    next_word(&names, &name); /* the call's own */
    for (; *kinds != '\0' && *kinds != 'l'; kinds++) {
        const struct kind *kind = kind_of(*kinds);
        next_word(&names, &name);
        if (!next_word(&rest, &word))
            return wrong_form(form, reply);
        if (kind->letter == 'h' ? !read_hex(word, record++) : !read_number(word, kind, number++))
            return wrong_word(form, name, kind, reply);
    }
    if (*kinds == 'l')
        return read_list(form, rest, words, reply);
    return rest.at == NULL ? 1 : wrong_form(form, reply);
}

void free_words(struct words *words)
{
    for (int i = 0; i < MOST_RECORDS; i++)
        free(words->records[i].bytes);
    free(words->days);
}
