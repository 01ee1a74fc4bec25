/* Each way of going wrong is one function over a line that was a call; the reference knows what it is answered then. */
#include "desk_bad_lines.h"

#include "desk_spoilt.h"

#include <ctype.h>
#include <string.h>

/* ---- Bytes. ---- */

/* Never a line's end: the lines are counted. */
static char any_byte(struct random *random)
{
    static const char likely[] = "0123456789abcdefABCDEFgG -+#\t\r/:@`x.";
    char byte = random_one_in(random, 3) ? (char)random_bits(random) : PICK(random, likely);
    return byte == '\n' ? '\v' : byte;
}

/* A byte changed, left out, put in or moved. */
static void mutate(struct random *random, struct text *line)
{
    char byte = any_byte(random);
    size_t at = random_below(random, (uint32_t)line->length + 1);
    if (random_one_in(random, 4))
        at = random_below(random, 12) % (line->length + 1); /* in the name, or just after it */
    size_t next = at < line->length ? at + 1 : at;
    switch (random_below(random, 4)) {
    case 0:
        text_replace(line, at, next, &byte, 1);
        break;
    case 1:
        text_replace(line, at, next, "", 0);
        break;
    case 2:
        text_replace(line, at, at, &byte, 1);
        break;
    default:
        byte = next > at ? line->bytes[at] : byte;
        text_replace(line, at, next, "", 0);
        at = random_below(random, (uint32_t)line->length + 1);
        text_replace(line, at, at, &byte, 1);
    }
}

static void mutations(struct teller *teller)
{
    for (uint32_t times = random_between(&teller->random, 1, 3); times > 0; times--)
        mutate(&teller->random, &teller->line);
}

static void random_bytes(struct teller *teller)
{
    uint32_t length = random_between(&teller->random, 1, random_one_in(&teller->random, 8) ? 3000 : 60);
    int any = (int)random_below(&teller->random, 2);
    teller->line.length = 0;
    for (; length > 0; length--) {
        char byte = any ? (char)random_bits(&teller->random) : any_byte(&teller->random);
        text_fill(&teller->line, byte == '\n' ? 0 : byte, 1);
    }
}

static void upper_case(struct teller *teller)
{
    size_t length = random_below(&teller->random, (uint32_t)teller->line.length + 1);
    for (size_t i = 0; i < length; i++)
        teller->line.bytes[i] = (char)toupper((unsigned char)teller->line.bytes[i]);
}

/* ---- Ends. ---- */

static void cut(struct teller *teller, struct text *rest)
{
    size_t at = random_below(&teller->random, (uint32_t)teller->line.length + 1);
    if (random_one_in(&teller->random, 2))
        text_add(rest, teller->line.bytes + at, teller->line.length - at);
    teller->line.length = at;
}

static void returns(struct teller *teller)
{
    size_t at = random_below(&teller->random, (uint32_t)teller->line.length + 1);
    if (random_one_in(&teller->random, 3))
        teller->line.length = 0;
    else if (random_one_in(&teller->random, 3))
        text_replace(&teller->line, at, at, "\r", 1);
    text_fill(&teller->line, '\r', random_below(&teller->random, 3));
}

/* The next call without a line's end between. */
static void two_in_one(struct teller *teller)
{
    static struct text first;
    first.length = 0;
    text_add(&first, teller->line.bytes, teller->line.length);
    if (random_one_in(&teller->random, 2))
        text_words(&first, random_one_in(&teller->random, 2) ? " " : "\r");
    do
        call_line(teller, random_below(&teller->random, CALLS));
    while (teller->line.length > 4000);
    text_replace(&teller->line, 0, 0, first.bytes, first.length);
}

/* ---- Words. ---- */

/* A word by chance: where it begins and where it ends. */
static size_t some_word(struct teller *teller, size_t *end)
{
    struct text *line = &teller->line;
    size_t from = random_below(&teller->random, (uint32_t)line->length + 1), to = from;
    while (from > 0 && line->bytes[from - 1] != ' ')
        from--;
    while (to < line->length && line->bytes[to] != ' ')
        to++;
    *end = to;
    return from;
}

static void other_space(struct teller *teller)
{
    static const char *const spaces[] = {"  ", "   ", "\t", "", " \t", "\xc2\xa0", "\x0b", ","};
    struct text *line = &teller->line;
    size_t to, from = some_word(teller, &to);
    const char *space = PICK(&teller->random, spaces);
    switch (random_below(&teller->random, 4)) {
    case 0:
        text_replace(line, 0, 0, " ", 1);
        break;
    case 1:
        text_fill(line, ' ', random_between(&teller->random, 1, 3));
        break;
    default:
        if (to < line->length)
            text_replace(line, to, to + 1, space, strlen(space));
        else
            text_replace(line, from, from, space, strlen(space));
    }
}

/* Left out, twice, or at another place. */
static void other_words(struct teller *teller)
{
    static struct text word;
    struct text *line = &teller->line;
    size_t to, from = some_word(teller, &to);
    word.length = 0;
    text_fill(&word, ' ', 1);
    text_add(&word, line->bytes + from, to - from);
    if (!random_one_in(&teller->random, 3))
        text_replace(line, from, to < line->length ? to + 1 : to, "", 0);
    if (!random_one_in(&teller->random, 3)) {
        some_word(teller, &to);
        text_replace(line, to, to, word.bytes, word.length);
    }
}

/* The limits of every kind of number, on both sides, in the place of some word. */
static void other_number(struct teller *teller)
{
    static const char *const numbers[] = {
        "0", "1", "-0", "-1", "+5", "--5", "-", "+", "", "255", "256", "65535", "65536", "4294967295", "4294967296",
        "32767", "32768", "-32768", "-32769", "2147483647", "2147483648", "18446744073709551615", "18446744073709551616",
        "10000000000000000000", "99999999999999999999", "-65536", "-4294967296", "-18446744073709551616", "0x1", "1e1",
    };
    static struct text word;
    size_t to, from = some_word(teller, &to);
    const char *number = PICK(&teller->random, numbers);
    word.length = 0;
    text_words(&word, number);
    size_t sign = *number == '-';
    if (random_one_in(&teller->random, 4)) { /* zeros by the hundred change nothing */
        text_fill(&word, '0', random_between(&teller->random, 1, 700));
        memmove(word.bytes + sign + (word.length - strlen(number)), word.bytes + sign, strlen(number) - sign);
        memset(word.bytes + sign, '0', word.length - strlen(number));
    }
    if (random_one_in(&teller->random, 8))
        text_fill(&word, '0', random_between(&teller->random, 20, 100));
    text_replace(&teller->line, from, to, word.bytes, word.length);
}

/* Thousands of digits, the last of them missing or none. */
static void long_hex(struct teller *teller)
{
    static const char *const starts[] = {"site ", "check ", "add ", "part 0 ", "fill 1 ", "open ", "single 00 "};
    struct text *line = &teller->line;
    line->length = 0;
    text_words(line, PICK(&teller->random, starts));
    size_t digits = random_between(&teller->random, 0, random_one_in(&teller->random, 30) ? 70000 : 400);
    text_fill(line, '0', digits);
    if (random_one_in(&teller->random, 2))
        line->bytes[line->length - 1] = any_byte(&teller->random);
}

/* ---- Any of them. ---- */

/* A word that is not of its kind in a line that is right before it, as in the conversations, or a name that is none. */
static void spoilt(struct teller *teller)
{
    enum call call = random_below(&teller->random, CALLS);
    int word = (int)random_below(&teller->random, (uint32_t)strlen(forms[call].kinds) + 1) - 1;
    if (random_one_in(&teller->random, 4))
        no_call_line(teller);
    else
        spoilt_line(teller, call, word);
}

void bad_line(struct teller *teller, struct text *rest)
{
    static void (*const ways[])(struct teller *) = {mutations, mutations, mutations, random_bytes, upper_case, returns,
                                                    two_in_one, other_space, other_words, other_number, other_number,
                                                    long_hex, spoilt, spoilt, comment_line};
    uint32_t way = random_below(&teller->random, 17);
    rest->length = 0;
    do
        call_line(teller, random_below(&teller->random, CALLS));
    while (teller->line.length > 4000);
    if (way < 15)
        ways[way](teller);
    else
        cut(teller, rest);
}

int fills_much(const struct text *line)
{
    uint64_t count = 0;
    if (line->length < 6 || memcmp(line->bytes, "fill ", 5) != 0)
        return 0;
    for (size_t i = 5; i < line->length && isdigit((unsigned char)line->bytes[i]) && count < 10000; i++)
        count = 10 * count + (uint64_t)(line->bytes[i] - '0');
    return count > 1000;
}
