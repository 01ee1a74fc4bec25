/* Each spoilt line has all its words before the spoilt one right, so that what is said of it is known beforehand. */
#include "desk_spoilt.h"

#include <ctype.h>
#include <stdio.h>
#include <string.h>

/* ---- Words. ---- */

/* The characters beside the digits and letters in ASCII, and some that are no text. */
static const char odd_characters[] = "/:@G`gxZz.,;+-_#\t\r\x7f\x80\xff\x01";

/* An odd number of digits, or a character among them that is none; NUL too. */
static void spoilt_hex(struct random *random, struct text *word)
{
    static const char digits[] = "0123456789abcdefABCDEF";
    size_t length = 2 * random_below(random, random_one_in(random, 3) ? 60 : 4) + 1;
    for (size_t i = 0; i < length; i++)
        text_fill(word, digits[random_below(random, 22)], 1);
    if (random_one_in(random, 2))
        return;
    text_fill(word, '0', 1); /* an even number of digits, but one of them is none: NUL is the last of these characters */
    size_t at = random_below(random, (uint32_t)word->length);
    word->bytes[at] = PICK(random, odd_characters);
}

/* One too large, a multiple of 2^8 to 2^64 and a little more, or digits by the hundred. */
static void large_number(struct random *random, int64_t most, struct text *word)
{
    static const char *const far[] = {"4294967296", "4294967301", "18446744073709551615", "18446744073709551616",
                                      "18446744073709551621", "9223372036854775808", "99999999999999999999",
                                      "340282366920938463463374607431768211456", "42949672960", "100000000000000000000"};
    char digits[32], digit;
    switch (random_below(random, 4)) {
    case 0:
        text_words(word, PICK(random, far));
        break;
    case 1:
        digit = (char)('1' + random_below(random, 9));
        text_fill(word, digit, random_between(random, 11, 120));
        break;
    default:
        if (random_one_in(random, 4))
            text_fill(word, '0', random_between(random, 1, 200));
        snprintf(digits, sizeof digits, "%lld", (long long)(most + random_between(random, 1, 2)));
        text_words(word, digits);
    }
}

static void spoilt_number(struct random *random, char kind, struct text *word)
{
    static const char *const none[] = {"", "-", "+", "+5", "--5", "5-", "5+", "0x10", "1.0", "1e3", "1,000", "1_0",
                                       "a", "ff", "five", "\xef\xbc\x95", "5\t", "\t5", "5\r5", "''", "\"5\"", "-+5", "+-5",
                                       "1:", "1/", "/", ":"};
    static const char *const below[] = {"-1", "-5", "-00001", "-0", "-00"};
    int64_t least, most;
    ends_of_kind(kind, &least, &most);
    switch (random_below(random, 4)) {
    case 0:
        text_words(word, PICK(random, none));
        break;
    case 1: /* below the least: no sign at all for most, not even before 0 */
        if (least == 0) {
            text_words(word, PICK(random, below));
            break;
        }
        text_fill(word, '-', 1);
        large_number(random, -least, word);
        break;
    default:
        large_number(random, most, word);
    }
}

void spoilt_word(struct random *random, char kind, struct text *word)
{
    word->length = 0;
    if (kind == 'h')
        spoilt_hex(random, word);
    else
        spoilt_number(random, kind, word);
}

/* ---- Lines. ---- */

/* Where the word after that many spaces begins; the line's length where it has no such word. */
static size_t word_start(const struct text *line, int spaces)
{
    size_t at = 0;
    while (at < line->length && spaces > 0)
        spaces -= line->bytes[at++] == ' ';
    return at;
}

static size_t word_end(const struct text *line, size_t from)
{
    while (from < line->length && line->bytes[from] != ' ')
        from++;
    return from;
}

/* As many words as there may be, and more; they are not read when one before them is wrong. */
static void some_words_more(struct random *random, struct text *line)
{
    static const char *const words[] = {" ", " 0", " x", " 00", " days", " 5 6", "  ", " -1", " 4294967296"};
    for (uint32_t more = random_below(random, 3); more > 0; more--)
        text_words(line, PICK(random, words));
}

static void wrong_number_of_words(struct teller *teller, enum call call)
{
    static const char *const more[] = {" ", " 0", " x", " 00", " days", "  ", " 5 6"};
    struct text *line = &teller->line;
    int words = (int)strlen(forms[call].kinds);
    if (call == CALL_OPEN) { /* it may have any number of days: nothing, or another word than `days` */
        line->length = random_one_in(&teller->random, 2) ? 4 : word_end(line, 5);
        text_words(line, line->length == 4 ? "" : random_one_in(&teller->random, 2) ? " day" : " Days 0");
        return;
    }
    if (words > 0 && random_one_in(&teller->random, 2)) {
        int kept = (int)random_below(&teller->random, (uint32_t)words);
        line->length = word_start(line, kept + 1) - 1;
        return;
    }
    text_words(line, PICK(&teller->random, more));
}

/* A list with a wrong day after some that may be right; 32 bits or more are none. */
static void wrong_day(struct teller *teller, struct text *word)
{
    struct random *random = &teller->random;
    teller->line.length = word_end(&teller->line, 5);
    text_words(&teller->line, " days");
    for (uint32_t days = random_below(random, 4); days > 0; days--)
        text_number(&teller->line, random, (int64_t)random_below(random, 65536) - 32768);
    text_fill(&teller->line, ' ', 1);
    text_add(&teller->line, word->bytes, word->length);
    some_words_more(random, &teller->line);
}

void spoilt_line(struct teller *teller, enum call call, int word)
{
    static struct text other;
    struct text *line = &teller->line;
    do
        call_line(teller, call);
    while (line->length > 4000);
    if (word == NO_WORD) {
        wrong_number_of_words(teller, call);
        return;
    }
    spoilt_word(&teller->random, forms[call].kinds[word], &other);
    if (call == CALL_OPEN && word == 1) {
        wrong_day(teller, &other);
        return;
    }
    size_t from = word_start(line, word + 1), to = word_end(line, from);
    text_replace(line, from, to, other.bytes, other.length);
    if (random_one_in(&teller->random, 4))
        line->length = from + other.length; /* nothing after it */
    if (random_one_in(&teller->random, 4))
        some_words_more(&teller->random, line);
}

/* ---- Names. ---- */

static int begins_with_name(const struct text *line)
{
    size_t length = word_end(line, 0);
    for (enum call call = 0; call < CALLS; call++)
        if (strlen(forms[call].name) == length && memcmp(forms[call].name, line->bytes, length) == 0)
            return 1;
    return 0;
}

/* A letter changed, left out, doubled or in upper case, a space before it, or another word. */
static void spoil_name(struct random *random, struct text *line)
{
    static const char *const names[] = {"help", "quit", "what?", "write", "-", "site\t", "refused", "days", "opened",
                                        "site:", "\xc3\xa9t\xc3\xa9", "\"site\"", "\rclose", "SITE", "0", "site#",
                                        "\xef\xbb\xbfsite"};
    size_t at = random_below(random, (uint32_t)word_end(line, 0));
    char letter = line->bytes[at];
    const char *name = PICK(random, names);
    switch (random_below(random, 6)) {
    case 0:
        line->bytes[at] = (char)toupper((unsigned char)letter);
        break;
    case 1:
        line->bytes[at] = (char)(random_one_in(random, 2) ? 'q' : letter ^ 0x80);
        break;
    case 2:
        text_replace(line, at, at + 1, "", 0);
        break;
    case 3:
        text_replace(line, at, at, &letter, 1);
        break;
    case 4:
        text_replace(line, 0, 0, " ", 1);
        break;
    default:
        text_replace(line, 0, word_end(line, 0), name, strlen(name));
    }
}

void no_call_line(struct teller *teller)
{
    do {
        call_line(teller, random_below(&teller->random, CALLS));
        if (teller->line.length < 4000)
            spoil_name(&teller->random, &teller->line);
    } while (begins_with_name(&teller->line));
}

/* ---- Length, and comments. ---- */

void too_long_line(struct teller *teller)
{
    static const char *const starts[] = {"#", "check ", "site ", "", " ", "part 0 "};
    static const uint32_t over[] = {1, 1, 1, 2, 3, 100, 65536};
    struct text *line = &teller->line;
    line->length = 0;
    text_words(line, PICK(&teller->random, starts));
    size_t wanted = LONGEST + PICK(&teller->random, over);
    text_fill(line, random_one_in(&teller->random, 4) ? ' ' : '0', wanted - line->length);
}

void comment_line(struct teller *teller)
{
    struct text *line = &teller->line;
    line->length = 0;
    text_words(line, "#");
    for (uint32_t more = random_below(&teller->random, 60); more > 0; more--) {
        char byte = (char)random_bits(&teller->random);
        text_fill(line, byte == '\n' ? ' ' : byte, 1);
    }
}
