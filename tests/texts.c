/* A difference is shown so that a reader can repeat it: the input, the first line that differs, its record. */
#include "texts.h"

#include "hex.h"

#include <stdio.h>
#include <stdlib.h>
#include <string.h>
#include <sys/wait.h>

enum { SHORT_INPUT = 2048 };

enum program program_named(const char *word)
{
    if (strcmp(word, "flare") == 0)
        return FLARE_PROGRAM;
    if (strcmp(word, "months") == 0)
        return MONTHS_PROGRAM;
    fprintf(stderr, "flare or months can be compared, not %s\n", word);
    exit(2);
}

char *reference_text(enum program program, const struct feed *feed, size_t *length, struct outcome *outcome)
{
    char *text = malloc((program == FLARE_PROGRAM ? text_room(feed->length) : SHEET_ROOM) + 1);
    if (text == NULL) {
        perror("memory for a text");
        exit(2);
    }
    *length = program == FLARE_PROGRAM ? text_of_input(feed->input, feed->length, text, outcome)
                                       : sheet_of_input(feed->input, feed->length, text, outcome);
    text[*length] = 0;
    return text;
}

void show_input(const char *name, const struct feed *feed, const char *keep)
{
    char place[512];
    if (feed->length <= SHORT_INPUT) {
        print_hex("input", feed->input, feed->length);
        return;
    }
    snprintf(place, sizeof place, "%s/difference-%s.bin", keep, name);
    FILE *file = fopen(place, "wb");
    if (file == NULL || fwrite(feed->input, 1, feed->length, file) != feed->length)
        printf("  (the input could not be kept)\n");
    if (file != NULL)
        fclose(file);
    printf("  input (%zu) kept as %s\n", feed->length, place);
}

static size_t same_bytes(const char *a, size_t a_length, const char *b, size_t b_length)
{
    size_t i = 0;
    while (i < a_length && i < b_length && a[i] == b[i])
        i++;
    return i;
}

/* The number of the minute whose line it is, or NO_MINUTE. */
enum { NO_MINUTE = -1 };
static int64_t show_line(const char *who, const char *text, size_t length, size_t from)
{
    static const char word[] = "minute ";
    const char *end = from < length ? memchr(text + from, '\n', length - from) : NULL;
    size_t to = end != NULL ? (size_t)(end - text) : length, at = from + strlen(word);
    int64_t minute = 0;
    printf("  %s \"%.*s\"%s\n", who, (int)(to - from), text + from, end != NULL ? "" : " and no end of line");
    if (at >= to || memcmp(text + from, word, strlen(word)) != 0)
        return NO_MINUTE;
    for (; at < to && text[at] >= '0' && text[at] <= '9' && minute < 1000000; at++)
        minute = 10 * minute + (text[at] - '0');
    return minute;
}

/* With the record that the line is about: the site's, or that of the minute that was expected. */
static void show_first_line(const struct feed *feed, const char *expected, size_t length, const struct answer *answer)
{
    size_t same = same_bytes(expected, length, answer->text, answer->length);
    size_t from = 0, line = 0;
    for (size_t i = 0; i < same; i++)
        if (expected[i] == '\n') {
            from = i + 1;
            line++;
        }
    printf("  first different line: %zu (from 0), at byte %zu of the output\n", line, same);
    int64_t minute = show_line("program  ", answer->text, answer->length, from);
    int64_t by_reference = show_line("reference", expected, length, from);
    size_t at = SITE_BYTES + (size_t)(by_reference != NO_MINUTE ? by_reference : minute) * MINUTE_BYTES;
    if (length > 4 && memcmp(expected, "site", 4) == 0)
        print_hex("site", feed->input, feed->length < SITE_BYTES ? feed->length : SITE_BYTES);
    else if ((minute != NO_MINUTE || by_reference != NO_MINUTE) && at < feed->length)
        print_hex("record", feed->input + at, feed->length - at < MINUTE_BYTES ? feed->length - at : MINUTE_BYTES);
}

int texts_agree(const char *name, const struct feed *feed, const char *expected, size_t length,
                const struct answer *answer, const char *keep)
{
    int ended = !answer->late && WIFEXITED(answer->status);
    if (ended && answer->length == length && memcmp(answer->text, expected, length) == 0)
        return 1;
    printf("difference in %s: the program printed %zu bytes, the reference %zu\n", name, answer->length, length);
    if (answer->late)
        printf("  the program was still running after two minutes\n");
    else if (!ended)
        printf("  the program was ended by signal %d\n", WTERMSIG(answer->status));
    show_input(name, feed, keep);
    show_first_line(feed, expected, length, answer);
    fflush(stdout); /* the next input may take its two minutes */
    return 0;
}
