/* Line n of the output answers line n of the input, so a difference is found by counting lines. */
#include "desk_talk.h"

#include "program.h"

#include <stdio.h>
#include <stdlib.h>
#include <string.h>
#include <sys/wait.h>

void talk_begin(struct talk *talk)
{
    memset(&talk->desk, 0, sizeof talk->desk);
    talk->input.length = talk->expected.length = 0;
    talk->lines = 0;
}

void talk_line(struct talk *talk, const struct text *line, const char *end)
{
    size_t from = talk->input.length;
    text_add(&talk->input, line->bytes, line->length);
    text_words(&talk->input, end);
    size_t length = line->length + (end[0] == '\r');
    talk->reply.length = 0;
    reference_answer(&talk->desk, (const uint8_t *)talk->input.bytes + from, length, &talk->reply);
    text_add(&talk->expected, talk->reply.text, talk->reply.length);
    text_fill(&talk->expected, '\n', 1);
    talk->lines++;
}

/* ---- Showing a difference. ---- */

static void print_bytes(const char *bytes, size_t length)
{
    for (size_t i = 0; i < length; i++) {
        unsigned char byte = (unsigned char)bytes[i];
        if (byte < 32 || byte > 126 || byte == '\\')
            printf("\\x%02x", byte);
        else
            putchar(byte);
    }
}

void print_line(const char *who, const char *line, size_t length)
{
    enum { SHOWN = 600, BEGIN = 300, END = 100 };
    printf("  %s \"", who);
    print_bytes(line, length <= SHOWN ? length : BEGIN);
    if (length > SHOWN) {
        printf("\" .. %zu more .. \"", length - BEGIN - END);
        print_bytes(line + length - END, END);
    }
    printf("\"%s", length > SHOWN ? " " : "\n");
    if (length > SHOWN)
        printf("(%zu characters)\n", length);
}

void keep_talk(const struct talk *talk, const char *folder, const char *name)
{
    char place[512];
    snprintf(place, sizeof place, "%s/%s.txt", folder, name);
    FILE *file = fopen(place, "wb");
    if (file == NULL || fwrite(talk->input.bytes, 1, talk->input.length, file) != talk->input.length)
        printf("  (the conversation could not be kept)\n");
    else
        printf("  the conversation is kept as %s\n", place);
    if (file != NULL)
        fclose(file);
}

/* Line `number`, from 0, without its end; NULL where the text has no such line. */
static const char *line_of(const char *text, size_t length, uint64_t number, size_t *line_length)
{
    const char *end = text + length, *line_end;
    for (; number > 0 && text < end; number--) {
        if ((line_end = memchr(text, '\n', (size_t)(end - text))) == NULL)
            return NULL;
        text = line_end + 1;
    }
    if (text >= end)
        return NULL;
    line_end = memchr(text, '\n', (size_t)(end - text));
    *line_length = (size_t)((line_end != NULL ? line_end : end) - text);
    return text;
}

static void print_line_of(const char *who, const char *text, size_t length, uint64_t number)
{
    size_t line_length;
    const char *line = text == NULL ? NULL : line_of(text, length, number, &line_length);
    if (line == NULL)
        printf("  %s has no such line\n", who);
    else
        print_line(who, line, line_length);
}

static uint64_t same_lines(const struct talk *talk, const struct answer *answer)
{
    uint64_t lines = 0;
    const char *expected = talk->expected.bytes;
    for (size_t i = 0; i < talk->expected.length && i < answer->length && expected[i] == answer->text[i]; i++)
        lines += expected[i] == '\n';
    return lines;
}

static void print_end(const struct answer *answer)
{
    if (answer->late)
        printf("  the desk was still running after two minutes\n");
    else if (!WIFEXITED(answer->status))
        printf("  the desk was ended by signal %d\n", WTERMSIG(answer->status));
    else if (WEXITSTATUS(answer->status) != 0)
        printf("  the desk ended with status %d\n", WEXITSTATUS(answer->status));
}

static int same_answers(const struct talk *talk, const struct answer *answer)
{
    return answer->length == talk->expected.length &&
           (answer->length == 0 || memcmp(answer->text, talk->expected.bytes, answer->length) == 0);
}

static void show(const struct talk *talk, const struct answer *answer, const char *folder, const char *name)
{
    uint64_t line = same_lines(talk, answer);
    if (same_answers(talk, answer)) {
        printf("difference: all answers are right in %s, but not the end\n", name);
    } else {
        printf("difference: line %llu (from 1) of %llu in %s; %zu bytes of answers, the reference has %zu\n",
               (unsigned long long)line + 1, (unsigned long long)talk->lines, name, answer->length, talk->expected.length);
        print_line_of("line     ", talk->input.bytes, talk->input.length, line);
        print_line_of("desk     ", answer->text, answer->length, line);
        print_line_of("reference", talk->expected.bytes, talk->expected.length, line);
    }
    print_end(answer);
    keep_talk(talk, folder, name);
    fflush(stdout);
}

/* Byte by byte up to whole pipes, but in no more than some 500 pieces, for the time it takes. */
static struct feed feed_of(const struct talk *talk, struct random *random)
{
    static const uint32_t waits[] = {0, 1, 3, 10};
    struct feed feed = {.input = (const uint8_t *)talk->input.bytes, .length = talk->input.length, .random = random};
    uint32_t least = (uint32_t)(talk->input.length / 250) + 1;
    feed.largest = 1u << random_below(random, 17);
    feed.wait = waits[random_below(random, 4)];
    if (feed.largest < least)
        feed.largest = least;
    return feed;
}

int talk_agrees(const struct talk *talk, char **command, const char *folder, const char *name, struct random *random)
{
    struct answer answer;
    struct feed feed = feed_of(talk, random);
    run_program(command, &feed, &answer);
    int ended = !answer.late && WIFEXITED(answer.status) && WEXITSTATUS(answer.status) == 0;
    int good = ended && same_answers(talk, &answer);
    if (!good)
        show(talk, &answer, folder, name);
    free(answer.text);
    return good;
}
