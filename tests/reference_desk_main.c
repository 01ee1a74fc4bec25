/* The reference's desk as a program: lines from standard input, an answer to each on standard output. */
#include "reference_desk.h"

#include <errno.h>
#include <stdio.h>
#include <stdlib.h>
#include <string.h>
#include <unistd.h>

enum { PIECE = 65536 };

/* A line as far as it has come; one byte above the longest line is kept, which says that it is too long. */
struct talk {
    struct desk desk;
    struct reply reply;
    uint8_t line[LONGEST_LINE + 1];
    size_t length;
};

static int say_failure(const char *words)
{
    fprintf(stderr, "reference_desk: %s\n", words);
    return 1;
}

static void answer_line(struct talk *talk)
{
    reference_answer(&talk->desk, talk->line, talk->length, &talk->reply);
    fwrite(talk->reply.text, 1, talk->reply.length, stdout);
    putchar('\n');
    talk->length = 0;
}

static void keep(struct talk *talk, const uint8_t *bytes, size_t length)
{
    size_t room = sizeof talk->line - talk->length;
    size_t kept = length < room ? length : room;
    memcpy(talk->line + talk->length, bytes, kept);
    talk->length += kept;
}

static void take_piece(struct talk *talk, const uint8_t *at, size_t length)
{
    const uint8_t *end = at + length, *line_end;
    while (at < end && (line_end = memchr(at, '\n', (size_t)(end - at))) != NULL) {
        keep(talk, at, (size_t)(line_end - at));
        answer_line(talk);
        at = line_end + 1;
    }
    keep(talk, at, (size_t)(end - at));
}

/* Answers go out before more input is waited for. */
static ssize_t next_piece(uint8_t *piece)
{
    ssize_t got;
    do {
        if (fflush(stdout) != 0)
            exit(say_failure("standard output cannot be written"));
        got = read(0, piece, PIECE);
    } while (got < 0 && errno == EINTR);
    return got;
}

int main(void)
{
    static struct talk talk;
    static uint8_t piece[PIECE];
    ssize_t got;

    while ((got = next_piece(piece)) > 0)
        take_piece(&talk, piece, (size_t)got);
    if (got < 0)
        return say_failure("standard input cannot be read");
    if (talk.length > 0)
        answer_line(&talk);
    free(talk.reply.text);
    return fflush(stdout) == 0 ? 0 : say_failure("standard output cannot be written");
}
