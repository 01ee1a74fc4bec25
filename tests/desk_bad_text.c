/* Bad text for the desk, beside the reference: an answer each time, never an end, and the next call is answered rightly.
 * Usage: desk_bad_text lines seed keep-folder -- command... */
#include "desk_bad_lines.h"
#include "desk_talk.h"
#include "program.h"

#include <stdio.h>
#include <stdlib.h>
#include <string.h>

enum { LINES_OF_TALK = 1000, MOST_OF_BATCH = 40 };

struct run {
    char **command;
    const char *folder;
    struct teller teller;
    struct talk talk;
    struct random pieces;
    uint64_t lines, talks, good_calls, long_lines, what, bytes;
    int good;
};

/* ---- Calls with answers that are known without any reference: 01's example, tall and default. ---- */

#define SITE_HEX "001c010007eb001c00002ee0000003e813882af80000006400015f900000"
#define NOTHING "00000000"
#define GAS "000927c0" NOTHING "00061a80" NOTHING NOTHING NOTHING NOTHING NOTHING
#define MINUTE_HEX "00340100000000032328000003e8" GAS NOTHING NOTHING
static const struct {
    const char *line, *answer;
} known[] = {
    {"site " SITE_HEX,
     "site method 0 year 2027 gwp 28 height 12000 diameter 1000 temperatures 5000 11000 flows 100 90000 days 0"},
    {"open " SITE_HEX, "opened"},
    {"add " MINUTE_HEX, "minute 0 rule 3 fed 429600 emitted 42960 destroyed 386640"},
    {"total", "total 1 gas 1 fed 429600 emitted 42960 destroyed 386640 co2e 1202880"},
    {"month 1", "month 1 minutes 1 gas 1 fed 429600 emitted 42960 destroyed 386640 co2e 1202880"},
    {"month 12", "month 12 minutes 0 gas 0 fed 0 emitted 0 destroyed 0 co2e 0"},
    {"month 13", "refused 23"},
};

static void say_known(struct run *run)
{
    struct text line = {0};
    for (size_t i = 0; i < sizeof known / sizeof known[0] && run->good; i++) {
        const struct reply *reply = &run->talk.reply;
        line.length = 0;
        text_words(&line, known[i].line);
        talk_line(&run->talk, &line, "\n");
        run->good_calls++;
        if (reply->length == strlen(known[i].answer) && memcmp(reply->text, known[i].answer, reply->length) == 0)
            continue;
        printf("difference: the reference does not answer as 01 says\n");
        print_line("line     ", line.bytes, line.length);
        print_line("reference", reply->text, reply->length);
        keep_talk(&run->talk, run->folder, "desk-bad-text-reference");
        run->good = 0;
    }
    free(line.bytes);
}

/* ---- Batches of bad lines. ---- */

static void say_bad(struct run *run, const struct text *line, const char *end)
{
    talk_line(&run->talk, line, end);
    run->lines++;
    run->what += run->talk.reply.length > 4 && memcmp(run->talk.reply.text, "what?", 5) == 0;
}

static void one_batch(struct run *run)
{
    static struct text rest;
    struct random *random = &run->teller.random;
    for (uint32_t lines = random_between(random, 1, MOST_OF_BATCH); lines > 0; lines--) {
        do
            bad_line(&run->teller, &rest);
        while (fills_much(&run->teller.line) || fills_much(&rest));
        say_bad(run, &run->teller.line, random_one_in(random, 6) ? "\r\n" : "\n");
        if (rest.length > 0)
            say_bad(run, &rest, "\n");
    }
    say_known(run);
}

static void ask(struct run *run)
{
    char name[64];
    snprintf(name, sizeof name, "desk-bad-text-%llu", (unsigned long long)run->talks);
    if (run->good)
        run->good = talk_agrees(&run->talk, run->command, run->folder, name, &run->pieces);
    run->bytes += run->talk.input.length;
    run->talks++;
}

/* The last line is a bad one too, and has no end. */
static void batches(struct run *run, uint64_t wanted)
{
    static struct text rest;
    uint64_t end = run->lines + LINES_OF_TALK;
    talk_begin(&run->talk);
    while (run->good && run->lines < wanted && run->lines < end)
        one_batch(run);
    do
        bad_line(&run->teller, &rest);
    while (fills_much(&run->teller.line) || run->teller.line.length == 0);
    say_bad(run, &run->teller.line, random_one_in(&run->teller.random, 4) ? "\r" : "");
    ask(run);
}

/* ---- Lines about as long as one may be, and much longer. ---- */

/* What they begin with, what they go on with, and what ends them; the first three are also a conversation's last line. */
static const struct {
    const char *start, *more, *end;
} long_ones[] = {
    {"#", "x", ""},
    {"part 00 ", "fF", ""},
    {"", "q", ""},
    {"part 0 ", "0", ""},
    {"check ", "00", ""},
    {"site ", "0", ""},
    {"total", " ", ""},
    {"open " SITE_HEX " days", " 0", ""},
    {"open " SITE_HEX " days -", "0", "5"},
    {"fill ", "0", "1 " MINUTE_HEX},
    {"write-site 0 2027 28 12000 1000 5000 11000 100 90000 ", "0", " 30"},
    {"single " SITE_HEX " ", "00", " 0 25"},
    {"month ", "0", "1"},
    {"month ", "1", ""},
};
enum { LONG_ONES = sizeof long_ones / sizeof long_ones[0], LAST_ONES = 3, VERY_LONG = 2500000 };

static void say_long(struct run *run, size_t kind, size_t length, const char *line_end)
{
    static struct text line;
    const char *more = long_ones[kind].more, *end = long_ones[kind].end;
    line.length = 0;
    text_words(&line, long_ones[kind].start);
    while (line.length + strlen(end) < length)
        text_fill(&line, more[line.length % strlen(more)], 1);
    text_words(&line, end);
    say_bad(run, &line, line_end);
    run->long_lines++;
}

/* The \r counts, though it is no part of the line. */
static void long_lines(struct run *run, size_t kind)
{
    static const struct {
        size_t length;
        const char *end;
    } lines[] = {{LONGEST - 1, "\n"}, {LONGEST, "\n"},       {LONGEST + 1, "\n"},     {LONGEST - 2, "\r\n"},
                 {LONGEST - 1, "\r\n"}, {LONGEST, "\r\n"}, {VERY_LONG, "\n"}, {VERY_LONG, "\r\n"}};
    talk_begin(&run->talk);
    for (size_t i = 0; i < (kind < LAST_ONES ? 8 : 6); i++) {
        say_long(run, kind, lines[i].length, lines[i].end);
        say_known(run);
    }
    ask(run);
}

/* The last line, without a line's end, with and without \r. */
static void long_last_lines(struct run *run, size_t kind)
{
    static const size_t lengths[] = {LONGEST - 1, LONGEST, LONGEST + 1, VERY_LONG};
    for (size_t i = 0; i < 8 && run->good; i++) {
        talk_begin(&run->talk);
        say_known(run);
        say_long(run, kind, lengths[i / 2], i % 2 == 0 ? "" : "\r");
        ask(run);
    }
}

/* Half of them with one seed, half with the next. */
static void all_long_lines(struct run *run, uint64_t seed)
{
    for (size_t kind = seed % 2; kind < LONG_ONES && run->good; kind += 2) {
        long_lines(run, kind);
        if (kind < LAST_ONES)
            long_last_lines(run, kind);
    }
}

int main(int words_count, char **words)
{
    static struct run run;
    char **command = command_after_dashes(words);
    if (words_count < 6 || command != words + 5)
        return fprintf(stderr, "usage: desk_bad_text lines seed keep-folder -- command...\n"), 2;
    uint64_t wanted = strtoull(words[1], NULL, 10), seed = strtoull(words[2], NULL, 10);
    run.teller.random.state = seed;
    run.pieces.state = ~seed;
    run.teller.desk = &run.talk.desk;
    run.folder = words[3];
    run.command = command;
    run.good = 1;
    valid_site(&run.teller.random, &run.teller.spare);

    while (run.good && run.lines < wanted)
        batches(&run, wanted);
    all_long_lines(&run, seed);
    if (!run.good)
        return 1;
    printf("desk bad text: %llu lines in %llu conversations, %llu of them answered what?, %llu about as long as can be or "
           "longer; %llu good calls between them, %llu bytes, 0 differences\n",
           (unsigned long long)run.lines, (unsigned long long)run.talks, (unsigned long long)run.what,
           (unsigned long long)run.long_lines, (unsigned long long)run.good_calls, (unsigned long long)run.bytes);
    return 0;
}
