/* The programs read /dev/stdin, so that they too are fed in pieces; odd days go to them as dates, even ones as numbers. */
#define _GNU_SOURCE
#include "host_run.h"

#include "texts.h"

#include <stdio.h>
#include <stdlib.h>
#include <string.h>
#include <sys/wait.h>
#include <time.h>

enum { COMMAND_ROOM = 16 + ROOM_FOR_DAYS, WORD_ROOM = 16, SAID_ROOM = 1024 };

/* What one program did. */
struct run {
    struct answer answer;
    char said[SAID_ROOM];
};

/* What it should do. */
struct expectation {
    char text[SUMMARY_ROOM];
    size_t length, said_lines;
    int status;
};

void hosts_after_dashes(char **words, struct hosts *hosts)
{
    char **command = command_after_dashes(words);
    hosts->count = 0;
    while (command != NULL && hosts->count < MOST_HOSTS) {
        char **end = command;
        while (*end != NULL && strcmp(*end, "--") != 0)
            end++;
        hosts->commands[hosts->count++] = command;
        command = *end == NULL ? NULL : end + 1;
        *end = NULL;
    }
}

/* By the C library's calendar; a number where the date would not have ten characters. */
static void day_word(char *word, int year, int32_t day, int as_date)
{
    struct tm date = {.tm_year = year - 1900, .tm_mday = day + 1};
    if (as_date && year >= 2000 && year <= 2099 && day > -100000 && day < 100000 && timegm(&date) != -1)
        strftime(word, WORD_ROOM, "%Y-%m-%d", &date);
    else
        snprintf(word, WORD_ROOM, "%d", day);
}

static void read_said(const char *path, char *said)
{
    FILE *file = fopen(path, "rb");
    size_t length = file != NULL ? fread(said, 1, SAID_ROOM - 1, file) : 0;
    if (file == NULL || ferror(file)) {
        perror(path);
        exit(2);
    }
    said[length] = 0;
    fclose(file);
}

static void run_host(const struct hosts *hosts, char **command, const struct host_case *one, struct run *run)
{
    static char days[ROOM_FOR_DAYS][WORD_ROOM];
    char *words[COMMAND_ROOM], said[512];
    size_t count = 0;
    struct feed feed = one->feed;
    int year = feed.length < SITE_BYTES ? 0 : feed.input[4] << 8 | feed.input[5];

    while (*command != NULL && count < COMMAND_ROOM - ROOM_FOR_DAYS - 2)
        words[count++] = *command++;
    words[count++] = "/dev/stdin";
    for (size_t i = 0; i < one->count; i++) {
        day_word(days[i], year, one->days[i], one->days[i] % 2 != 0);
        words[count++] = days[i];
    }
    words[count] = NULL;
    snprintf(said, sizeof said, "%s/host.said", hosts->keep);
    feed.errors = said;
    run_program(words, &feed, &run->answer);
    read_said(said, run->said);
}

/* One line where something was refused, and one where nobody gave a day and minutes are overdue. */
static void expect(const struct host_case *one, struct expectation *expected, struct outcome *outcome)
{
    const struct feed *feed = &one->feed;
    expected->length = summary_of_input(feed->input, feed->length, one->days, one->count, expected->text, outcome);
    expected->status = outcome->site_refusal != ACCEPTED || outcome->minute_refusal != ACCEPTED;
    expected->said_lines = (size_t)expected->status + (one->count == 0 && outcome->counts[7] > 0);
}

/* Each line of standard error is the program's own. */
static size_t lines_said(const char *said)
{
    size_t lines = 0;
    while (strncmp(said, "host: ", 6) == 0 && strchr(said, '\n') != NULL) {
        said = strchr(said, '\n') + 1;
        lines++;
    }
    return *said == 0 ? lines : SIZE_MAX;
}

static void show(const struct hosts *hosts, const struct host_case *one, const struct expectation *expected,
                 const struct run *run, const char *what)
{
    printf("difference in %s: %s\n  %zu days:", one->name, what, one->count);
    for (size_t i = 0; i < one->count; i++)
        printf(" %d", one->days[i]);
    printf("\n");
    show_input(one->name, &one->feed, hosts->keep);
    printf("-- the program, status %d%s:\n%.*s", WEXITSTATUS(run->answer.status),
           WIFEXITED(run->answer.status) ? "" : " (by a signal)", (int)run->answer.length, run->answer.text);
    printf("-- on standard error:\n%s", run->said);
    printf("-- the reference, status %d, with %zu lines on standard error:\n%.*s", expected->status, expected->said_lines,
           (int)expected->length, expected->text);
    fflush(stdout);
}

/* NULL, or what is wrong with it. */
static const char *difference(const struct expectation *expected, const struct run *run)
{
    const struct answer *answer = &run->answer;
    if (answer->late)
        return "it was still running after two minutes";
    if (answer->length != expected->length || memcmp(answer->text, expected->text, expected->length) != 0)
        return "another text";
    if (!WIFEXITED(answer->status) || WEXITSTATUS(answer->status) != expected->status)
        return "another exit status";
    if (lines_said(run->said) != expected->said_lines)
        return "more or fewer lines on standard error";
    return NULL;
}

int hosts_agree(const struct hosts *hosts, const struct host_case *one, struct outcome *outcome)
{
    static struct run runs[MOST_HOSTS];
    struct expectation expected;
    int good = 1;
    expect(one, &expected, outcome);
    for (size_t i = 0; i < hosts->count; i++) {
        run_host(hosts, hosts->commands[i], one, &runs[i]);
        const char *what = difference(&expected, &runs[i]);
        if (what == NULL && strcmp(runs[i].said, runs[0].said) != 0)
            what = "the two programs say different things";
        if (what != NULL)
            show(hosts, one, &expected, &runs[i], what);
        good &= what == NULL;
        free(runs[i].answer.text);
    }
    return good;
}
