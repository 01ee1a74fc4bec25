/* Whole years through the program, and each a little too short or too long; through `months` also refused on the way.
 * Usage: whole_years flare|months keep-folder -- command... */
#define _GNU_SOURCE
#include "texts.h"
#include "year.h"

#include <stdio.h>
#include <stdlib.h>
#include <string.h>
#include <time.h>

/* The low byte of the site's GWP, and the flags of a minute in the middle of August. */
enum { GWP_AT = 7, IN_AUGUST = 226 * DAY_MINUTES + 700, FLAGS_AT = SITE_BYTES + IN_AUGUST * MINUTE_BYTES + 7 };

/* How the input ends or what is spoilt in it, and what 01 says the program prints then. */
static const struct ending {
    const char *name;
    int bytes_more; /* than the whole year */
    size_t at;      /* where it has another byte than the year; the first byte is 0 in both */
    uint8_t byte;
    uint8_t site_refusal, refusal;
    int closed;
} endings[] = {
    {"whole", 0, 0, 0, ACCEPTED, ACCEPTED, 1},
    {"one minute short", -MINUTE_BYTES, 0, 0, ACCEPTED, ACCEPTED, 0},
    {"last minute cut", -1, 0, 0, ACCEPTED, LENGTH, 0},
    {"one record more", MINUTE_BYTES, 0, 0, ACCEPTED, FULL, 1},
    {"one record more, cut", 17, 0, 0, ACCEPTED, FULL, 1},
    {"refused in August", 0, FLAGS_AT, 8, ACCEPTED, FLAGS, 0},
    {"a refused site", 0, GWP_AT, 0, GWP, ACCEPTED, 0},
};
/* The last two are for `months` alone: what `flare` prints of such an input small ones show. */
enum { ENDINGS = sizeof endings / sizeof endings[0], FLARE_ENDINGS = ENDINGS - 2 };

struct run {
    enum program program;
    char **command;
    const char *folder;
    uint64_t runs, bytes, tonnes, open, differences;
    uint64_t refusals[REFUSALS], rules[RULES];
};

/* ---- The reference itself must end as the table says: a year that is not what it should be shows nothing. ---- */

/* By the machine's own calendar. */
static uint64_t minutes_of_month(int year, int month)
{
    struct tm first = {.tm_year = year - 1900, .tm_mon = month - 1, .tm_mday = 1};
    struct tm next = {.tm_year = year - 1900, .tm_mon = month, .tm_mday = 1};
    return (uint64_t)(timegm(&next) - timegm(&first)) / 60;
}

enum { MONTH_NUMBERS = 6 };

/* The numbers of a line after these words: minutes, gas, fed, emitted, destroyed, co2e. */
static int numbers_of(const char *line, const char *words, uint64_t *numbers)
{
    static const char *const names[MONTH_NUMBERS] = {"", " gas ", " fed ", " emitted ", " destroyed ", " co2e "};
    const char *at = line;
    if (strncmp(at, words, strlen(words)) != 0)
        return 0;
    at += strlen(words);
    for (int i = 0; i < MONTH_NUMBERS; i++) {
        if (strncmp(at, names[i], strlen(names[i])) != 0)
            return 0;
        char *end;
        numbers[i] = strtoull(at + strlen(names[i]), &end, 10);
        at = end;
    }
    return *at == '\n';
}

/* Twelve lines, of a whole year with the calendar's minutes, that add up to the total. */
static int months_add_up(const char *text, int year, int closed)
{
    uint64_t sums[MONTH_NUMBERS] = {0}, numbers[MONTH_NUMBERS];
    char words[64];
    for (int month = 1; month <= MONTHS; month++) {
        snprintf(words, sizeof words, "month %d minutes ", month);
        if (!numbers_of(text, words, numbers) || (closed && numbers[0] != minutes_of_month(year, month)))
            return 0;
        for (int i = 0; i < MONTH_NUMBERS; i++)
            sums[i] += numbers[i];
        text = strchr(text, '\n') + 1;
    }
    const char *total = strstr(text, "total ");
    return total != NULL && numbers_of(total, "total ", numbers) && memcmp(sums, numbers, sizeof sums) == 0;
}

static int ends_as_expected(const struct run *run, const char *name, int year, const struct ending *ending,
                            const struct outcome *outcome, const char *text, size_t length)
{
    int tonnes = strstr(text + (length < 300 ? 0 : length - 300), " tonnes ") != NULL;
    int months = run->program == FLARE_PROGRAM || outcome->site_refusal != ACCEPTED ||
                 months_add_up(text, year, ending->closed);
    if (outcome->site_refusal == ending->site_refusal && outcome->minute_refusal == ending->refusal &&
        outcome->closed == ending->closed && tonnes == ending->closed && months)
        return 1;
    printf("difference in %s, %s: the reference does not end as 01 says (refused %u)\n", name, ending->name,
           outcome->minute_refusal);
    return 0;
}

/* ---- Runs. ---- */

static void one_run(struct run *run, const char *name, int year, const struct ending *ending, const struct feed *feed)
{
    struct outcome outcome;
    struct answer answer;
    size_t length;
    char *expected = reference_text(run->program, feed, &length, &outcome);

    run_program(run->command, feed, &answer);
    int good = texts_agree(name, feed, expected, length, &answer, run->folder);
    good &= ends_as_expected(run, name, year, ending, &outcome, expected, length);
    run->differences += !good;
    run->runs++;
    run->bytes += feed->length;
    run->tonnes += (uint64_t)outcome.closed;
    run->open += (uint64_t)!outcome.closed;
    run->refusals[outcome.minute_refusal]++;
    for (int i = 0; i < RULES; i++)
        run->rules[i] += outcome.counts[i];
    free(expected);
    free(answer.text);
}

static void one_year(struct run *run, enum year_kind kind, uint16_t year)
{
    struct random pieces = {year};
    char name[64];
    size_t length;
    uint32_t minutes = reference_year_minutes(year);
    uint8_t *input = year_input(kind, year, minutes + 1, &length);

    snprintf(name, sizeof name, "%s-%u", year_names[kind], year);
    for (int i = 0; i < (run->program == FLARE_PROGRAM ? FLARE_ENDINGS : ENDINGS); i++) {
        size_t whole = length - MINUTE_BYTES;
        struct feed feed = {.input = input, .length = (size_t)((int64_t)whole + endings[i].bytes_more), .random = &pieces,
                            .errors = "/dev/null"};
        uint8_t there = input[endings[i].at];
        feed.largest = i % 2 == 0 ? 65536 : 1000000;
        feed.wait = i % 2 == 0 ? 20 : 0;
        input[endings[i].at] = endings[i].byte;
        one_run(run, name, year, &endings[i], &feed);
        input[endings[i].at] = there;
    }
    free(input);
}

/* Of `months` either kind of year and of site do: what a month adds up is judged as in `flare`. */
static void all_years(struct run *run)
{
    if (run->program == MONTHS_PROGRAM) {
        one_year(run, TALL_DEFAULT, 2027);
        one_year(run, LOW_MEASURED, 2028);
        return;
    }
    for (enum year_kind kind = 0; kind <= OPEN_DEFAULT; kind++)
        for (uint16_t year = 2027; year <= 2028 && run->differences == 0; year++)
            one_year(run, kind, year);
}

int main(int words_count, char **words)
{
    char **command = command_after_dashes(words);
    if (words_count < 5 || command != words + 4)
        return fprintf(stderr, "usage: whole_years flare|months keep-folder -- command...\n"), 2;
    struct run run = {.program = program_named(words[1]), .command = command, .folder = words[2]};

    all_years(&run);
    if (run.differences > 0)
        return 1;
    for (int i = 0; i < RULES; i++)
        printf("  rule %d: %8llu minutes\n", i, (unsigned long long)run.rules[i]);
    printf("%s: %llu runs, %llu bytes, %llu to tonnes, %llu open, %llu refused 11, 0 differences\n",
           run.program == FLARE_PROGRAM ? "whole years" : "months of years", (unsigned long long)run.runs,
           (unsigned long long)run.bytes, (unsigned long long)run.tonnes, (unsigned long long)run.open,
           (unsigned long long)run.refusals[FULL]);
    return 0;
}
