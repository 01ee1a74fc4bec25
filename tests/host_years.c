/* Whole measured years through the example programs, with maintenance days, and minutes that come in a wrong order.
 * Usage: host_years keep-folder -- command... [-- command...] */
#include "host_run.h"
#include "year.h"

#include <stdio.h>
#include <stdlib.h>
#include <string.h>

enum { ENOUGH = 10000, NAME_ROOM = 64 };

/* Each goes through whole with every list, and once with another ending. */
static const struct measured_year {
    enum year_kind kind;
    uint16_t year;
    const char *ending;
    int bytes_more; /* than the whole year */
    uint8_t refusal;
} years[] = {
    {LOW_MEASURED, 2027, "one-more", MINUTE_BYTES, FULL},
    {TALL_MEASURED, 2027, "one-short", -MINUTE_BYTES, ACCEPTED},
    {LOW_MEASURED, 2028, "cut", -1, LENGTH},
    {TALL_MEASURED, 2028, "one-more-cut", 17, FULL},
};
enum { YEARS = sizeof years / sizeof years[0] };

static const struct list {
    const char *name;
    uint16_t allowed;
    size_t count;
    int32_t days[5]; /* but the days of a full list are made by full_list */
} lists[] = {
    {"no-days", 90, 0, {0}},
    {"five-days", 90, 5, {-20, 80, 175, 250, 330}},
    {"full-list", 4, MOST_DAYS, {0}},
};
enum { LISTS = sizeof lists / sizeof lists[0] };

/* One record gets another number, and a byte of it may change too: which refusal comes first? */
enum { SPOILT = 3000, NO_BYTE = 0 };
static const struct spoil {
    const char *name;
    int32_t number_more;
    size_t byte;
    uint8_t value, refusal;
} spoils[] = {
    {"repeated", -1, NO_BYTE, 0, ORDER},
    {"missing", 1, NO_BYTE, 0, ORDER},
    {"from-the-start", -SPOILT, NO_BYTE, 0, ORDER},
    {"beyond-the-year", 527040, NO_BYTE, 0, ORDER},
    {"length-and-order", 1, 1, 53, LENGTH},
    {"version-and-order", 1, 2, 2, VERSION},
    {"flags-and-order", 1, 7, 15, FLAGS},
    {"flow-and-order", 1, 10, 1, ORDER},
    {"methane-and-order", -1, 14, 255, ORDER},
    {"length", 0, 1, 53, LENGTH},
    {"version", 0, 2, 2, VERSION},
    {"flags", 0, 7, 15, FLAGS},
    {"flow", 0, 10, 1, FLOW},
};
enum { SPOILS = sizeof spoils / sizeof spoils[0] };

struct tally {
    uint64_t runs, bytes, tonnes, differences;
    uint64_t rules[RULES];
};

/* -3,660, then every sixth day from -12, then the year's last: with 4 days allowed each sixth day is overdue. */
static void full_list(struct host_case *one, uint16_t year)
{
    one->days[0] = -3660;
    for (int i = 1; i < MOST_DAYS - 1; i++)
        one->days[i] = -12 + 6 * (i - 1);
    one->days[MOST_DAYS - 1] = (int32_t)(reference_year_minutes(year) / DAY_MINUTES) - 1;
}

/* The days into the case, and the days allowed between them into the site. */
static void take_list(struct host_case *one, uint8_t *site, const struct list *list, uint16_t year)
{
    one->count = list->count;
    if (list->count == MOST_DAYS)
        full_list(one, year);
    else
        memcpy(one->days, list->days, sizeof list->days);
    site[28] = (uint8_t)(list->allowed >> 8);
    site[29] = (uint8_t)list->allowed;
}

/* The reference itself must refuse what the table says: a case that is not what it should be shows nothing. */
static void one_run(const struct hosts *hosts, struct host_case *one, const struct measured_year *year, const char *what,
                    uint8_t refusal, struct tally *tally)
{
    char name[NAME_ROOM];
    struct outcome outcome;
    snprintf(name, sizeof name, "%s-%u-%s", year_names[year->kind], year->year, what);
    one->name = name;
    int good = hosts_agree(hosts, one, &outcome);
    if (outcome.site_refusal != ACCEPTED || outcome.minute_refusal != refusal) {
        printf("difference in %s: the reference refuses %u, not %u\n", name, outcome.minute_refusal, refusal);
        good = 0;
    }
    tally->differences += !good;
    tally->runs++;
    tally->bytes += one->feed.length;
    tally->tonnes += (uint64_t)outcome.closed;
    for (int i = 0; i < RULES; i++)
        tally->rules[i] += outcome.counts[i];
}

static void whole_runs(const struct hosts *hosts, struct host_case *one, uint8_t *input, const struct measured_year *year,
                       struct tally *tally)
{
    for (size_t i = 0; i < LISTS && tally->differences == 0; i++) {
        take_list(one, input, &lists[i], year->year);
        one_run(hosts, one, year, lists[i].name, ACCEPTED, tally);
    }
    one->feed.length = (size_t)((int64_t)one->feed.length + year->bytes_more);
    if (tally->differences == 0)
        one_run(hosts, one, year, year->ending, year->refusal, tally);
}

static void spoilt_runs(const struct hosts *hosts, struct host_case *one, uint8_t *input, const struct measured_year *year,
                        struct tally *tally)
{
    uint8_t *record = input + SITE_BYTES + (size_t)SPOILT * MINUTE_BYTES, kept[MINUTE_BYTES];
    one->feed.length = SITE_BYTES + (size_t)(SPOILT + 100) * MINUTE_BYTES;
    memcpy(kept, record, MINUTE_BYTES);
    for (size_t i = 0; i < SPOILS && tally->differences == 0; i++) {
        uint32_t number = SPOILT + (uint32_t)spoils[i].number_more;
        for (int place = 0; place < 4; place++)
            record[3 + place] = (uint8_t)(number >> (24 - 8 * place));
        if (spoils[i].byte != NO_BYTE)
            record[spoils[i].byte] = spoils[i].value;
        one_run(hosts, one, year, spoils[i].name, spoils[i].refusal, tally);
        memcpy(record, kept, MINUTE_BYTES);
    }
}

static void one_year(const struct hosts *hosts, const struct measured_year *year, struct tally *tally)
{
    size_t length;
    struct random pieces = {year->year};
    uint8_t *input = year_input(year->kind, year->year, reference_year_minutes(year->year) + 1, &length);
    struct host_case one = {.feed = {.input = input, .length = length - MINUTE_BYTES, .largest = 65536, .random = &pieces}};

    whole_runs(hosts, &one, input, year, tally);
    spoilt_runs(hosts, &one, input, year, tally);
    free(input);
}

int main(int words_count, char **words)
{
    static struct tally tally;
    if (words_count < 4 || strcmp(words[2], "--") != 0)
        return fprintf(stderr, "usage: host_years keep-folder -- command... [-- command...]\n"), 2;
    struct hosts hosts = {.keep = words[1]};
    hosts_after_dashes(words, &hosts);

    for (size_t i = 0; i < YEARS && tally.differences == 0; i++)
        one_year(&hosts, &years[i], &tally);
    if (tally.differences > 0)
        return 1;
    for (int i = 7; i <= 9; i++) {
        printf("  rule %d: %8llu minutes\n", i, (unsigned long long)tally.rules[i]);
        if (tally.rules[i] < ENOUGH)
            return printf("too few minutes of rule %d\n", i), 1;
    }
    printf("host years: %llu runs of %zu programs, %llu bytes, %llu to tonnes, 0 differences\n",
           (unsigned long long)tally.runs, hosts.count, (unsigned long long)tally.bytes, (unsigned long long)tally.tonnes);
    return 0;
}
