/* Many small inputs through the example programs, with maintenance lists round every limit, and spoilt records.
 * Usage: host_lists inputs seed keep-folder -- command... [-- command...] */
#include "host_run.h"

#include <stdio.h>
#include <stdlib.h>
#include <string.h>

#define PICK(random, list) ((list)[random_below(random, sizeof(list) / sizeof(list)[0])])

enum { MOST_RECORDS = 3000, SHOWN = 3, MANY = 400 };

struct stream {
    uint8_t bytes[RECORD_ROOM + MOST_RECORDS * MINUTE_BYTES + RECORD_ROOM];
    size_t length;
};

struct tally {
    uint64_t inputs, bytes, differences;
    uint64_t sites[REFUSALS], minutes[REFUSALS], rules[RULES];
};

/* What goes wrong with one record of the input, or with its end: one or two of these. */
enum { EDGE = 1, DAMAGED = 2, WRONG_ORDER = 4, CUT = 8 };
static const int spoils[] = {0, EDGE, EDGE, EDGE, DAMAGED, WRONG_ORDER, EDGE | WRONG_ORDER, EDGE | WRONG_ORDER,
                             DAMAGED | WRONG_ORDER, CUT};

/* ---- The records. ---- */

static void append(struct stream *stream, const struct record *record)
{
    memcpy(stream->bytes + stream->length, record->bytes, record->length);
    stream->length += record->length;
}

/* Mostly measured, for the list to matter; one in four is spoilt. */
static void append_site(struct random *random, struct stream *stream, struct site *site)
{
    struct record record;
    do
        valid_site(random, site);
    while (site->method == DEFAULT_METHOD && !random_one_in(random, 4));
    struct site written = *site;
    uint32_t chance = random_below(random, 100);
    if (chance < 18)
        edge_site(random, &written);
    write_site(&written, &record);
    if (chance >= 18 && chance < 25)
        damage(random, &record);
    append(stream, &record);
}

static void append_minute(struct random *random, struct stream *stream, const struct site *site, uint32_t number, int spoil)
{
    static const uint32_t other[] = {1, 2, 1440, -1u, 0x10000, 0x80000000};
    struct record record;
    struct minute minute;
    valid_minute(random, site, &minute);
    minute.number = number;
    if (spoil & EDGE)
        edge_minute(random, site, &minute);
    if (spoil & WRONG_ORDER)
        minute.number += PICK(random, other);
    write_minute(&minute, &record);
    if (spoil & DAMAGED)
        damage(random, &record);
    append(stream, &record);
}

/* One in ten goes into the third day. */
static void make_stream(struct random *random, struct stream *stream, struct site *site)
{
    uint32_t records = random_one_in(random, 10) ? random_between(random, 1400, MOST_RECORDS) : random_below(random, 40);
    int spoil = PICK(random, spoils);
    uint32_t at = records > 0 ? random_below(random, records) : 0;
    stream->length = 0;
    append_site(random, stream, site);
    for (uint32_t i = 0; i < records; i++)
        append_minute(random, stream, site, i, i == at ? spoil : 0);
    if (spoil & CUT)
        stream->length = random_below(random, (uint32_t)stream->length + 1);
}

/* ---- The lists. ---- */

static int32_t last_day(const struct site *site)
{
    return (int32_t)(reference_year_minutes(site->year) / DAY_MINUTES) - 1;
}

/* Where maintenance of the first days is in time and where it is just not, the ends of what may be listed, or anywhere. */
static int32_t some_day(struct random *random, const struct site *site)
{
    int32_t allowed = site->days, last = last_day(site);
    int32_t round_limits[] = {-allowed - 1, -allowed, 1 - allowed, 2 - allowed, -1, 0, 1, 2, -3660, last};
    int32_t day = PICK(random, round_limits);
    if (random_one_in(random, 3))
        day = (int32_t)random_below(random, (uint32_t)(3661 + last)) - 3660;
    return day < -3660 ? -3660 : day;
}

static int by_day(const void *a, const void *b)
{
    return *(const int32_t *)a - *(const int32_t *)b;
}

/* Rising, each day once. */
static void make_list(struct random *random, const struct site *site, struct host_case *one)
{
    static const size_t counts[] = {0, 1, 1, 2, 3, 5, 20};
    size_t wanted = PICK(random, counts), kept = 0;
    for (size_t i = 0; i < wanted; i++)
        one->days[i] = some_day(random, site);
    qsort(one->days, wanted, sizeof one->days[0], by_day);
    for (size_t i = 0; i < wanted; i++)
        if (kept == 0 || one->days[i] > one->days[kept - 1])
            one->days[kept++] = one->days[i];
    one->count = kept;
}

/* One rule broken, and no other: out of the range but rising, or not rising; 65548 has the low 16 bits of 12. */
static void spoil_list(struct random *random, const struct site *site, struct host_case *one)
{
    int32_t early[] = {-3661, -65548, -1000000}, late[] = {last_day(site) + 1, 65548, 1000000};
    size_t last = one->count - 1, at = random_between(random, 1, (uint32_t)last);
    switch (last == 0 ? random_below(random, 2) : random_below(random, 4)) {
    case 0:
        one->days[0] = PICK(random, early);
        break;
    case 1:
        one->days[last] = PICK(random, late);
        break;
    default:
        one->days[at] = one->days[at - 1] - (int32_t)random_below(random, 2);
    }
}

/* Full to the last place, or one day over it, spread over the range. */
static void long_list(struct random *random, struct host_case *one)
{
    one->count = random_between(random, MOST_DAYS, ROOM_FOR_DAYS);
    for (size_t i = 0; i < one->count; i++)
        one->days[i] = -3660 + (int32_t)(i * 4020 / one->count + random_below(random, 30));
}

/* ---- The comparison. ---- */

static void one_input(struct random *random, const struct hosts *hosts, struct tally *tally)
{
    static struct stream stream;
    char name[64];
    struct host_case one;
    struct outcome outcome;
    struct site site;

    make_stream(random, &stream, &site);
    make_list(random, &site, &one);
    if (random_one_in(random, 16))
        long_list(random, &one);
    if (one.count > 0 && random_one_in(random, 8))
        spoil_list(random, &site, &one);
    struct random pieces = {random_bits(random)}; /* how far a program reads must not change the next input */
    one.feed = (struct feed){.input = stream.bytes, .length = stream.length, .random = &pieces};
    one.feed.largest = (uint32_t)(stream.length / 250) + (1u << random_below(random, 17));
    snprintf(name, sizeof name, "host-input-%llu", (unsigned long long)tally->inputs);
    one.name = name;

    tally->differences += !hosts_agree(hosts, &one, &outcome);
    tally->bytes += stream.length;
    tally->sites[outcome.site_refusal]++;
    tally->minutes[outcome.minute_refusal] += outcome.site_refusal == ACCEPTED;
    for (int i = 0; i < RULES; i++)
        tally->rules[i] += outcome.counts[i];
}

/* A run that does not meet a refusal or a rule says nothing about it, so it fails; a short run is not meant to. */
static int all_met(const struct tally *tally)
{
    uint64_t enough = tally->inputs < MANY ? 0 : 1;
    int good = 1;
    for (int i = LENGTH; i <= OXYGEN; i++) {
        int of_site = i <= LIST, of_minute = i <= VERSION || i >= FLAGS;
        if ((of_site && tally->sites[i] < enough) || (of_minute && tally->minutes[i] < enough)) {
            printf("not met: refusal %d\n", i);
            good = 0;
        }
    }
    for (int i = 0; i < RULES; i++)
        if (tally->rules[i] < enough) {
            printf("not met: rule %d\n", i);
            good = 0;
        }
    return good;
}

int main(int words_count, char **words)
{
    static struct tally tally;
    if (words_count < 6 || strcmp(words[4], "--") != 0)
        return fprintf(stderr, "usage: host_lists inputs seed keep-folder -- command... [-- command...]\n"), 2;
    struct hosts hosts = {.keep = words[3]};
    hosts_after_dashes(words, &hosts);
    uint64_t inputs = strtoull(words[1], NULL, 10);
    struct random random = {strtoull(words[2], NULL, 10)};

    for (; tally.inputs < inputs && tally.differences < SHOWN; tally.inputs++)
        one_input(&random, &hosts, &tally);
    if (tally.differences > 0)
        return 1;
    int good = all_met(&tally);
    printf("host lists: %llu inputs to %zu programs, %llu bytes, %llu lists refused, %llu minutes overdue, %llu measured, "
           "0 differences\n", (unsigned long long)tally.inputs, hosts.count, (unsigned long long)tally.bytes,
           (unsigned long long)tally.sites[LIST], (unsigned long long)tally.rules[7], (unsigned long long)tally.rules[9]);
    return good ? 0 : 1;
}
