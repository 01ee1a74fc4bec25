/* Many small inputs through the program, in pieces.
 * Usage: program_inputs flare|months inputs seed keep-folder -- command... */
#include "texts.h"

#include <stdio.h>
#include <stdlib.h>
#include <string.h>

enum { MOST_RECORDS = 6000, ENOUGH = 3, SHOWN = 3 };
enum { INPUT_ROOM = RECORD_ROOM * 2 + MOST_RECORDS * MINUTE_BYTES + RECORD_ROOM + 256 };

struct stream {
    uint8_t bytes[INPUT_ROOM];
    size_t length;
};

struct tally {
    uint64_t inputs, bytes, pieces, waits, differences, cut, closed, records;
    uint64_t sites[REFUSALS], minutes[REFUSALS];
};

/* What goes wrong with one record of the input, or with its end. */
enum spoil { WHOLE, EDGE, DAMAGED, WRONG_ORDER, CUT, EXTRA, SPOILS };

static void append(struct stream *stream, const struct record *record)
{
    memcpy(stream->bytes + stream->length, record->bytes, record->length);
    stream->length += record->length;
}

/* Four in five are accepted, and the minutes are made for the site as it was before it was spoilt. */
static void append_site(struct random *random, struct stream *stream, struct site *site)
{
    struct record record;
    struct site written;
    valid_site(random, site);
    written = *site;
    uint32_t chance = random_below(random, 100);
    if (chance < 15)
        edge_site(random, &written);
    write_site(&written, &record);
    if (chance >= 15 && chance < 22)
        damage(random, &record);
    append(stream, &record);
}

static void append_minute(struct random *random, struct stream *stream, const struct site *site, uint32_t number,
                          enum spoil spoil)
{
    static const uint32_t other[] = {1, 2, 60, 1440, -1u, -2u, 0x10000, 0x80000000};
    struct record record;
    struct minute minute;
    valid_minute(random, site, &minute);
    minute.number = number;
    if (spoil == EDGE)
        edge_minute(random, site, &minute);
    if (spoil == WRONG_ORDER)
        minute.number += other[random_below(random, 8)];
    write_minute(&minute, &record);
    if (spoil == DAMAGED)
        damage(random, &record);
    append(stream, &record);
}

static uint32_t how_many(struct random *random, uint64_t input)
{
    if (input % 100 == 99)
        return random_between(random, 1300, MOST_RECORDS); /* the program's 64 KB hold 1,213 records */
    if (random_one_in(random, 4))
        return random_between(random, 20, 400);
    return random_below(random, 20);
}

/* Nothing, inside the site, just after it, just after a record, or anywhere. */
static void cut(struct random *random, struct stream *stream)
{
    size_t records = stream->length > SITE_BYTES ? (stream->length - SITE_BYTES) / MINUTE_BYTES : 0;
    size_t places[] = {0, random_below(random, SITE_BYTES), SITE_BYTES,
                       SITE_BYTES + MINUTE_BYTES * random_below(random, (uint32_t)records + 1)};
    uint32_t kind = random_below(random, 16);
    size_t place = kind < 4 ? places[kind] : random_below(random, (uint32_t)stream->length + 1);
    if (place < stream->length)
        stream->length = place;
}

static void make_input(struct random *random, uint64_t input, struct stream *stream)
{
    struct site site;
    uint32_t records = how_many(random, input);
    enum spoil spoil = random_below(random, SPOILS);
    uint32_t at = records > 0 ? random_below(random, records) : 0;

    stream->length = 0;
    if (input == 0)
        return; /* the empty input */
    append_site(random, stream, &site);
    for (uint32_t i = 0; i < records; i++)
        append_minute(random, stream, &site, i, i == at ? spoil : WHOLE);
    if (spoil == CUT)
        cut(random, stream);
    for (uint32_t extra = spoil == EXTRA ? random_between(random, 1, 200) : 0; extra > 0; extra--)
        stream->bytes[stream->length++] = (uint8_t)random_bits(random);
}

/* Byte by byte up to whole pipes; a long input in no more than some 500 pieces, for the time it takes. */
static struct feed make_feed(struct random *random, const struct stream *stream)
{
    static const uint32_t waits[] = {0, 1, 1, 3, 10};
    struct feed feed = {.input = stream->bytes, .length = stream->length, .random = random, .errors = "/dev/null"};
    uint32_t least = (uint32_t)(stream->length / 250) + 1;
    feed.largest = 1u << random_below(random, 17);
    if (feed.largest < least)
        feed.largest = least;
    feed.wait = waits[random_below(random, 5)];
    return feed;
}

static void count(struct tally *tally, const struct feed *feed, const struct outcome *outcome, const struct answer *answer)
{
    tally->bytes += feed->length;
    tally->pieces += answer->pieces;
    tally->waits += answer->waits;
    tally->sites[outcome->site_refusal]++;
    tally->minutes[outcome->minute_refusal] += outcome->site_refusal == ACCEPTED;
    tally->cut += (uint64_t)outcome->cut;
    tally->closed += (uint64_t)outcome->closed;
    for (int i = 0; i < RULES; i++)
        tally->records += outcome->counts[i];
}

static void one_input(struct random *random, enum program program, char **command, const char *keep, struct tally *tally)
{
    static struct stream stream;
    char name[64];
    struct outcome outcome;
    struct answer answer;
    size_t length;

    make_input(random, tally->inputs, &stream);
    struct random pieces = {random_bits(random)}; /* how far the program reads must not change the next input */
    struct feed feed = make_feed(&pieces, &stream);
    char *expected = reference_text(program, &feed, &length, &outcome);
    run_program(command, &feed, &answer);
    snprintf(name, sizeof name, "input-%llu", (unsigned long long)tally->inputs);
    tally->differences += !texts_agree(name, &feed, expected, length, &answer, keep);
    count(tally, &feed, &outcome, &answer);
    free(expected);
    free(answer.text);
}

/* A run with too few of a kind says nothing about it, so it fails; a short run is not meant to meet them all. */
static int all_met(const struct tally *tally)
{
    uint64_t enough = tally->inputs < 1000 ? 0 : ENOUGH;
    int good = 1;
    for (int i = LENGTH; i <= OXYGEN; i++) {
        int of_site = i <= SCHEDULE, of_minute = i <= VERSION || i >= FLAGS;
        if (of_site)
            printf("  site refused %2d: %5llu\n", i, (unsigned long long)tally->sites[i]);
        if (of_minute)
            printf("  minute refused %2d: %5llu\n", i, (unsigned long long)tally->minutes[i]);
        if ((of_site && tally->sites[i] < enough) || (of_minute && tally->minutes[i] < enough)) {
            printf("too few: refusal %d\n", i);
            good = 0;
        }
    }
    return good;
}

int main(int words_count, char **words)
{
    char **command = command_after_dashes(words);
    if (words_count < 7 || command != words + 6)
        return fprintf(stderr, "usage: program_inputs flare|months inputs seed keep-folder -- command...\n"), 2;
    enum program program = program_named(words[1]);
    uint64_t inputs = strtoull(words[2], NULL, 10);
    struct random random = {strtoull(words[3], NULL, 10)};
    static struct tally tally;

    for (; tally.inputs < inputs && tally.differences < SHOWN; tally.inputs++)
        one_input(&random, program, command, words[4], &tally);
    if (tally.differences > 0)
        return 1;
    int good = all_met(&tally);
    printf("%s: %llu, %llu bytes in %llu pieces (%llu waited for), %llu minutes accepted, "
           "%llu whole inputs, %llu cut records, %llu closed years, 0 differences\n",
           program == FLARE_PROGRAM ? "program inputs" : "months inputs", (unsigned long long)tally.inputs,
           (unsigned long long)tally.bytes, (unsigned long long)tally.pieces, (unsigned long long)tally.waits,
           (unsigned long long)tally.records, (unsigned long long)tally.minutes[ACCEPTED], (unsigned long long)tally.cut,
           (unsigned long long)tally.closed);
    return good ? 0 : 1;
}
