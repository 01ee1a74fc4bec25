/* flare_minute against reference_minute: number, answer, and every lent byte. Usage: host_calls [calls] [seed] */
#include "flare.h"
#include "hex.h"
#include "inputs.h"

#include <stdio.h>
#include <stdlib.h>
#include <string.h>

_Static_assert(SITE_BYTES == FLARE_SITE_BYTES && MINUTE_BYTES == FLARE_MINUTE_BYTES, "the header has other records");
_Static_assert(ANSWER_BYTES == FLARE_ANSWER_BYTES && RULES == FLARE_RULES, "the header has another answer");

enum { GUARD = 16, ANSWER_ROOM = 26, FRAME = GUARD + ANSWER_ROOM + GUARD, ENOUGH = 1000, SHOWN = 3 };

struct call {
    struct record site, minute;
    uint16_t days;
    size_t answer_length;
    uint8_t frame[FRAME]; /* the answer between two guards, filled with chance */
    int near_whole;
};

struct tally {
    uint64_t calls, differences, near_whole, measured_above_0;
    uint64_t refusals[256], rules[256];
};

typedef uint8_t minute_call(const uint8_t *, size_t, const uint8_t *, size_t, uint16_t, uint8_t *, size_t);

/* ---- One call's input. ---- */

static size_t answer_length(struct random *random)
{
    static const size_t wrong[] = {24, 26, 0, 1};
    return random_one_in(random, 50) ? wrong[random_below(random, 4)] : ANSWER_BYTES;
}

/* Up to three edges at once, so that the order of the refusals is tried too. */
static void move_to_edges(struct random *random, struct site *site, struct minute *minute)
{
    uint32_t edges = random_one_in(random, 8) ? random_between(random, 2, 3) : 1;
    struct site accepted = *site;
    for (; edges > 0; edges--) {
        if (random_one_in(random, 3))
            edge_site(random, site);
        else
            edge_minute(random, &accepted, minute);
    }
}

static void make_call(struct random *random, struct call *call)
{
    struct site site;
    struct minute minute;
    valid_site(random, &site);
    valid_minute(random, &site, &minute);
    call->near_whole = random_one_in(random, 50);
    if (call->near_whole)
        near_whole_minute(random, &site, &minute);
    else if (random_one_in(random, 2))
        move_to_edges(random, &site, &minute);
    call->days = call->near_whole ? 0 : days_since(random, &site);

    for (size_t i = 0; i < RECORD_ROOM; i++)
        call->site.bytes[i] = call->minute.bytes[i] = (uint8_t)i;
    write_site(&site, &call->site);
    write_minute(&minute, &call->minute);
    if (random_one_in(random, 16))
        damage(random, &call->site);
    if (random_one_in(random, 12))
        damage(random, &call->minute);

    call->answer_length = answer_length(random);
    for (size_t i = 0; i < FRAME; i++)
        call->frame[i] = (uint8_t)random_bits(random);
}

/* ---- One call's answers. ---- */

static uint8_t answer_of(minute_call *one, struct call *call)
{
    return one(call->site.bytes, call->site.length, call->minute.bytes, call->minute.length, call->days,
               call->frame + GUARD, call->answer_length);
}

static void print_answer(const char *name, uint8_t number, const struct call *call)
{
    char words[64];
    snprintf(words, sizeof words, "%s %u, answer", name, number);
    print_hex(words, call->frame + GUARD, ANSWER_BYTES);
}

static const char *kind_of_difference(const struct call *before, const struct call *flare, const struct call *reference,
                                      int numbers_differ)
{
    if (numbers_differ)
        return "number";
    if (memcmp(flare->frame + GUARD, reference->frame + GUARD, ANSWER_BYTES) != 0)
        return "answer";
    if (memcmp(flare->frame, reference->frame, FRAME) != 0) /* the reference writes the answer only */
        return "bytes beside the answer written";
    if (memcmp(flare->site.bytes, before->site.bytes, RECORD_ROOM) != 0)
        return "site bytes written";
    if (memcmp(flare->minute.bytes, before->minute.bytes, RECORD_ROOM) != 0)
        return "minute bytes written";
    return NULL;
}

/* A measured minute that destroys something: where the equations decide more than that the efficiency is 0. */
static int destroys(const uint8_t *answer)
{
    static const uint8_t nothing[8];
    return answer[24] == 9 && memcmp(answer + 16, nothing, 8) != 0;
}

static void compare(const struct call *before, struct tally *tally)
{
    struct call flare = *before, reference = *before;
    uint8_t flare_number = answer_of(flare_minute, &flare);
    uint8_t number = answer_of(reference_minute, &reference);
    const char *kind = kind_of_difference(before, &flare, &reference, flare_number != number);

    tally->refusals[number]++;
    tally->rules[reference.frame[GUARD + 24]] += number == ACCEPTED;
    tally->near_whole += (uint64_t)(before->near_whole && number == ACCEPTED);
    tally->measured_above_0 += number == ACCEPTED && destroys(reference.frame + GUARD);
    if (kind == NULL)
        return;
    tally->differences++;
    printf("difference at call %llu: %s\n", (unsigned long long)tally->calls, kind);
    print_hex("site", before->site.bytes, before->site.length);
    print_hex("minute", before->minute.bytes, before->minute.length);
    printf("  days %u, answer length %zu\n", before->days, before->answer_length);
    print_hex("answer before", before->frame + GUARD, ANSWER_BYTES);
    print_answer("flare_minute    ", flare_number, &flare);
    print_answer("reference_minute", number, &reference);
}

/* ---- What was met. ---- */

static int enough(const char *name, unsigned number, uint64_t count)
{
    printf("  %s %2u: %8llu\n", name, number, (unsigned long long)count);
    if (count >= ENOUGH)
        return 1;
    printf("too few: %s %u was met %llu times, not %d\n", name, number, (unsigned long long)count, ENOUGH);
    return 0;
}

static int all_met(const struct tally *tally)
{
    int good = 1;
    for (unsigned refusal = LENGTH; refusal <= BUFFER; refusal++)
        if (refusal <= SCHEDULE || (refusal >= FLAGS && refusal <= OXYGEN) || refusal == BUFFER)
            good &= enough("refusal", refusal, tally->refusals[refusal]);
    for (unsigned rule = 0; rule < RULES; rule++)
        good &= enough("rule", rule, tally->rules[rule]);
    return good;
}

int main(int count, char **words)
{
    uint64_t calls = count > 1 ? strtoull(words[1], NULL, 10) : 2000000;
    struct random random = {count > 2 ? strtoull(words[2], NULL, 10) : 1};
    static struct tally tally;
    static struct call call;

    for (; tally.calls < calls && tally.differences < SHOWN; tally.calls++) {
        make_call(&random, &call);
        compare(&call, &tally);
    }
    if (tally.differences > 0)
        return 1;
    int good = all_met(&tally);
    printf("host calls: %llu, %llu accepted, %llu measured above 0, %llu within a nanogram of a whole mg, 0 differences\n",
           (unsigned long long)tally.calls, (unsigned long long)tally.refusals[ACCEPTED],
           (unsigned long long)tally.measured_above_0, (unsigned long long)tally.near_whole);
    return good ? 0 : 1;
}
