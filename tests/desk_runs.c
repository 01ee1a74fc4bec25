/* Runs of minute records: whole, cut, with one record spoilt, beginning elsewhere; of a few records or of days. */
#include "desk_calls.h"

enum { DAY_BYTES = DAY_MINUTES * MINUTE_BYTES, NOT_SPOILT = -1 };
/* What fits into the longest line after the name, and a day with zeros before it. */
enum { MOST_RUN = (LONGEST - 60) / 2 };

/* ---- Checking. ---- */

static uint32_t how_many(struct random *random)
{
    if (random_one_in(random, 120))
        return random_one_in(random, 16) ? MOST_RUN / MINUTE_BYTES : random_between(random, 1441, 2200);
    return random_one_in(random, 12) ? 0 : random_between(random, 1, random_one_in(random, 3) ? 10 : 4);
}

/* Mostly still as long as a record, so that the run stays one of whole records. */
static void spoilt_record(struct random *random, const struct place *place, struct record *record)
{
    some_minute_record(random, place, 100, record);
    if (record->length == MINUTE_BYTES || random_one_in(random, 4))
        return;
    for (size_t i = record->length; i < MINUTE_BYTES; i++)
        record->bytes[i] = 0;
    uint32_t bit = random_below(random, 16);
    record->bytes[bit / 8] ^= (uint8_t)(1u << bit % 8);
    record->length = MINUTE_BYTES;
}

static void make_run(struct teller *teller, struct place place, uint32_t records, int64_t spoilt)
{
    struct record record;
    teller->run.length = 0;
    for (uint32_t i = 0; i < records; i++, place.number++, place.wrong++) {
        if (i == spoilt)
            spoilt_record(&teller->random, &place, &record);
        else
            some_minute_record(&teller->random, &place, 0, &record);
        text_add(&teller->run, record.bytes, record.length);
    }
}

/* Less than a record at its end, or a record's part more. */
static void cut_run(struct random *random, struct text *run)
{
    if (run->length > 0 && random_one_in(random, 2))
        run->length -= random_between(random, 1, run->length < MINUTE_BYTES ? (uint32_t)run->length : MINUTE_BYTES);
    else
        text_fill(run, 0, random_between(random, 1, MINUTE_BYTES));
}

void check_line(struct teller *teller)
{
    struct random *random = &teller->random;
    struct place place = next_place(teller);
    uint32_t records = how_many(random);
    int64_t spoilt = NOT_SPOILT;
    if (records > 0 && random_one_in(random, 2))
        spoilt = random_below(random, records);
    if (random_one_in(random, 12))
        place.number = place.wrong;
    make_run(teller, place, records, spoilt);
    if (random_one_in(random, 8))
        cut_run(random, &teller->run);
    if (teller->run.length > MOST_RUN)
        teller->run.length = MOST_RUN;
    teller->line.length = 0;
    text_words(&teller->line, forms[CALL_CHECK].name);
    text_hex(&teller->line, random, teller->run.bytes, teller->run.length);
}

/* ---- The part of a day: no record is looked at, so any bytes do. ---- */

/* A run of whole days, of a byte less or more, or the longest; the day asked for is mostly one of them, or the next. */
static size_t run_of_days(struct random *random, uint32_t *day)
{
    static const int more[] = {-1, 0, 0, 0, 1};
    uint32_t days = random_one_in(random, 5) ? 2 : 1, next = (uint32_t)random_one_in(random, 8);
    if (!random_one_in(random, 10))
        *day = random_below(random, days + next);
    if (random_one_in(random, 24))
        return MOST_RUN;
    return (size_t)((int)days * DAY_BYTES + PICK(random, more));
}

void part_line(struct teller *teller)
{
    static const uint32_t days[] = {0, 0, 1, 1, 2, 6, 7, 364, 365, 67108864, 0x80000000, 0xffffffff};
    struct random *random = &teller->random;
    size_t length = random_below(random, random_one_in(random, 3) ? 10 * MINUTE_BYTES : 80);
    uint32_t day = PICK(random, days);
    if (random_one_in(random, 24))
        length = run_of_days(random, &day);
    teller->run.length = 0;
    for (size_t i = 0; i < length; i += 8) {
        uint64_t bits = random_bits(random);
        text_add(&teller->run, &bits, length - i < 8 ? length - i : 8);
    }
    teller->line.length = 0;
    text_words(&teller->line, forms[CALL_PART].name);
    text_number(&teller->line, random, day);
    text_hex(&teller->line, random, teller->run.bytes, length);
}
