/* One function for each call's line. */
#include "desk_calls.h"

#include "desk_lists.h"

const struct site *teller_site(const struct teller *teller)
{
    return teller->desk->open ? &teller->desk->account.site : &teller->spare;
}

static uint32_t next_minute(const struct teller *teller)
{
    return teller->desk->open ? teller->desk->account.next : 0;
}

uint32_t minutes_left(const struct teller *teller)
{
    return reference_year_minutes(teller_site(teller)->year) - next_minute(teller);
}

struct place next_place(struct teller *teller)
{
    static const uint32_t steps[] = {1, 2, 60, 1440, -1u, -2u, 0x10000, 0x80000000};
    uint32_t next = next_minute(teller);
    return (struct place){teller_site(teller), next, next + PICK(&teller->random, steps)};
}

/* ---- A name, and a record. ---- */

static void begin(struct teller *teller, enum call call)
{
    teller->line.length = 0;
    text_words(&teller->line, forms[call].name);
}

static void record_line(struct teller *teller, enum call call, const struct record *record)
{
    begin(teller, call);
    text_hex(&teller->line, &teller->random, record->bytes, record->length);
}

/* Mostly measured, for the list to matter, and often with so few days between maintenance that it matters soon. */
static void some_valid_site(struct random *random, struct site *site)
{
    do
        valid_site(random, site);
    while (site->method == DEFAULT_METHOD && random_one_in(random, 2));
    if (site->method == MEASURED_METHOD && random_one_in(random, 2))
        site->days = (uint16_t)random_between(random, 1, 6);
}

static void line_of_site(struct teller *teller, enum call call)
{
    struct site site;
    struct record record;
    some_valid_site(&teller->random, &site);
    some_site_record(&teller->random, &site, 70, &record);
    record_line(teller, call, &record);
}

/* A minute without a site: in order is every number below 527,040. */
static struct place place_alone(struct teller *teller)
{
    static const uint32_t good[] = {0, 1, 525599, 525600, 527039}, wrong[] = {527040, 527041, 0x80000000, 0xffffffff};
    uint32_t number = random_below(&teller->random, 527040);
    if (random_one_in(&teller->random, 3))
        number = PICK(&teller->random, good);
    return (struct place){teller_site(teller), number, PICK(&teller->random, wrong)};
}

static void minute_line(struct teller *teller)
{
    struct record record;
    struct place place = place_alone(teller);
    some_minute_record(&teller->random, &place, 65, &record);
    record_line(teller, CALL_MINUTE, &record);
}

/* ---- Writing: fields, now and then one at an end of its word's range, and the buffer's size. ---- */

static uint32_t some_room(struct random *random, uint32_t right)
{
    static const uint32_t rooms[] = {0, 1, 24, 25, 26, 29, 30, 31, 53, 54, 55, 255, 256};
    if (random_one_in(random, 1200))
        return random_one_in(random, 2) ? 65535 : 65536 - right;
    return random_one_in(random, 8) ? PICK(random, rooms) : right;
}

static void write_line(struct teller *teller, enum call call, int64_t *fields, uint32_t count)
{
    struct random *random = &teller->random;
    if (random_one_in(random, 8)) {
        int64_t least, most;
        uint32_t field = random_below(random, count);
        ends_of_kind(forms[call].kinds[field], &least, &most);
        fields[field] = random_one_in(random, 3) ? least : most;
    }
    begin(teller, call);
    for (uint32_t i = 0; i < count; i++)
        text_number(&teller->line, random, fields[i]);
    text_number(&teller->line, random, some_room(random, call == CALL_WRITE_SITE ? SITE_BYTES : MINUTE_BYTES));
}

static void write_site_line(struct teller *teller)
{
    struct site site;
    some_valid_site(&teller->random, &site);
    some_site(&teller->random, &site, 60);
    int64_t fields[] = {site.method, site.year, site.gwp, site.height, site.diameter, site.coldest, site.hottest,
                        site.least_flow, site.most_flow, site.days};
    write_line(teller, CALL_WRITE_SITE, fields, 10);
}

static void write_minute_line(struct teller *teller)
{
    struct minute m;
    struct place place = place_alone(teller);
    some_minute(&teller->random, &place, 60, &m);
    int64_t fields[] = {m.number, m.flags, m.temperature, m.litres, m.ppm[CH4], m.ppm[CO], m.ppm[CO2], m.ppm[O2],
                        m.ppm[H2], m.ppm[H2S], m.ppm[NH3], m.ppm[N2], m.exhaust_oxygen, m.exhaust_methane};
    write_line(teller, CALL_WRITE_MINUTE, fields, 14);
}

/* ---- Opening. ---- */

/* An empty list is written as nothing, or as the word alone. */
static void line_of_opening(struct teller *teller, const struct record *record, const struct list *list)
{
    record_line(teller, CALL_OPEN, record);
    if (list->count == 0 && random_one_in(&teller->random, 2))
        return;
    text_words(&teller->line, " days");
    for (size_t i = 0; i < list->count; i++) {
        if (list->days[i] == 0 && random_one_in(&teller->random, 4))
            text_words(&teller->line, " -0");
        else
            text_number(&teller->line, &teller->random, list->days[i]);
    }
}

void opening_line(struct teller *teller)
{
    struct record record;
    struct list list;
    some_valid_site(&teller->random, &teller->spare);
    write_site(&teller->spare, &record);
    valid_list(&teller->random, &teller->spare, &list);
    line_of_opening(teller, &record, &list);
}

/* Refused mostly, by the site, by the list, or by both. */
static void open_line(struct teller *teller)
{
    struct site site;
    struct record record;
    struct list list;
    some_valid_site(&teller->random, &site);
    some_site_record(&teller->random, &site, 75, &record);
    if (random_one_in(&teller->random, 3))
        wrong_list(&teller->random, &site, &list);
    else
        valid_list(&teller->random, &site, &list);
    line_of_opening(teller, &record, &list);
}

/* ---- Minutes for the account. ---- */

static void add_line(struct teller *teller)
{
    struct record record;
    struct place place = next_place(teller);
    some_minute_record(&teller->random, &place, 40, &record);
    record_line(teller, CALL_ADD, &record);
}

/* Whether the account would take this record under the minute that it expects. */
static int is_taken(const struct teller *teller, const struct record *record)
{
    struct account account = teller->desk->account;
    struct figures figures;
    uint8_t bytes[RECORD_ROOM];
    if (!teller->desk->open || record->length != MINUTE_BYTES)
        return 0;
    for (size_t i = 0; i < MINUTE_BYTES; i++)
        bytes[i] = i >= 3 && i < 7 ? (uint8_t)(account.next >> 8 * (6 - i)) : record->bytes[i];
    return reference_add(&account, bytes, MINUTE_BYTES, &figures) == ACCEPTED;
}

static void line_of_fill(struct teller *teller, uint32_t count, const struct record *record)
{
    begin(teller, CALL_FILL);
    text_number(&teller->line, &teller->random, count);
    text_hex(&teller->line, &teller->random, record->bytes, record->length);
}

/* A record that is taken is not put in by the hundred thousand here: that is for fill_up_to. */
static void fill_line(struct teller *teller)
{
    uint32_t few[] = {0, 1, 1, 2, 3, 10, 40}, left = minutes_left(teller);
    uint32_t many[] = {0, 1, 2, left - 1, left, left + 1, 525600, 527041, 0x80000000, 0xffffffff};
    struct record record;
    struct place place = next_place(teller);
    if (random_one_in(&teller->random, 2))
        place.number = place.wrong; /* it gets the right one */
    some_minute_record(&teller->random, &place, 50, &record);
    int long_one = left < 3000 || !is_taken(teller, &record);
    line_of_fill(teller, long_one ? PICK(&teller->random, many) : PICK(&teller->random, few), &record);
}

/* The most methane that a minute can have, all of it emitted: the largest sums, and whole tonnes where the GWP is 100. */
static void heaviest_minute(struct record *record)
{
    struct minute minute = {.litres = 100000, .ppm[CH4] = 1000000};
    write_minute(&minute, record);
}

/* Sometimes by more than is left of the year, where that is the end: the last is refused. */
void fill_up_to(struct teller *teller, uint32_t minute)
{
    struct record record;
    struct place place = next_place(teller);
    uint32_t count = minute - place.number;
    some_minute_record(&teller->random, &place, 0, &record);
    if (random_one_in(&teller->random, place.site->gwp == 100 ? 2 : 6))
        heaviest_minute(&record);
    if (count == minutes_left(teller) && random_one_in(&teller->random, 2))
        count = random_one_in(&teller->random, 2) ? count + 1 : 0xffffffff;
    line_of_fill(teller, count, &record);
}

/* ---- Months. ---- */

/* By the days of an ordinary year up to its end; a leap year has one more from February on. */
uint32_t month_end(const struct teller *teller, uint32_t month)
{
    static const uint32_t days[MONTHS] = {31, 59, 90, 120, 151, 181, 212, 243, 273, 304, 334, 365};
    return DAY_MINUTES * (days[month - 1] + (month >= 2 && teller_site(teller)->year % 4 == 0));
}

void month_line(struct teller *teller, uint32_t month)
{
    begin(teller, CALL_MONTH);
    text_number(&teller->line, &teller->random, month);
}

/* The one that the account is in or beside it, any from 0 to 13, or a number whose last bits may be a month's. */
static void some_month_line(struct teller *teller)
{
    static const uint32_t far[] = {14, 255, 256, 257, 268, 0x10000, 0x10001, 0x1000001, 0x80000001, 0xffffffff};
    struct random *random = &teller->random;
    uint32_t month = 1;
    while (month <= MONTHS && next_minute(teller) >= month_end(teller, month))
        month++;
    switch (random_below(random, 8)) {
    case 0:
        month = PICK(random, far);
        break;
    case 1:
    case 2:
        month = random_below(random, MONTHS + 2);
        break;
    default:
        month += random_below(random, 3) - 1;
    }
    month_line(teller, month);
}

/* ---- The single minute. ---- */

static void single_line(struct teller *teller)
{
    struct random *random = &teller->random;
    struct site site;
    struct minute minute;
    struct record site_record, minute_record;
    some_valid_site(random, &site);
    uint32_t minutes = reference_year_minutes(site.year);
    uint32_t wrong[] = {minutes, minutes + 1, 527040, 0x80000000, 0xffffffff};
    struct place place = {&site, random_below(random, minutes), 0};
    place.wrong = PICK(random, wrong);
    if (random_one_in(random, 4))
        place.number = minutes - 1;
    some_minute_record(random, &place, 45, &minute_record);
    if (random_one_in(random, 16)) {
        near_whole_minute(random, &site, &minute);
        write_minute(&minute, &minute_record);
    }
    some_site_record(random, &site, 35, &site_record);
    begin(teller, CALL_SINGLE);
    text_hex(&teller->line, random, site_record.bytes, site_record.length);
    text_hex(&teller->line, random, minute_record.bytes, minute_record.length);
    text_number(&teller->line, random, days_since(random, &site));
    text_number(&teller->line, random, some_room(random, ANSWER_BYTES));
}

/* ---- Any of them. ---- */

void call_line(struct teller *teller, enum call call)
{
    static void (*const makers[CALLS])(struct teller *) = {
        [CALL_MINUTE] = minute_line, [CALL_WRITE_SITE] = write_site_line, [CALL_WRITE_MINUTE] = write_minute_line,
        [CALL_OPEN] = open_line, [CALL_ADD] = add_line, [CALL_FILL] = fill_line, [CALL_CHECK] = check_line,
        [CALL_PART] = part_line, [CALL_MONTH] = some_month_line, [CALL_SINGLE] = single_line,
    };
    if (makers[call] != NULL)
        makers[call](teller);
    else if (call == CALL_SITE || call == CALL_CLASS)
        line_of_site(teller, call);
    else
        begin(teller, call);
}
