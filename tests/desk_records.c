/* Two causes at once are neighbours in 01's order mostly: they show which of the two is asked first. */
#include "desk_records.h"

#include <string.h>

/* Causes as a set: bit n for refusal n. */
#define CAUSE(n) (1u << (n))

static const uint8_t site_order[] = {LENGTH, VERSION, METHOD, YEAR, GWP, SIZE, SPEC, OPEN, SCHEDULE};
static const uint8_t minute_order[] = {LENGTH, VERSION, FLAGS, ORDER, FLOW, COMPOSITION, METHANE, TEMPERATURE, EXHAUST,
                                       OXYGEN};

enum way { FINE, EDGE, CAUSES, DAMAGED };

static enum way some_way(struct random *random, uint32_t spoilt)
{
    static const enum way ways[] = {EDGE, EDGE, EDGE, CAUSES, CAUSES, CAUSES, CAUSES, CAUSES, DAMAGED};
    return random_below(random, 100) < spoilt ? PICK(random, ways) : FINE;
}

/* One, two neighbours, or any two. */
static uint32_t some_causes(struct random *random, const uint8_t *order, uint32_t count)
{
    uint32_t first = random_below(random, count), second = first;
    if (random_one_in(random, 3))
        second = (first + 1) % count;
    else if (random_one_in(random, 4))
        second = random_below(random, count);
    return CAUSE(order[first]) | CAUSE(order[second]);
}

/* ---- Causes in the bytes: the length and the version. ---- */

static void break_length(struct random *random, struct record *record)
{
    static const uint8_t lows[] = {0, 27, 28, 29, 30, 51, 52, 53, 54, 255};
    size_t length = record->length;
    uint8_t low = record->bytes[1];
    switch (random_below(random, 5)) {
    case 0:
        record->length = length - 1;
        break;
    case 1:
        record->length = random_below(random, (uint32_t)length);
        break;
    case 2:
        record->length = length + random_between(random, 1, 3);
        memset(record->bytes + length, 0, 3);
        break;
    case 3:
        record->bytes[0] = (uint8_t)random_between(random, 1, 255);
        break;
    default:
        while (record->bytes[1] == low)
            record->bytes[1] = PICK(random, lows);
    }
}

static void break_bytes(struct random *random, uint32_t causes, struct record *record)
{
    static const uint8_t versions[] = {0, 2, 3, 129, 255};
    if (causes & CAUSE(VERSION))
        record->bytes[2] = PICK(random, versions);
    if (causes & CAUSE(LENGTH))
        break_length(random, record);
}

/* ---- Causes in a site's fields. ---- */

static void break_spec(struct random *random, struct site *site)
{
    static const int16_t temperatures[] = {-501, 15001, -32768, 32767};
    static const uint32_t flows[] = {100001, 0x80000000, 0xffffffff};
    int16_t *limit = random_one_in(random, 2) ? &site->coldest : &site->hottest;
    uint32_t *flow = random_one_in(random, 2) ? &site->least_flow : &site->most_flow;
    switch (random_below(random, 4)) {
    case 0:
        *limit = PICK(random, temperatures);
        break;
    case 1:
        *flow = PICK(random, flows);
        break;
    case 2:
        site->coldest = (int16_t)(site->hottest + 1);
        break;
    default:
        site->least_flow = site->most_flow + 1;
    }
}

static void break_size(struct random *random, struct site *site)
{
    static const uint32_t heights[] = {100001, 0x80000000, 0xffffffff}, diameters[] = {0, 100001, 0x80000001, 0xffffffff};
    if (random_one_in(random, 2))
        site->height = PICK(random, heights);
    else
        site->diameter = PICK(random, diameters);
}

static void make_open(struct random *random, struct site *site)
{
    uint32_t most = site->diameter > 50000 ? 100000 : 2 * site->diameter;
    site->method = MEASURED_METHOD;
    site->height = random_one_in(random, 2) ? most : random_below(random, most + 1);
}

static void break_site(struct random *random, uint32_t causes, struct site *site)
{
    static const uint8_t methods[] = {2, 3, 128, 255};
    static const uint16_t years[] = {0, 1999, 2100, 65535}, gwps[] = {0, 101, 65535}, schedules[] = {3661, 65535};
    if (causes & CAUSE(OPEN))
        make_open(random, site);
    if (causes & CAUSE(METHOD))
        site->method = PICK(random, methods);
    if (causes & CAUSE(YEAR))
        site->year = PICK(random, years);
    if (causes & CAUSE(GWP))
        site->gwp = PICK(random, gwps);
    if (causes & CAUSE(SIZE))
        break_size(random, site);
    if (causes & CAUSE(SPEC))
        break_spec(random, site);
    if (causes & CAUSE(SCHEDULE))
        site->days = site->method == MEASURED_METHOD && random_one_in(random, 2) ? 0 : PICK(random, schedules);
}

/* ---- Causes in a minute's fields. ---- */

/* CH4 nothing or one below a gas that must not exceed it; with O2 enough for a negative S where that is wanted. */
static void break_methane(struct random *random, uint32_t *ppm, int oxygen)
{
    static const int rivals[] = {CO, H2, H2S, NH3};
    uint32_t methane = random_one_in(random, 3) ? 0 : random_between(random, 1, 150000);
    memset(ppm, 0, COMPONENTS * sizeof *ppm);
    ppm[CH4] = methane;
    ppm[PICK(random, rivals)] = methane == 0 ? 0 : methane + 1;
    ppm[O2] = oxygen ? 4 * methane + 10 : 0;
    ppm[N2] = 1000000;
    for (int i = 0; i < N2; i++)
        ppm[N2] -= ppm[i];
}

static void break_oxygen(struct random *random, uint32_t *ppm)
{
    memset(ppm, 0, COMPONENTS * sizeof *ppm);
    ppm[CH4] = random_between(random, 1, 300000);
    ppm[O2] = 2 * ppm[CH4] + random_between(random, 1, 1000);
    ppm[N2] = 1000000 - ppm[CH4] - ppm[O2];
}

static void break_gas(struct random *random, uint32_t causes, struct minute *minute)
{
    static const uint32_t much[] = {100001, 0x80000000, 0xffffffff}, far[] = {1000001, 0x80000000, 0xffffffff};
    uint32_t *inert = minute->ppm + (random_one_in(random, 2) ? CO2 : N2);
    if (minute->litres == 0 && causes & (CAUSE(COMPOSITION) | CAUSE(METHANE) | CAUSE(OXYGEN)))
        minute->litres = random_between(random, 1, 100000);
    if (causes & CAUSE(OXYGEN)) {
        minute->flags |= EXHAUST_PRESENT;
        break_oxygen(random, minute->ppm);
    }
    if (causes & CAUSE(METHANE))
        break_methane(random, minute->ppm, (causes & CAUSE(OXYGEN)) != 0);
    if (causes & CAUSE(COMPOSITION))
        *inert = random_one_in(random, 2) ? PICK(random, far) : *inert + 1;
    if (causes & CAUSE(FLOW))
        minute->litres = PICK(random, much);
}

static void break_exhaust(struct random *random, struct minute *minute)
{
    static const uint32_t oxygen[] = {210000, 0x80000000, 0xffffffff}, methane[] = {50001, 0x80000000, 0xffffffff};
    int present = minute->flags & EXHAUST_PRESENT;
    if (random_one_in(random, 2))
        minute->exhaust_oxygen = present ? PICK(random, oxygen) : 1;
    else
        minute->exhaust_methane = present ? PICK(random, methane) : 1;
}

static void break_readings(struct random *random, uint32_t causes, struct minute *minute)
{
    static const int16_t present[] = {-501, 15001, -32768, 32767}, absent[] = {-1, 1, 9000, -32768};
    if (causes & CAUSE(TEMPERATURE))
        minute->temperature = minute->flags & TEMPERATURE_PRESENT ? PICK(random, present) : PICK(random, absent);
    if (causes & CAUSE(EXHAUST))
        break_exhaust(random, minute);
    if (causes & CAUSE(FLAGS))
        minute->flags |= (uint8_t)(8u << random_below(random, 5));
}

/* ---- Records. ---- */

void some_site(struct random *random, struct site *site, uint32_t spoilt)
{
    enum way way = some_way(random, spoilt);
    if (way == CAUSES)
        break_site(random, some_causes(random, site_order, sizeof site_order), site);
    for (uint32_t edges = way == EDGE ? random_between(random, 1, 2) : 0; edges > 0; edges--)
        edge_site(random, site);
}

void some_site_record(struct random *random, const struct site *site, uint32_t spoilt, struct record *record)
{
    enum way way = some_way(random, spoilt);
    uint32_t causes = way == CAUSES ? some_causes(random, site_order, sizeof site_order) : 0;
    struct site written = *site;
    break_site(random, causes, &written);
    for (uint32_t edges = way == EDGE ? random_between(random, 1, 2) : 0; edges > 0; edges--)
        edge_site(random, &written);
    write_site(&written, record);
    break_bytes(random, causes, record);
    if (way == DAMAGED)
        damage(random, record);
}

/* The causes that are in the fields; those in the bytes are given back. */
static uint32_t spoil_minute(struct random *random, const struct place *place, enum way way, struct minute *minute)
{
    uint32_t causes = way == CAUSES ? some_causes(random, minute_order, sizeof minute_order) : 0;
    break_gas(random, causes, minute);
    break_readings(random, causes, minute);
    if (causes & CAUSE(ORDER))
        minute->number = place->wrong;
    for (uint32_t edges = way == EDGE ? random_between(random, 1, 2) : 0; edges > 0; edges--)
        edge_minute(random, place->site, minute);
    return causes;
}

void some_minute(struct random *random, const struct place *place, uint32_t spoilt, struct minute *minute)
{
    valid_minute(random, place->site, minute);
    minute->number = place->number;
    spoil_minute(random, place, some_way(random, spoilt), minute);
}

void some_minute_record(struct random *random, const struct place *place, uint32_t spoilt, struct record *record)
{
    struct minute minute;
    enum way way = some_way(random, spoilt);
    valid_minute(random, place->site, &minute);
    minute.number = place->number;
    uint32_t causes = spoil_minute(random, place, way, &minute);
    write_minute(&minute, record);
    break_bytes(random, causes, record);
    if (way == DAMAGED)
        damage(random, record);
}
