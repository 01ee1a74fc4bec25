/* Records moved to the boundaries of 01, and damaged ones: some are refused, some are just not. */
#include "inputs.h"

#include <string.h>

#define PICK(random, list) ((list)[random_below(random, sizeof(list) / sizeof(list)[0])])

static const uint32_t beyond = 0xffffffff;

/* ---- Sites. ---- */

static void edge_of_spec(struct random *random, struct site *site)
{
    static const int16_t temperatures[] = {-501, -500, 15000, 15001, -32768, 32767, -1, 0};
    static const uint32_t flows[] = {0, 100000, 100001, 0xffffffff, 0x80000000};
    switch (random_below(random, 6)) {
    case 0:
        site->coldest = PICK(random, temperatures);
        break;
    case 1:
        site->hottest = PICK(random, temperatures);
        break;
    case 2: /* equal, or reversed by one */
        site->coldest = (int16_t)(site->hottest + (int16_t)random_below(random, 2));
        break;
    case 3:
        site->least_flow = PICK(random, flows);
        break;
    case 4:
        site->most_flow = PICK(random, flows);
        break;
    default:
        site->least_flow = site->most_flow + random_below(random, 2);
    }
}

static void edge_of_size(struct random *random, struct site *site)
{
    uint32_t d = site->diameter;
    uint32_t heights[] = {0, 2 * d, 2 * d + 1, 10 * d, 10 * d + 1, 100000, 100001, beyond, 0x80000000};
    static const uint32_t diameters[] = {0, 1, 50000, 100000, 100001, 0xffffffff, 0x80000001};
    if (random_one_in(random, 3))
        site->diameter = PICK(random, diameters);
    else
        site->height = PICK(random, heights);
}

void edge_site(struct random *random, struct site *site)
{
    static const uint8_t methods[] = {0, 1, 2, 3, 255};
    static const uint16_t years[] = {1999, 2000, 2099, 2100, 0, 65535, 1900};
    static const uint16_t gwps[] = {0, 1, 100, 101, 65535};
    static const uint16_t schedules[] = {0, 1, 3660, 3661, 65535};
    switch (random_below(random, 7)) {
    case 0:
        site->method = PICK(random, methods);
        break;
    case 1:
        site->year = PICK(random, years);
        break;
    case 2:
        site->gwp = PICK(random, gwps);
        break;
    case 3:
        edge_of_size(random, site);
        break;
    case 4:
        edge_of_spec(random, site);
        break;
    case 5: /* measured, at the height where it is no longer open, or just is */
        site->method = MEASURED_METHOD;
        site->height = 2 * site->diameter + random_below(random, 2);
        break;
    default:
        site->days = PICK(random, schedules);
    }
}

/* ---- Minutes: the composition. ---- */

/* One fraction over a million with a sum that is a million again in 32 bits. */
static void wrapped_sum(struct random *random, uint32_t *ppm)
{
    uint32_t over = random_between(random, 1, 500000);
    memset(ppm, 0, COMPONENTS * sizeof *ppm);
    ppm[CH4] = 1000000;
    ppm[random_between(random, CO, H2S)] = over;
    ppm[random_between(random, NH3, N2)] = -over;
}

/* CH4 equal to, one above or one below a gas that must not exceed it, in a sum of a million. */
static void rival_of_methane(struct random *random, uint32_t *ppm)
{
    static const int rivals[] = {CO, H2, H2S, NH3};
    uint32_t rival = random_between(random, 1, 400000);
    memset(ppm, 0, COMPONENTS * sizeof *ppm);
    ppm[PICK(random, rivals)] = rival;
    ppm[CH4] = rival - 1 + random_below(random, 3);
    if (random_one_in(random, 8))
        ppm[CH4] = 0;
    ppm[random_one_in(random, 2) ? CO2 : N2] = 1000000 - rival - ppm[CH4];
}

/* S exactly 0, -1 (which needs an odd NH3) or a little to either side. */
static void oxygen_at_zero(struct random *random, uint32_t *ppm)
{
    memset(ppm, 0, COMPONENTS * sizeof *ppm);
    ppm[CH4] = random_between(random, 4, 200000);
    ppm[NH3] = random_below(random, 4);
    ppm[random_one_in(random, 2) ? CO : H2] = random_below(random, ppm[CH4] + 1);
    uint32_t needs = 8 * ppm[CH4] + 2 * (ppm[CO] + ppm[H2]) + 3 * ppm[NH3];
    ppm[O2] = needs / 4 + random_below(random, 2);
    uint32_t used = ppm[CH4] + ppm[NH3] + ppm[CO] + ppm[H2] + ppm[O2];
    ppm[N2] = 1000000 - used; /* used is at most 903,000 or so */
}

static void edge_of_composition(struct random *random, uint32_t *ppm)
{
    uint32_t *any = ppm + random_below(random, COMPONENTS);
    switch (random_below(random, 6)) {
    case 0: /* a sum of 999,999 or 1,000,001, or a fraction that wraps below 0 */
        *any += random_one_in(random, 2) ? 1u : -1u;
        break;
    case 1:
        wrapped_sum(random, ppm);
        break;
    case 2:
        *any = random_one_in(random, 2) ? 1000001 : 1000000;
        break;
    case 3: /* CH4 nothing, its share in CO2 or in N2 */
        ppm[random_one_in(random, 2) ? CO2 : N2] += ppm[CH4];
        ppm[CH4] = 0;
        break;
    default:
        rival_of_methane(random, ppm);
    }
}

/* ---- Minutes: the readings. ---- */

static void edge_of_exhaust(struct random *random, struct minute *minute)
{
    static const uint32_t oxygen[] = {0, 209999, 210000, 210001, 0xffffffff, 0x80000000};
    static const uint32_t methane[] = {0, 50000, 50001, 0xffffffff, 0x80000000};
    switch (random_below(random, 4)) {
    case 0:
        minute->flags |= EXHAUST_PRESENT;
        minute->exhaust_oxygen = PICK(random, oxygen);
        break;
    case 1:
        minute->flags |= EXHAUST_PRESENT;
        minute->exhaust_methane = PICK(random, methane);
        break;
    default: /* absent, and one of the two is not 0, or both are */
        minute->flags &= (uint8_t)~EXHAUST_PRESENT;
        minute->exhaust_oxygen = random_below(random, 2);
        minute->exhaust_methane = random_below(random, 2);
    }
}

static void edge_of_temperature(struct random *random, struct minute *minute)
{
    static const int16_t present[] = {-501, -500, 15000, 15001, -32768, 32767, 0};
    static const int16_t absent[] = {-1, 0, 1, 9000, -32768};
    if (random_one_in(random, 2)) {
        minute->flags |= TEMPERATURE_PRESENT;
        minute->temperature = PICK(random, present);
    } else {
        minute->flags &= (uint8_t)~TEMPERATURE_PRESENT;
        minute->temperature = PICK(random, absent);
    }
}

void edge_minute(struct random *random, const struct site *site, struct minute *minute)
{
    static const uint32_t litres[] = {0, 1, 99999, 100000, 100001, 0xffffffff, 0x80000000};
    uint32_t last = reference_year_minutes(site->year) - 1;
    uint32_t numbers[] = {last, last + 1, 525599, 525600, 527039, 527040, beyond, minute->number + 1};
    switch (random_below(random, 7)) {
    case 0:
        minute->flags |= (uint8_t)(8u << random_below(random, 5));
        break;
    case 1:
        minute->number = PICK(random, numbers);
        break;
    case 2:
        minute->litres = PICK(random, litres);
        break;
    case 3:
        edge_of_composition(random, minute->ppm);
        break;
    case 4:
        edge_of_temperature(random, minute);
        break;
    case 5:
        edge_of_exhaust(random, minute);
        break;
    default:
        oxygen_at_zero(random, minute->ppm);
    }
}

/* ---- Damage to the bytes. ---- */

static void flip_bits(struct random *random, struct record *record)
{
    for (uint32_t flips = random_between(random, 1, 3); flips > 0 && record->length > 0; flips--)
        record->bytes[random_below(random, (uint32_t)record->length)] ^= (uint8_t)(1u << random_below(random, 8));
}

static void other_header(struct random *random, struct record *record)
{
    static const uint8_t lows[] = {0, 27, 28, 29, 30, 51, 52, 53, 54, 255};
    static const uint8_t versions[] = {0, 1, 2, 255};
    if (random_one_in(random, 3))
        record->bytes[2] = PICK(random, versions);
    else if (random_one_in(random, 2))
        record->bytes[1] = PICK(random, lows);
    else
        record->bytes[0] = (uint8_t)random_below(random, 256);
}

void damage(struct random *random, struct record *record)
{
    size_t length = record->length;
    switch (random_below(random, 5)) {
    case 0:
        flip_bits(random, record);
        break;
    case 1: /* cut, often by one byte, sometimes to nothing */
        record->length = random_one_in(random, 3) ? length - 1 : random_below(random, (uint32_t)length);
        break;
    case 2: /* the bytes beyond are random */
        record->length += random_one_in(random, 3) ? 1 : random_between(random, 1, RECORD_ROOM - (uint32_t)length);
        for (size_t i = length; i < record->length; i++)
            record->bytes[i] = (uint8_t)random_bits(random);
        break;
    case 3:
        for (size_t i = random_one_in(random, 2) ? 3 : 0; i < length; i++)
            record->bytes[i] = (uint8_t)random_bits(random);
        break;
    default:
        other_header(random, record);
    }
}
