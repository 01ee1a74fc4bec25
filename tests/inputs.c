/* Records that 01 accepts: of every class, method and rule, many of them at an end of a range. */
#include "inputs.h"

#include <string.h>

#define PICK(random, list) ((list)[random_below(random, sizeof(list) / sizeof(list)[0])])

/* ---- Bytes. ---- */

static uint8_t *put(uint8_t *at, uint32_t number, int bytes)
{
    for (int i = 0; i < bytes; i++)
        at[i] = (uint8_t)(number >> 8 * (bytes - 1 - i));
    return at + bytes;
}

void write_site(const struct site *site, struct record *record)
{
    uint8_t *at = record->bytes;
    at = put(at, SITE_BYTES - 2, 2);
    at = put(at, 1, 1);
    at = put(at, site->method, 1);
    at = put(at, site->year, 2);
    at = put(at, site->gwp, 2);
    at = put(at, site->height, 4);
    at = put(at, site->diameter, 4);
    at = put(at, (uint16_t)site->coldest, 2);
    at = put(at, (uint16_t)site->hottest, 2);
    at = put(at, site->least_flow, 4);
    at = put(at, site->most_flow, 4);
    put(at, site->days, 2);
    record->length = SITE_BYTES;
}

void write_minute(const struct minute *minute, struct record *record)
{
    uint8_t *at = record->bytes;
    at = put(at, MINUTE_BYTES - 2, 2);
    at = put(at, 1, 1);
    at = put(at, minute->number, 4);
    at = put(at, minute->flags, 1);
    at = put(at, (uint16_t)minute->temperature, 2);
    at = put(at, minute->litres, 4);
    for (int i = 0; i < COMPONENTS; i++)
        at = put(at, minute->ppm[i], 4);
    at = put(at, minute->exhaust_oxygen, 4);
    put(at, minute->exhaust_methane, 4);
    record->length = MINUTE_BYTES;
}

/* ---- Sites. ---- */

static void size_of_class(struct random *random, struct site *site, enum flare_class class)
{
    /* The largest diameter that leaves room for the class below 100,000 mm of height. */
    static const uint32_t widest[] = {100000, 49999, 9999};
    static const uint32_t common[] = {1, 2, 500, 1000, 1200, 2500, 9999};
    uint32_t d = random_one_in(random, 2) ? PICK(random, common) : random_between(random, 1, widest[class]);
    uint32_t low = class == OPEN_FLARE ? 0 : class == LOW_FLARE ? 2 * d + 1 : 10 * d + 1;
    uint32_t high = class == OPEN_FLARE ? 2 * d : class == LOW_FLARE ? 10 * d : 100000;
    if (high > 100000)
        high = 100000;
    uint32_t ends[] = {low, high};
    site->diameter = d;
    site->height = random_one_in(random, 2) ? PICK(random, ends) : random_between(random, low, high);
}

static void spec_of_site(struct random *random, struct site *site)
{
    int32_t a = (int32_t)random_below(random, 15501) - 500, b = (int32_t)random_below(random, 15501) - 500;
    uint32_t c = random_below(random, 100001), d = random_below(random, 100001);
    switch (random_below(random, 4)) {
    case 0: /* as a manufacturer gives it */
        a = 5000, b = 12000, c = 100, d = 50000;
        break;
    case 1: /* all that 01 allows */
        a = -500, b = 15000, c = 0, d = 100000;
        break;
    case 2: /* one value only */
        b = a, d = c;
        break;
    }
    site->coldest = (int16_t)(a < b ? a : b);
    site->hottest = (int16_t)(a < b ? b : a);
    site->least_flow = c < d ? c : d;
    site->most_flow = c < d ? d : c;
}

void valid_site(struct random *random, struct site *site)
{
    static const uint16_t years[] = {2000, 2001, 2027, 2028, 2096, 2099};
    static const uint16_t gwps[] = {1, 21, 28, 100};
    static const uint16_t schedules[] = {1, 30, 365, 3660};
    site->method = (uint8_t)random_below(random, 2);
    site->year = (uint16_t)(random_one_in(random, 2) ? PICK(random, years) : random_between(random, 2000, 2099));
    site->gwp = (uint16_t)(random_one_in(random, 2) ? PICK(random, gwps) : random_between(random, 1, 100));
    size_of_class(random, site, site->method ? LOW_FLARE + random_below(random, 2) : random_below(random, 3));
    spec_of_site(random, site);
    site->days = (uint16_t)(random_one_in(random, 2) ? PICK(random, schedules) : random_between(random, 1, 3660));
    if (!site->method && random_one_in(random, 4))
        site->days = 0;
}

/* ---- Minutes. ---- */

static int32_t clamp(int64_t number, int64_t low, int64_t high)
{
    return (int32_t)(number < low ? low : number > high ? high : number);
}

/* Inside the specification, at its ends, one beyond them, or anywhere: always in 01's range. */
static int32_t near_limits(struct random *random, int32_t low, int32_t high, int32_t least, int32_t most)
{
    int32_t ends[] = {low, high, low - 1, high + 1, least, most};
    switch (random_below(random, 4)) {
    case 0:
        return clamp(PICK(random, ends), least, most);
    case 1:
        return least + (int32_t)random_below(random, (uint32_t)(most - least) + 1);
    default:
        return low + (int32_t)random_below(random, (uint32_t)(high - low) + 1);
    }
}

static int64_t spare_oxygen(const uint32_t *ppm)
{
    return 8 * (int64_t)ppm[CH4] + 2 * (int64_t)ppm[CO] + 2 * (int64_t)ppm[H2] + 2 * (int64_t)ppm[H2S] +
           3 * (int64_t)ppm[NH3] - 4 * (int64_t)ppm[O2];
}

/* The rest of the million goes to CO2, O2 and N2 by chance; O2 only as far as S stays above -1. */
static void share_rest(struct random *random, uint32_t *ppm, uint32_t rest)
{
    uint32_t most_oxygen = (uint32_t)(spare_oxygen(ppm) / 4);
    ppm[O2] = random_below(random, (rest < most_oxygen ? rest : most_oxygen) + 1);
    if (random_one_in(random, 4))
        ppm[O2] = rest < most_oxygen ? rest : most_oxygen;
    ppm[CO2] = random_below(random, rest - ppm[O2] + 1);
    ppm[N2] = rest - ppm[O2] - ppm[CO2];
}

static void eight_components(struct random *random, uint32_t *ppm)
{
    static const int below_methane[] = {CO, H2, H2S, NH3};
    ppm[CH4] = random_between(random, 1, random_one_in(random, 3) ? 1000 : 1000000);
    uint32_t rest = 1000000 - ppm[CH4];
    for (int i = 0; i < 4; i++) {
        uint32_t most = ppm[CH4] < rest ? ppm[CH4] : rest;
        uint32_t part = random_one_in(random, 4) ? most : random_below(random, most + 1);
        ppm[below_methane[i]] = part;
        rest -= part;
    }
    share_rest(random, ppm, rest);
}

/* A composition that 01 accepts with any method: S is not negative. */
static void composition(struct random *random, uint32_t *ppm)
{
    static const uint32_t round_methane[] = {100000, 250000, 500000, 500001, 600000, 999999};
    memset(ppm, 0, COMPONENTS * sizeof *ppm);
    switch (random_below(random, 6)) {
    case 0: /* landfill gas */
        ppm[CH4] = random_between(random, 300000, 700000);
        share_rest(random, ppm, 1000000 - ppm[CH4]);
        break;
    case 1:
        ppm[CH4] = PICK(random, round_methane);
        ppm[random_one_in(random, 2) ? CO2 : N2] = 1000000 - ppm[CH4];
        break;
    case 2:
        ppm[CH4] = 1000000;
        break;
    default:
        eight_components(random, ppm);
    }
}

/* More than two O2 for each CH4: S is below 0, which only the measured method with readings refuses. */
static void oxygen_rich(struct random *random, uint32_t *ppm)
{
    memset(ppm, 0, COMPONENTS * sizeof *ppm);
    ppm[CH4] = random_between(random, 1, 300000);
    ppm[O2] = random_between(random, 2 * ppm[CH4] + 1, 1000000 - ppm[CH4]);
    ppm[N2] = 1000000 - ppm[CH4] - ppm[O2];
}

static void exhaust(struct random *random, struct minute *minute)
{
    static const uint32_t oxygen[] = {0, 1, 90000, 105000, 110000, 200000, 209990, 209998, 209999};
    static const uint32_t methane[] = {0, 1, 4, 100, 40000, 49999, 50000};
    minute->exhaust_oxygen = random_one_in(random, 2) ? PICK(random, oxygen) : random_below(random, 210000);
    minute->exhaust_methane = random_one_in(random, 2) ? PICK(random, methane) : random_below(random, 50001);
    if (random_one_in(random, 3)) /* well burnt: an efficiency above 0 */
        minute->exhaust_methane = random_below(random, 2000);
}

static void gas(struct random *random, const struct site *site, struct minute *minute)
{
    static const uint32_t round_litres[] = {1, 2, 10, 1000, 100000};
    int32_t near = near_limits(random, (int32_t)site->least_flow, (int32_t)site->most_flow, 0, 100000);
    minute->litres = random_one_in(random, 4) ? PICK(random, round_litres) : (uint32_t)near;
    composition(random, minute->ppm);
    int oxygen_is_asked = site->method == MEASURED_METHOD && minute->flags & EXHAUST_PRESENT;
    if (!oxygen_is_asked && random_one_in(random, 8))
        oxygen_rich(random, minute->ppm);
    if (random_one_in(random, 12)) {
        minute->litres = 0; /* the fractions are then carried, whatever they are */
        for (int i = 0; i < COMPONENTS && random_one_in(random, 2); i++)
            minute->ppm[i] = (uint32_t)random_bits(random);
    }
}

void valid_minute(struct random *random, const struct site *site, struct minute *minute)
{
    uint32_t minutes = reference_year_minutes(site->year);
    uint32_t ends[] = {0, 1, 525599, minutes - 1};
    memset(minute, 0, sizeof *minute);
    minute->number = random_one_in(random, 4) ? PICK(random, ends) : random_below(random, minutes);
    minute->flags = (uint8_t)(random_one_in(random, 3) ? random_below(random, 8) : 7);
    if (minute->flags & TEMPERATURE_PRESENT && !random_one_in(random, 16))
        minute->temperature = (int16_t)near_limits(random, site->coldest, site->hottest, -500, 15000);
    if (minute->flags & EXHAUST_PRESENT && !random_one_in(random, 16))
        exhaust(random, minute);
    gas(random, site, minute);
}

uint16_t days_since(struct random *random, const struct site *site)
{
    uint16_t ends[] = {0, site->days, (uint16_t)(site->days + 1), (uint16_t)(site->days - 1), 65534, 65535};
    switch (random_below(random, 4)) {
    case 0:
        return PICK(random, ends);
    case 1:
        return (uint16_t)random_below(random, 65536);
    default:
        return (uint16_t)random_below(random, site->days + 1u);
    }
}
