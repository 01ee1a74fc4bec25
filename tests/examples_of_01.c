/* The lines of "Examples beside each edge" in 01, asked of the reference and of the product, and its five lines. */
#include "flare.h"
#include "inputs.h"
#include "lines.h"

#include <stdio.h>
#include <string.h>

typedef uint8_t minute_call(const uint8_t *, size_t, const uint8_t *, size_t, uint16_t, uint8_t *, size_t);

enum gas { GAS_G, ONE_LITRE, S_IS_ZERO, S_IS_NEGATIVE };

/* Height on a diameter of 1,000; unlit or lit, inside the specification; the exhaust readings, which every line has. */
struct example {
    const char *line;
    uint8_t method;
    uint32_t height;
    enum gas gas;
    int lit;
    uint32_t oxygen, methane;
    uint8_t number, rule;
    uint64_t fed, emitted, destroyed;
};

enum { DEF = DEFAULT_METHOD, MEA = MEASURED_METHOD };

static const struct example examples[] = {
    {"open, flame", DEF, 0, GAS_G, 1, 90000, 100, 0, 2, 429600, 214800, 214800},
    {"no flame", DEF, 0, GAS_G, 0, 90000, 100, 0, 1, 429600, 429600, 0},
    {"no flame, tall", DEF, 10001, GAS_G, 0, 90000, 100, 0, 1, 429600, 429600, 0},
    {"tall default", DEF, 10001, GAS_G, 1, 90000, 100, 0, 3, 429600, 42960, 386640},
    {"low default", DEF, 2001, GAS_G, 1, 90000, 100, 0, 3, 429600, 85920, 343680},
    {"1 litre, open", DEF, 0, ONE_LITRE, 1, 90000, 100, 0, 2, 359, 180, 179},
    {"1 litre, tall default", DEF, 10001, ONE_LITRE, 1, 90000, 100, 0, 3, 359, 36, 322},
    {"measured tall, f 100", MEA, 10001, GAS_G, 1, 90000, 100, 0, 9, 429600, 965, 428635},
    {"measured low, f 100", MEA, 2001, GAS_G, 1, 90000, 100, 0, 9, 429600, 43925, 385675},
    {"measured tall, f 50,000", MEA, 10001, GAS_G, 1, 90000, 50000, 0, 9, 429600, 429600, 0},
    {"measured low, f 50,000", MEA, 2001, GAS_G, 1, 90000, 50000, 0, 9, 429600, 429600, 0},
    {"measured low, f 40,000", MEA, 2001, GAS_G, 1, 90000, 40000, 0, 9, 429600, 428960, 640},
    {"S is 0", MEA, 10001, S_IS_ZERO, 1, 90000, 100, 0, 9, 71600, 140, 71460},
    {"O2 200,001", MEA, 10001, S_IS_NEGATIVE, 1, 90000, 100, OXYGEN, 0, 0, 0, 0},
    {"height 2,000: open", DEF, 2000, GAS_G, 1, 90000, 100, 0, 2, 429600, 214800, 214800},
    {"height 2,001: low", DEF, 2001, GAS_G, 1, 90000, 100, 0, 3, 429600, 85920, 343680},
    {"height 10,000: low", DEF, 10000, GAS_G, 1, 90000, 100, 0, 3, 429600, 85920, 343680},
    {"height 10,001: tall", DEF, 10001, GAS_G, 1, 90000, 100, 0, 3, 429600, 42960, 386640},
    {"exhaust oxygen 209,999", MEA, 10001, GAS_G, 1, 209999, 0, 0, 9, 429600, 0, 429600},
    {"exhaust oxygen 210,000", MEA, 10001, GAS_G, 1, 210000, 0, EXHAUST, 0, 0, 0, 0},
};

static struct site site_of(uint8_t method, uint32_t height)
{
    return (struct site){.method = method, .year = 2027, .gwp = 28, .height = height, .diameter = 1000, .coldest = 5000,
                         .hottest = 12000, .least_flow = 1, .most_flow = 50000, .days = 365};
}

static void fill_gas(enum gas gas, struct minute *minute)
{
    static const uint32_t ppm[][COMPONENTS] = {
        [GAS_G] = {[CH4] = 600000, [CO2] = 400000},
        [ONE_LITRE] = {[CH4] = 500001, [N2] = 499999},
        [S_IS_ZERO] = {[CH4] = 100000, [O2] = 200000, [N2] = 700000},
        [S_IS_NEGATIVE] = {[CH4] = 100000, [O2] = 200001, [N2] = 699999},
    };
    minute->litres = gas == ONE_LITRE ? 1 : 1000;
    memcpy(minute->ppm, ppm[gas], sizeof minute->ppm);
}

static struct minute minute_of(const struct example *example)
{
    struct minute minute = {.flags = TEMPERATURE_PRESENT | EXHAUST_PRESENT, .temperature = 9000};
    minute.flags |= example->lit ? FLAME_SEEN : 0;
    minute.exhaust_oxygen = example->oxygen;
    minute.exhaust_methane = example->methane;
    fill_gas(example->gas, &minute);
    return minute;
}

static void put_eight(uint8_t *at, uint64_t number)
{
    for (int i = 0; i < 8; i++)
        at[i] = (uint8_t)(number >> (56 - 8 * i));
}

static int example_holds(const struct example *example, const char *name, minute_call *one)
{
    struct site site = site_of(example->method, example->height);
    struct minute minute = minute_of(example);
    struct record site_record, minute_record;
    uint8_t answer[ANSWER_BYTES] = {0}, expected[ANSWER_BYTES] = {0};

    write_site(&site, &site_record);
    write_minute(&minute, &minute_record);
    put_eight(expected, example->fed);
    put_eight(expected + 8, example->emitted);
    put_eight(expected + 16, example->destroyed);
    expected[24] = example->rule;
    uint8_t number = one(site_record.bytes, SITE_BYTES, minute_record.bytes, MINUTE_BYTES, 0, answer, ANSWER_BYTES);
    if (number == example->number && memcmp(answer, expected, ANSWER_BYTES) == 0)
        return 1;
    printf("difference from 01: %s, \"%s\": number %u, answer ", name, example->line, number);
    for (int i = 0; i < ANSWER_BYTES; i++)
        printf("%02x", answer[i]);
    printf("\n");
    return 0;
}

/* Tall, default, GWP 28, 2027: G lit, G unlit, 0 litres. */
static int five_lines_hold(void)
{
    static const char expected[] = "minute 0 rule 3 fed 429600 emitted 42960 destroyed 386640\n"
                                   "minute 1 rule 1 fed 429600 emitted 429600 destroyed 0\n"
                                   "minute 2 rule 0 fed 0 emitted 0 destroyed 0\n"
                                   "total 3 gas 2 fed 859200 emitted 472560 destroyed 386640 co2e 13231680\n"
                                   "year 2027 open\n";
    uint8_t input[SITE_BYTES + 3 * MINUTE_BYTES];
    char text[1024];
    struct site site = site_of(DEFAULT_METHOD, 10001);
    struct record record;
    struct outcome outcome;

    write_site(&site, &record);
    memcpy(input, record.bytes, SITE_BYTES);
    for (uint32_t i = 0; i < 3; i++) {
        struct minute minute = {.number = i, .flags = TEMPERATURE_PRESENT | (i == 1 ? 0 : FLAME_SEEN), .temperature = 9000};
        if (i < 2)
            fill_gas(GAS_G, &minute);
        write_minute(&minute, &record);
        memcpy(input + SITE_BYTES + i * MINUTE_BYTES, record.bytes, MINUTE_BYTES);
    }
    size_t length = text_of_input(input, sizeof input, text, &outcome);
    if (length == sizeof expected - 1 && memcmp(text, expected, length) == 0)
        return 1;
    printf("difference from 01: the reference's five lines are\n%.*s", (int)length, text);
    return 0;
}

int main(void)
{
    size_t lines = sizeof examples / sizeof examples[0];
    int good = five_lines_hold();
    for (size_t i = 0; i < lines; i++) {
        good &= example_holds(&examples[i], "reference_minute", reference_minute);
        good &= example_holds(&examples[i], "flare_minute", flare_minute);
    }
    if (good)
        printf("examples of 01: %zu minutes, by both calls, and the five lines\n", lines);
    return good ? 0 : 1;
}
