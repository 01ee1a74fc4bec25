/* The reference: document 01 in C, written apart from the product so that each can find the other wrong. */
#ifndef REFERENCE_H
#define REFERENCE_H

#include <stddef.h>
#include <stdint.h>

enum { SITE_BYTES = 30, MINUTE_BYTES = 54, ANSWER_BYTES = 25, RULES = 10 };
enum { DAY_MINUTES = 1440, MOST_DAYS = 64, MONTHS = 12 };

/* 01, "Numbers a caller gets back": the names and numbers of its table; the last is the sheet by month's. */
enum refusal {
    ACCEPTED, LENGTH, VERSION, METHOD, YEAR, GWP, SIZE, SPEC, OPEN, SCHEDULE, LIST, FULL,
    FLAGS, ORDER, FLOW, COMPOSITION, METHANE, TEMPERATURE, EXHAUST, OXYGEN, INCOMPLETE, DAY, BUFFER, MONTH,
    REFUSALS
};

/* 01, "Records": the eight components, in the order of the minute record. */
enum component { CH4, CO, CO2, O2, H2, H2S, NH3, N2, COMPONENTS };

enum { DEFAULT_METHOD = 0, MEASURED_METHOD = 1 };
enum { FLAME_SEEN = 1, TEMPERATURE_PRESENT = 2, EXHAUST_PRESENT = 4 };

struct site {
    uint8_t method;
    uint16_t year, gwp;
    uint32_t height, diameter;
    int16_t coldest, hottest;
    uint32_t least_flow, most_flow;
    uint16_t days;
};

struct minute {
    uint32_t number;
    uint8_t flags;
    int16_t temperature;
    uint32_t litres;
    uint32_t ppm[COMPONENTS];
    uint32_t exhaust_oxygen, exhaust_methane;
};

/* 01, "Class of flare". */
enum flare_class { OPEN_FLARE, LOW_FLARE, TALL_FLARE };

/* What one accepted minute gives, in mg. */
struct figures {
    uint8_t rule;
    uint64_t fed, emitted, destroyed;
};

/* What the accepted minutes of one month add up to. */
struct row {
    uint32_t minutes, gas;
    uint64_t fed, emitted, destroyed;
};

/* The account of one year, with its maintenance list and its twelve months. */
enum { BEFORE_JANUARY = -1, JANUARY, FEBRUARY, DECEMBER = MONTHS - 1 };
struct account {
    struct site site;
    int32_t list[MOST_DAYS];
    size_t listed;
    uint32_t next, gas;
    uint64_t fed, emitted, destroyed;
    uint32_t counts[RULES];
    struct row rows[MONTHS];
    int month;          /* that of the last minute */
    uint32_t month_end; /* the first minute after it */
};

/* 01's chart point, in tonnes. */
struct chart_point {
    double fed, co2e;
};

/* What a run check answers: ACCEPTED, or the number and, unless the run was not of whole records, its place. */
struct run_answer {
    uint8_t refusal;
    int placed;
    uint32_t day, minute;
};

/* A part of a lent run, by its place in it; of length 0 where the run has no such day. */
struct run_part {
    size_t at, length;
};

uint32_t reference_year_minutes(uint16_t year);
enum flare_class reference_class(const struct site *site);

/* Fields alone: a site's 3 to 9; a minute's 12 to 18, where 13 is a number that no year has. */
uint8_t reference_site_refusal(const struct site *site);
uint8_t reference_minute_refusal(const struct minute *minute);

/* Reading alone: the record's 1 and 2 first. After a refusal the fields mean nothing. */
uint8_t reference_read_site(const uint8_t *bytes, size_t length, struct site *site);
uint8_t reference_read_minute(const uint8_t *bytes, size_t length, struct minute *minute);

/* Writing: 22 first, then the fields' refusals. A refusal leaves the buffer. */
uint8_t reference_write_site(const struct site *site, uint8_t *buffer, size_t room);
uint8_t reference_write_minute(const struct minute *minute, uint8_t *buffer, size_t room);

/* The single minute: the same call as the product's flare_minute. */
uint8_t reference_minute(const uint8_t *site, size_t site_len, const uint8_t *minute, size_t minute_len,
                         uint16_t days, uint8_t *answer, size_t answer_len);

/* The account: each gives ACCEPTED or the refusal, and a refusal changes nothing. The list's days may be NULL for 0. */
uint8_t reference_open_fields(struct account *account, const struct site *site, const int32_t *days, size_t count);
uint8_t reference_open(struct account *account, const uint8_t *bytes, size_t length, const int32_t *days, size_t count);
uint8_t reference_add(struct account *account, const uint8_t *bytes, size_t length, struct figures *figures);
uint8_t reference_close(const struct account *account, uint64_t *tonnes);
uint64_t reference_co2e(const struct account *account);
uint8_t reference_month(const struct account *account, uint32_t month, struct row *row);
uint64_t reference_co2e_of_row(const struct account *account, const struct row *row);
struct chart_point reference_chart(const struct account *account);

/* Calls over a run of minute records. */
struct run_answer reference_check(const struct account *account, const uint8_t *run, size_t length);
struct run_part reference_day_part(size_t length, uint32_t day);

#endif
