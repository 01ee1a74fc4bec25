/* Varied minutes, all accepted: one more than the year has may be asked for, to be refused. */
#include "year.h"

#include <stdio.h>
#include <stdlib.h>
#include <string.h>

const char *const year_names[YEAR_KINDS] = {"tall-default", "low-measured", "open-default", "tall-measured"};

struct site year_site(enum year_kind kind, uint16_t year)
{
    static const uint32_t heights[] = {12000, 9000, 2000, 12000};
    uint8_t method = kind == LOW_MEASURED || kind == TALL_MEASURED;
    return (struct site){.method = method, .year = year, .gwp = 28, .height = heights[kind], .diameter = 1000,
                         .coldest = 5000, .hottest = 12000, .least_flow = 100, .most_flow = 50000, .days = 365};
}

uint8_t *year_input(enum year_kind kind, uint16_t year, uint32_t minutes, size_t *length)
{
    struct random random = {year + 10000u * kind};
    struct site site = year_site(kind, year);
    struct minute minute;
    struct record record;
    *length = SITE_BYTES + (size_t)minutes * MINUTE_BYTES;
    uint8_t *input = malloc(*length);
    if (input == NULL) {
        perror("memory for a year");
        exit(2);
    }
    write_site(&site, &record);
    memcpy(input, record.bytes, SITE_BYTES);
    for (uint32_t i = 0; i < minutes; i++) {
        valid_minute(&random, &site, &minute);
        minute.number = i;
        write_minute(&minute, &record);
        memcpy(input + SITE_BYTES + (size_t)i * MINUTE_BYTES, record.bytes, MINUTE_BYTES);
    }
    return input;
}
