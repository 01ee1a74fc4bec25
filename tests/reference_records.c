/* Writing: fields into a record's bytes, in a buffer of the caller's. Reading stands beside the refusals, in reference.c. */
#include "reference.h"

static uint8_t *put_one(uint8_t *at, uint8_t number)
{
    *at = number;
    return at + 1;
}

static uint8_t *put_two(uint8_t *at, uint16_t number)
{
    return put_one(put_one(at, (uint8_t)(number >> 8)), (uint8_t)number);
}

static uint8_t *put_four(uint8_t *at, uint32_t number)
{
    return put_two(put_two(at, (uint16_t)(number >> 16)), (uint16_t)number);
}

/* The house form: a length that counts the bytes after it, then the version. */
static uint8_t *put_head(uint8_t *at, uint16_t record_bytes)
{
    return put_one(put_two(at, record_bytes - 2), 1);
}

/* 22, then 3 to 9. */
uint8_t reference_write_site(const struct site *site, uint8_t *buffer, size_t room)
{
    uint8_t refusal = room != SITE_BYTES ? BUFFER : reference_site_refusal(site);
    if (refusal != ACCEPTED)
        return refusal;
    uint8_t *at = put_head(buffer, SITE_BYTES);
    at = put_one(at, site->method);
    at = put_two(at, site->year);
    at = put_two(at, site->gwp);
    at = put_four(at, site->height);
    at = put_four(at, site->diameter);
    at = put_two(at, (uint16_t)site->coldest);
    at = put_two(at, (uint16_t)site->hottest);
    at = put_four(at, site->least_flow);
    at = put_four(at, site->most_flow);
    put_two(at, site->days);
    return ACCEPTED;
}

/* 22, then 12, 13 when the number is not below 527,040, 14 to 18. */
uint8_t reference_write_minute(const struct minute *minute, uint8_t *buffer, size_t room)
{
    uint8_t refusal = room != MINUTE_BYTES ? BUFFER : reference_minute_refusal(minute);
    if (refusal != ACCEPTED)
        return refusal;
    uint8_t *at = put_head(buffer, MINUTE_BYTES);
    at = put_four(at, minute->number);
    at = put_one(at, minute->flags);
    at = put_two(at, (uint16_t)minute->temperature);
    at = put_four(at, minute->litres);
    for (int i = 0; i < COMPONENTS; i++)
        at = put_four(at, minute->ppm[i]);
    at = put_four(at, minute->exhaust_oxygen);
    put_four(at, minute->exhaust_methane);
    return ACCEPTED;
}
