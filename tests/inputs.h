/* Seeded inputs: the same records on every machine for the same seed. */
#ifndef INPUTS_H
#define INPUTS_H

#include "reference.h"

struct random {
    uint64_t state;
};

uint64_t random_bits(struct random *random);
uint32_t random_below(struct random *random, uint32_t bound);
uint32_t random_between(struct random *random, uint32_t low, uint32_t high);
int random_one_in(struct random *random, uint32_t n);

/* A record with room for bytes that do not belong to it. */
enum { RECORD_ROOM = 128 };
struct record {
    uint8_t bytes[RECORD_ROOM];
    size_t length;
};

/* Fields to bytes, as 01 lays them out; they may be out of range. */
void write_site(const struct site *site, struct record *record);
void write_minute(const struct minute *minute, struct record *record);

/* Records that 01 accepts, of every class, method and rule, many at an end of a range. */
void valid_site(struct random *random, struct site *site);
void valid_minute(struct random *random, const struct site *site, struct minute *minute);

/* One field moved to a boundary of 01, on it, one below or one above: it may be refused then, or not. */
void edge_site(struct random *random, struct site *site);
void edge_minute(struct random *random, const struct site *site, struct minute *minute);

/* Bits flipped, cut, extended, another length field or version, or random bytes. */
void damage(struct random *random, struct record *record);

/* Days since maintenance: round the site's days, the ends of 16 bits, none. */
uint16_t days_since(struct random *random, const struct site *site);

/* A measured minute whose emitted or destroyed mass misses a whole mg by less than a nanogram. */
void near_whole_minute(struct random *random, struct site *site, struct minute *minute);

#endif
