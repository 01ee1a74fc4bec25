/* Lines that are calls, made by chance for the desk as it stands: of the right form, whatever they are answered. */
#ifndef DESK_CALLS_H
#define DESK_CALLS_H

#include "desk_forms.h"
#include "desk_records.h"
#include "desk_text.h"
#include "reference_desk.h"

struct teller {
    struct random random;
    const struct desk *desk; /* the reference's, after every line so far */
    struct site spare;       /* what minutes are made for where no account is open */
    struct text line;        /* the line, without its end */
    struct text run;         /* its bytes, where it carries a run */
};

/* Each puts its line into `line`. */
void call_line(struct teller *teller, enum call call);

/* An opening that is accepted: a measured flare mostly, or an open flare of the default method, and so on. */
void opening_line(struct teller *teller);

/* Minutes of one record that is accepted, up to that one: before the end of a day, say, or of the year. */
void fill_up_to(struct teller *teller, uint32_t minute);

/* The site that the account is for, and the minutes that are left of its year. */
const struct site *teller_site(const struct teller *teller);
uint32_t minutes_left(const struct teller *teller);

/* A month's row asked for, whether there is such a month or not; and the first minute after one of the twelve. */
void month_line(struct teller *teller, uint32_t month);
uint32_t month_end(const struct teller *teller, uint32_t month);

/* The place of the next minute, with a number that is wrong there. */
struct place next_place(struct teller *teller);

/* In desk_runs.c: the two calls that carry a run. */
void check_line(struct teller *teller);
void part_line(struct teller *teller);

#endif
