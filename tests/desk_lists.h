/* Maintenance lists for `open`. */
#ifndef DESK_LISTS_H
#define DESK_LISTS_H

#include "inputs.h"

/* Six more than a list may have, to be refused. */
enum { LIST_ROOM = MOST_DAYS + 6 };
struct list {
    int16_t days[LIST_ROOM];
    size_t count;
};

/* One that 01 takes: round the days where maintenance is just in time, with gaps of the site's days, spread, or empty. */
void valid_list(struct random *random, const struct site *site, struct list *list);

/* One that 01 refuses, in one way of many. */
void wrong_list(struct random *random, const struct site *site, struct list *list);

#endif
