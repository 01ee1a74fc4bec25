/* Records for the desk's lines: fine, at an edge, with one refusal's cause or two at once, or damaged. */
#ifndef DESK_RECORDS_H
#define DESK_RECORDS_H

#include "inputs.h"

#define PICK(random, list) ((list)[random_below(random, sizeof(list) / sizeof(list)[0])])

/* So many in a hundred are not fine. */
void some_site(struct random *random, struct site *site, uint32_t spoilt);
void some_site_record(struct random *random, const struct site *site, uint32_t spoilt, struct record *record);

/* What a minute is made for: the number it should have, and one that is not in order there. */
struct place {
    const struct site *site;
    uint32_t number, wrong;
};
void some_minute(struct random *random, const struct place *place, uint32_t spoilt, struct minute *minute);
void some_minute_record(struct random *random, const struct place *place, uint32_t spoilt, struct record *record);

#endif
