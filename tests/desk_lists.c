/* Lists that are taken and lists that are just not. */
#include "desk_lists.h"

#include "desk_records.h"

#include <stdlib.h>

static int32_t last_day(const struct site *site)
{
    return (int32_t)(reference_year_minutes(site->year) / DAY_MINUTES) - 1;
}

/* ---- Lists that are taken. ---- */

/* Where the first days are in time and where they are just not, the ends of what may be listed, or anywhere. */
static int32_t some_day(struct random *random, const struct site *site)
{
    int32_t allowed = site->days, last = last_day(site);
    int32_t round_limits[] = {-allowed - 1, -allowed, 1 - allowed, 2 - allowed, -1, 0, 1, 2, 3, -3660, last - allowed, last};
    int32_t day = PICK(random, round_limits);
    if (random_one_in(random, 3))
        day = (int32_t)random_below(random, (uint32_t)(3661 + last)) - 3660;
    return day < -3660 ? -3660 : day > last ? last : day;
}

static int by_day(const void *a, const void *b)
{
    return *(const int16_t *)a - *(const int16_t *)b;
}

static void few_days(struct random *random, const struct site *site, struct list *list)
{
    static const size_t counts[] = {1, 1, 2, 3, 5, 20};
    size_t wanted = PICK(random, counts), kept = 0;
    for (size_t i = 0; i < wanted; i++)
        list->days[i] = (int16_t)some_day(random, site);
    qsort(list->days, wanted, sizeof list->days[0], by_day);
    for (size_t i = 0; i < wanted; i++)
        if (kept == 0 || list->days[i] > list->days[kept - 1])
            list->days[kept++] = list->days[i];
    list->count = kept;
}

/* Each day the site's days after the one before, or one or two more, so that a day between them is overdue, or just not. */
static void days_with_gaps(struct random *random, const struct site *site, struct list *list)
{
    int32_t day = -(int32_t)random_below(random, site->days + 3u), last = last_day(site);
    if (day < -3660)
        day = -3660;
    for (list->count = 0; list->count < MOST_DAYS && day <= last; list->count++) {
        list->days[list->count] = (int16_t)day;
        day += (int32_t)site->days + (int32_t)random_between(random, 0, 2) + (site->days == 0);
    }
}

/* So many days: from the first that may be listed, up to the last, or one after the other anywhere. */
static void days_in_order(struct random *random, const struct site *site, size_t count, struct list *list)
{
    int32_t last = last_day(site), step = (3660 + last) / (int32_t)count;
    uint32_t most = (uint32_t)(random_one_in(random, 2) ? step : 1);
    list->count = count;
    if (random_one_in(random, 2)) {
        list->days[count - 1] = (int16_t)last;
        for (size_t i = count - 1; i > 0; i--)
            list->days[i - 1] = (int16_t)(list->days[i] - (int32_t)random_between(random, 1, most));
        return;
    }
    list->days[0] = (int16_t)(most > 1 || random_one_in(random, 2) ? -3660 : -(int32_t)random_below(random, 3660));
    for (size_t i = 1; i < count; i++)
        list->days[i] = (int16_t)(list->days[i - 1] + (int32_t)random_between(random, 1, most));
}

void valid_list(struct random *random, const struct site *site, struct list *list)
{
    switch (random_below(random, 8)) {
    case 0:
        list->count = 0;
        break;
    case 1:
        days_in_order(random, site, random_between(random, 62, 64), list);
        break;
    case 2:
    case 3:
    case 4:
        days_with_gaps(random, site, list);
        break;
    default:
        few_days(random, site, list);
    }
}

/* ---- Lists that are refused. ---- */

void wrong_list(struct random *random, const struct site *site, struct list *list)
{
    static const int16_t early[] = {-3661, -3662, -32768};
    int16_t late[] = {(int16_t)(last_day(site) + 1), (int16_t)(last_day(site) + 2), 32767};
    valid_list(random, site, list);
    uint32_t way = random_below(random, 6);
    if (way == 0) {
        days_in_order(random, site, random_one_in(random, 2) ? 65 : LIST_ROOM, list);
        return;
    }
    if (list->count == 0)
        list->count = 1;
    size_t last = list->count - 1, at = random_between(random, 1, (uint32_t)(last == 0 ? 1 : last));
    if (way == 1)
        list->days[0] = PICK(random, early);
    else if (way == 2 || last == 0)
        list->days[last] = PICK(random, late);
    else if (way == 3) /* equal */
        list->days[at] = list->days[at - 1];
    else if (way == 4) /* falling by one */
        list->days[at] = (int16_t)(list->days[at - 1] - 1);
    else { /* two out of their order */
        int16_t first = list->days[at - 1];
        list->days[at - 1] = list->days[at];
        list->days[at] = first;
    }
}
