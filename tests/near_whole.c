/* Measured minutes that a mass rounded too early, to nanograms say, gets wrong: chance alone would not meet them. */
#include "inputs.h"

#include <string.h>

enum { KEPT = 256 };

struct near {
    uint32_t litres, methane, room, exhaust_methane;
};

/* The x with a x = 1 (mod m), for a and m without a common factor. */
static int64_t inverse(int64_t a, int64_t m)
{
    int64_t r0 = m, r1 = a % m, x0 = 0, x1 = 1;
    while (r1 != 0) {
        int64_t q = r0 / r1, r2 = r0 - q * r1, x2 = x0 - q * x1;
        r0 = r1, r1 = r2, x0 = x1, x1 = x2;
    }
    return x0 < 0 ? x0 + m : x0;
}

static int64_t common_factor(int64_t a, int64_t b)
{
    while (b != 0) {
        int64_t r = a % b;
        a = b, b = r;
    }
    return a;
}

/* Emitted or destroyed by one litre, in (20 D)ths of a nanogram; the short form is good enough to choose by. */
static int64_t share_of_litre(const struct near *near, enum flare_class class, int destroyed)
{
    int64_t k = 716 * (int64_t)near->methane + 84 * (1000000 - (int64_t)near->methane);
    int64_t fed = 20 * (int64_t)near->room * 716 * near->methane;
    int64_t emitted = 50 * k * near->exhaust_methane + (class == LOW_FLARE ? fed / 10 : 0);
    return destroyed ? fed - emitted : emitted;
}

/* So many litres that their share is a whole mg and the smallest step more, or less. */
static int litres_for(struct random *random, enum flare_class class, struct near *near)
{
    int64_t share = share_of_litre(near, class, random_one_in(random, 2));
    int64_t mg = 20 * (int64_t)near->room * 1000000;
    int64_t step = common_factor(share, mg);
    int64_t litres = inverse(share / step % (mg / step), mg / step);
    if (random_one_in(random, 2))
        litres = mg / step - litres;
    near->litres = (uint32_t)litres;
    return litres <= 100000 && step < 20 * (int64_t)near->room; /* below a nanogram */
}

static void find(struct random *random, enum flare_class class, struct near *near)
{
    do {
        near->methane = random_between(random, 300000, 999999);
        near->room = random_between(random, 21, 400);
        near->exhaust_methane = random_between(random, 1, near->room / 4);
    } while (!litres_for(random, class, near));
}

void near_whole_minute(struct random *random, struct site *site, struct minute *minute)
{
    static struct near kept[2][KEPT];
    if (kept[0][0].litres == 0) { /* its own seed: the records do not depend on who asks first */
        struct random own = {20270101};
        for (int i = 0; i < 2 * KEPT; i++)
            find(&own, i < KEPT ? LOW_FLARE : TALL_FLARE, &kept[i / KEPT][i % KEPT]);
    }
    int tall = (int)random_below(random, 2);
    const struct near *near = &kept[tall][random_below(random, KEPT)];

    site->method = MEASURED_METHOD;
    site->diameter = 1000;
    site->height = tall ? 10001 : 2001;
    site->least_flow = 0;
    site->most_flow = 100000;
    site->days = (uint16_t)(site->days | 1);
    memset(minute, 0, sizeof *minute);
    minute->flags = FLAME_SEEN | TEMPERATURE_PRESENT | EXHAUST_PRESENT;
    minute->temperature = site->hottest;
    minute->litres = near->litres;
    minute->ppm[CH4] = near->methane;
    minute->ppm[random_one_in(random, 2) ? CO2 : N2] = 1000000 - near->methane;
    minute->exhaust_oxygen = 210000 - near->room;
    minute->exhaust_methane = near->exhaust_methane;
}
