/* The tool's own equations for a measured minute, as exact fractions. */
#ifndef EQUATIONS_H
#define EQUATIONS_H

#include "reference.h"

typedef unsigned __int128 wide;

struct fraction {
    wide up, down;
};

/* F of a gas, in quarters of a millionth: OXYGEN where it is negative. */
int64_t stoichiometric_oxygen(const uint32_t *ppm);

/* F_EG of a minute whose F is not negative, in nanograms. */
struct fraction methane_in_exhaust(const struct minute *minute);

#endif
