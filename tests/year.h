/* A whole year's input for the program. */
#ifndef YEAR_H
#define YEAR_H

#include "inputs.h"

/* The sites; without maintenance days the first three meet all that the four can, which is every rule but 8 and 9. */
enum year_kind { TALL_DEFAULT, LOW_MEASURED, OPEN_DEFAULT, TALL_MEASURED, YEAR_KINDS };
extern const char *const year_names[YEAR_KINDS];

struct site year_site(enum year_kind kind, uint16_t year);

/* The bytes of a site and its first `minutes` minutes, numbered from 0, freed by the caller. */
uint8_t *year_input(enum year_kind kind, uint16_t year, uint32_t minutes, size_t *length);

#endif
