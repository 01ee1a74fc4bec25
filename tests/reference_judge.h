/* What the single minute and the account have in common: a minute's fields, read and judged. */
#ifndef REFERENCE_JUDGE_H
#define REFERENCE_JUDGE_H

#include "reference.h"

/* The record's 1 and 2, else its fields, which are not examined yet. */
uint8_t reference_take_minute(const uint8_t *bytes, size_t length, struct minute *minute);

/* 12, 13 in the caller's sense, 14 to 19; else the figures. */
uint8_t reference_judge(const struct site *site, const struct minute *minute, int in_order, int maintained,
                        struct figures *figures);

#endif
