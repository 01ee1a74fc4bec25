/* Lines that a desk should not get: calls cut, changed, swapped and stretched, and bytes that are no text. */
#ifndef DESK_BAD_LINES_H
#define DESK_BAD_LINES_H

#include "desk_calls.h"

/* Puts one into `line`, and into `rest` what a line's end in its middle leaves for the next line: nothing mostly. */
void bad_line(struct teller *teller, struct text *rest);

/* Whether it is a fill of thousands of minutes: such a line says little here, and takes its time. */
int fills_much(const struct text *line);

#endif
