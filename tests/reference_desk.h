/* The reference behind the text protocol of the program `desk`: a line in, a line out. */
#ifndef REFERENCE_DESK_H
#define REFERENCE_DESK_H

#include "reference.h"

enum { LONGEST_LINE = 320000 };

struct reply { char *text; size_t length, room; }; /* all zero at first; grows as it must; freed by the caller */
struct desk { int open; struct account account; }; /* all zero: no account */

/* Answers one line, given without its line end (a \r there is its business); the reply has no line end either. */
void reference_answer(struct desk *desk, const uint8_t *line, size_t length, struct reply *reply);

#endif
