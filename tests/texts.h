/* What the program printed against what the reference prints, and how a difference is shown. */
#ifndef TEXTS_H
#define TEXTS_H

#include "lines.h"
#include "program.h"

/* Which of the two programs a driver compares, by the word `flare` or `months`; any other ends the driver. */
enum program { FLARE_PROGRAM, MONTHS_PROGRAM };
enum program program_named(const char *word);

/* What the reference prints as that program, with a 0 after it; freed by the caller. */
char *reference_text(enum program program, const struct feed *feed, size_t *length, struct outcome *outcome);

/* True where they are equal byte for byte; else says so, keeping a long input as a file in folder `keep`. */
int texts_agree(const char *name, const struct feed *feed, const char *expected, size_t length,
                const struct answer *answer, const char *keep);

/* The input in hex, or the name of the file that it is kept as. */
void show_input(const char *name, const struct feed *feed, const char *keep);

#endif
