/* Runs the program on an input that lies in memory, in pieces, and keeps what it prints. */
#ifndef PROGRAM_H
#define PROGRAM_H

#include "inputs.h"

#include <sys/types.h>

/* Pieces of at most `largest` bytes; after one in `wait` of them the program must take it before the next. */
struct feed {
    const uint8_t *input;
    size_t length;
    uint32_t largest, wait; /* wait 0: never */
    struct random *random;
    const char *errors; /* the file for its standard error; NULL: the driver's own */
};

struct answer {
    char *text; /* freed by the caller */
    size_t length, room;
    uint64_t pieces, waits;
    int status; /* as waitpid gives it */
    int late;   /* it was still running after two minutes, and was ended */
};

void run_program(char **command, const struct feed *feed, struct answer *answer);

/* Starts it with a pipe to its input and one from its output, neither of which blocks; `errors` as in a feed. */
pid_t start_program(char **command, const char *errors, int *in, int *out);

/* The command after "--" on a driver's own command line; ends the driver where there is none. */
char **command_after_dashes(char **words);

#endif
