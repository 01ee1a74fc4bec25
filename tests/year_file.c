/* The first minutes of a year's input to standard output. Usage: year_file kind year minutes > file */
#include "year.h"

#include <stdio.h>
#include <stdlib.h>
#include <string.h>

int main(int count, char **words)
{
    size_t length;
    if (count != 4)
        return fprintf(stderr, "usage: year_file tall-default|low-measured|open-default|tall-measured year minutes\n"), 2;
    for (enum year_kind kind = 0; kind < YEAR_KINDS; kind++) {
        if (strcmp(words[1], year_names[kind]) != 0)
            continue;
        uint8_t *input = year_input(kind, (uint16_t)atoi(words[2]), (uint32_t)atoi(words[3]), &length);
        size_t written = fwrite(input, 1, length, stdout);
        free(input);
        return written == length && fflush(stdout) == 0 ? 0 : 1;
    }
    return fprintf(stderr, "no such kind: %s\n", words[1]), 2;
}
