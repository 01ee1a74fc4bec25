/* The example programs of host.c and host.rs on one input with a maintenance list, beside the reference's summary. */
#ifndef HOST_RUN_H
#define HOST_RUN_H

#include "lines.h"
#include "program.h"

/* The programs stand on the driver's command line, each after its own "--". */
enum { MOST_HOSTS = 2 };
struct hosts {
    char **commands[MOST_HOSTS];
    size_t count;
    const char *keep; /* the folder for an input that made a difference */
};

/* One more than a list may have, to be refused. */
enum { ROOM_FOR_DAYS = MOST_DAYS + 1 };
struct host_case {
    const char *name;
    struct feed feed;
    int32_t days[ROOM_FOR_DAYS];
    size_t count;
};

void hosts_after_dashes(char **words, struct hosts *hosts);

/* Whether each program prints the summary, ends with its status and says as much as it should, and all say the same. */
int hosts_agree(const struct hosts *hosts, const struct host_case *one, struct outcome *outcome);

#endif
