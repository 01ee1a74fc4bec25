/* Times commands on one input, in turn, so that all meet the same machine. */
/* Usage: programs rounds null|pipe input -- command... [-- command...]; a line each: seconds, peak KB. */
#define _GNU_SOURCE
#include <errno.h>
#include <fcntl.h>
#include <spawn.h>
#include <stdio.h>
#include <stdlib.h>
#include <string.h>
#include <sys/resource.h>
#include <sys/wait.h>
#include <time.h>
#include <unistd.h>

enum { MOST_COMMANDS = 4 };

extern char **environ;

struct best {
    char **command;
    double seconds;
    long peak;
};

static void fail(const char *what)
{
    perror(what);
    exit(2);
}

static double now(void)
{
    struct timespec time;
    clock_gettime(CLOCK_MONOTONIC, &time);
    return (double)time.tv_sec + (double)time.tv_nsec / 1e9;
}

static pid_t start(char **command, const char *input, int output)
{
    pid_t pid;
    posix_spawn_file_actions_t files;
    posix_spawn_file_actions_init(&files);
    posix_spawn_file_actions_addopen(&files, 0, input, O_RDONLY, 0);
    posix_spawn_file_actions_adddup2(&files, output, 1);
    if ((errno = posix_spawn(&pid, command[0], &files, NULL, command, environ)) != 0)
        fail(command[0]);
    posix_spawn_file_actions_destroy(&files);
    return pid;
}

static void drain(int from)
{
    static char room[65536];
    ssize_t got;
    while ((got = read(from, room, sizeof room)) != 0)
        if (got < 0 && errno != EINTR)
            fail("read from the program");
}

/* From before the start to after the end, as a caller sees it. */
static void run_once(struct best *best, const char *input, int by_pipe)
{
    int ends[2], status;
    struct rusage used;
    if (by_pipe ? pipe2(ends, O_CLOEXEC) != 0 : (ends[1] = open("/dev/null", O_WRONLY | O_CLOEXEC)) < 0)
        fail("output");
    double begun = now();
    pid_t pid = start(best->command, input, ends[1]);
    close(ends[1]);
    if (by_pipe) {
        drain(ends[0]);
        close(ends[0]);
    }
    if (wait4(pid, &status, 0, &used) != pid)
        fail("wait4");
    double seconds = now() - begun;
    if (!WIFEXITED(status) || WEXITSTATUS(status) != 0) {
        fprintf(stderr, "%s did not end well\n", best->command[0]);
        exit(1);
    }
    best->seconds = seconds < best->seconds ? seconds : best->seconds;
    best->peak = used.ru_maxrss > best->peak ? used.ru_maxrss : best->peak;
}

/* The commands are parted by "--", which becomes the end of the one before. */
static int commands_of(char **words, struct best *best)
{
    int commands = 0;
    for (; *words != NULL; words++) {
        if (strcmp(*words, "--") != 0)
            continue;
        *words = NULL;
        if (commands == MOST_COMMANDS)
            return 0;
        best[commands++] = (struct best){.command = words + 1, .seconds = 1e9};
    }
    return commands;
}

int main(int count, char **words)
{
    struct best best[MOST_COMMANDS];
    int commands = count > 5 ? commands_of(words + 4, best) : 0;
    if (commands == 0)
        return fprintf(stderr, "usage: programs rounds null|pipe input -- command... [-- command...]\n"), 2;
    int by_pipe = strcmp(words[2], "pipe") == 0;
    for (int round = atoi(words[1]); round > 0; round--)
        for (int i = 0; i < commands; i++)
            run_once(&best[i], words[3], by_pipe);
    for (int i = 0; i < commands; i++)
        printf("%.4f %ld\n", best[i].seconds, best[i].peak);
    return 0;
}
