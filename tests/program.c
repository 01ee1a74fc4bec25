/* One loop feeds and reads at once, so that neither pipe can block the other. */
#define _GNU_SOURCE
#include "program.h"

#include <errno.h>
#include <fcntl.h>
#include <poll.h>
#include <sched.h>
#include <signal.h>
#include <spawn.h>
#include <stdio.h>
#include <stdlib.h>
#include <string.h>
#include <sys/ioctl.h>
#include <sys/wait.h>
#include <time.h>
#include <unistd.h>

enum { LIMIT_SECONDS = 120, READ_ROOM = 65536 };

extern char **environ;

struct talk {
    const struct feed *feed;
    struct answer *answer;
    int in, out;
    size_t sent, piece_end;
    int waiting, spins;
};

static void fail(const char *what)
{
    perror(what);
    exit(2);
}

pid_t start_program(char **command, const char *errors, int *in, int *out)
{
    int to[2], from[2];
    pid_t pid;
    posix_spawn_file_actions_t files;
    posix_spawnattr_t attributes;
    sigset_t signals;

    if (pipe2(to, O_CLOEXEC) != 0 || pipe2(from, O_CLOEXEC) != 0)
        fail("pipe");
    posix_spawn_file_actions_init(&files);
    posix_spawn_file_actions_adddup2(&files, to[0], 0);
    posix_spawn_file_actions_adddup2(&files, from[1], 1);
    if (errors != NULL)
        posix_spawn_file_actions_addopen(&files, 2, errors, O_WRONLY | O_CREAT | O_TRUNC, 0666);
    posix_spawnattr_init(&attributes); /* the program gets SIGPIPE as a shell would give it */
    sigemptyset(&signals);
    sigaddset(&signals, SIGPIPE);
    posix_spawnattr_setsigdefault(&attributes, &signals);
    posix_spawnattr_setflags(&attributes, POSIX_SPAWN_SETSIGDEF);
    if ((errno = posix_spawn(&pid, command[0], &files, &attributes, command, environ)) != 0)
        fail(command[0]);
    posix_spawn_file_actions_destroy(&files);
    posix_spawnattr_destroy(&attributes);
    close(to[0]);
    close(from[1]);
    *in = to[1];
    *out = from[0];
    fcntl(*in, F_SETFL, O_NONBLOCK);
    fcntl(*out, F_SETFL, O_NONBLOCK);
    return pid;
}

static void end_input(struct talk *talk)
{
    close(talk->in);
    talk->in = -1;
}

/* The program has taken the piece when the pipe is empty again. */
static int piece_is_taken(struct talk *talk)
{
    int left = 0;
    if (ioctl(talk->in, FIONREAD, &left) != 0)
        fail("FIONREAD");
    if (left == 0)
        return 1;
    if (talk->spins++ < 100)
        sched_yield();
    else
        usleep(20);
    return 0;
}

static void next_piece(struct talk *talk)
{
    const struct feed *feed = talk->feed;
    size_t left = feed->length - talk->sent;
    size_t piece = random_between(feed->random, 1, feed->largest);
    talk->piece_end = talk->sent + (piece < left ? piece : left);
    talk->answer->pieces++;
}

static void feed_some(struct talk *talk)
{
    if (talk->waiting && !piece_is_taken(talk))
        return;
    talk->waiting = 0;
    if (talk->sent == talk->feed->length) {
        end_input(talk);
        return;
    }
    if (talk->sent == talk->piece_end)
        next_piece(talk);
    ssize_t put = write(talk->in, talk->feed->input + talk->sent, talk->piece_end - talk->sent);
    if (put < 0 && errno == EPIPE) { /* it ended at a refusal and does not want the rest */
        end_input(talk);
        return;
    }
    if (put < 0 && errno != EAGAIN && errno != EINTR)
        fail("write to the program");
    talk->sent += put > 0 ? (size_t)put : 0;
    if (talk->sent == talk->piece_end && talk->feed->wait != 0 && random_one_in(talk->feed->random, talk->feed->wait)) {
        talk->waiting = 1;
        talk->spins = 0;
        talk->answer->waits++;
    }
}

static void read_some(struct talk *talk)
{
    struct answer *answer = talk->answer;
    if (answer->room - answer->length < READ_ROOM) {
        answer->room = 2 * answer->room + READ_ROOM;
        if ((answer->text = realloc(answer->text, answer->room)) == NULL)
            fail("memory for the program's output");
    }
    ssize_t got = read(talk->out, answer->text + answer->length, READ_ROOM);
    if (got == 0) {
        close(talk->out);
        talk->out = -1;
    }
    if (got < 0 && errno != EAGAIN && errno != EINTR)
        fail("read from the program");
    answer->length += got > 0 ? (size_t)got : 0;
}

/* Waits until something can be done, but not while a piece is being taken: nothing would wake us then. */
static void talk_once(struct talk *talk)
{
    struct pollfd fds[] = {{.fd = talk->out, .events = POLLIN}, {.fd = talk->in, .events = talk->waiting ? 0 : POLLOUT}};
    if (poll(fds, 2, talk->waiting ? 0 : 1000) < 0 && errno != EINTR)
        fail("poll");
    if (fds[0].revents)
        read_some(talk);
    if (talk->in >= 0 && fds[1].revents & POLLERR) /* nobody reads any more */
        end_input(talk);
    else if (talk->in >= 0 && (talk->waiting || fds[1].revents & POLLOUT))
        feed_some(talk);
}

void run_program(char **command, const struct feed *feed, struct answer *answer)
{
    struct talk talk = {.feed = feed, .answer = answer};
    time_t begun = time(NULL);
    signal(SIGPIPE, SIG_IGN);
    memset(answer, 0, sizeof *answer);
    pid_t pid = start_program(command, feed->errors, &talk.in, &talk.out);
    while (talk.out >= 0) {
        talk_once(&talk);
        if (!answer->late && time(NULL) - begun > LIMIT_SECONDS) {
            answer->late = 1;
            kill(pid, SIGKILL);
        }
    }
    if (talk.in >= 0)
        end_input(&talk);
    if (waitpid(pid, &answer->status, 0) != pid)
        fail("waitpid");
}

char **command_after_dashes(char **words)
{
    for (; *words != NULL; words++)
        if (strcmp(*words, "--") == 0 && words[1] != NULL)
            return words + 1;
    fprintf(stderr, "give the program's command after --\n");
    exit(2);
}
