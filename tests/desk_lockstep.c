/* A desk that is talked to line by line: each answer is there before the next line is sent.
 * Usage: desk_lockstep lines seed seconds keep-folder -- command...; the seconds are those that an answer may take. */
#define _GNU_SOURCE
#include "desk_spoilt.h"
#include "desk_talk.h"
#include "program.h"

#include <errno.h>
#include <poll.h>
#include <signal.h>
#include <stdio.h>
#include <stdlib.h>
#include <string.h>
#include <sys/wait.h>
#include <time.h>
#include <unistd.h>

enum { READ_ROOM = 65536, MOST_TOGETHER = 12 };

struct run {
    pid_t desk;
    int in, out; /* its input and its output; -1 where it is closed */
    int64_t limit; /* the milliseconds that it may take */
    struct text got;
    const char *folder;
    struct teller teller;
    struct talk talk;
    uint64_t halves, together;
};

/* ---- The two pipes. ---- */

static int64_t milliseconds(void)
{
    struct timespec now;
    clock_gettime(CLOCK_MONOTONIC, &now);
    return (int64_t)now.tv_sec * 1000 + now.tv_nsec / 1000000;
}

/* Ends the driver: what it met cannot be gone on from. */
static void differs(struct run *run, const char *what)
{
    printf("difference: %s, at line %llu (from 1)\n", what, (unsigned long long)run->talk.lines);
    print_line("line     ", run->teller.line.bytes, run->teller.line.length);
    print_line("desk     ", run->got.bytes, run->got.length);
    print_line("reference", run->talk.expected.bytes, run->talk.expected.length);
    keep_talk(&run->talk, run->folder, "desk-lockstep");
    kill(run->desk, SIGKILL);
    exit(1);
}

static void read_some(struct run *run)
{
    char bytes[READ_ROOM];
    ssize_t got = read(run->out, bytes, sizeof bytes);
    if (got > 0)
        text_add(&run->got, bytes, (size_t)got);
    if (got == 0) {
        close(run->out);
        run->out = -1;
    }
}

/* Waits for as long as the desk may take, for its output or, where there is something to send, its input. */
static void wait_for(struct run *run, int64_t end, int sending)
{
    struct pollfd fds[] = {{.fd = run->out, .events = POLLIN}, {.fd = sending ? run->in : -1, .events = POLLOUT}};
    int64_t left = end - milliseconds();
    if (left <= 0 || (poll(fds, 2, (int)left) == 0))
        differs(run, sending ? "the line is not taken in time" : "no whole answer in time");
    if (fds[0].revents)
        read_some(run);
    if (run->out < 0 && run->in >= 0)
        differs(run, "the desk has ended before its input");
}

static void send_bytes(struct run *run, const char *bytes, size_t length)
{
    int64_t end = milliseconds() + run->limit;
    while (length > 0) {
        ssize_t put = write(run->in, bytes, length);
        if (put < 0 && errno != EAGAIN && errno != EINTR)
            differs(run, "the desk does not read on");
        if (put < 0)
            wait_for(run, end, 1);
        bytes += put > 0 ? put : 0;
        length -= put > 0 ? (size_t)put : 0;
    }
}

/* ---- Answers. ---- */

/* All that the reference has answered since the last time, and no byte more. */
static void expect_answers(struct run *run)
{
    struct text *expected = &run->talk.expected;
    int64_t end = milliseconds() + run->limit;
    while (run->got.length < expected->length && run->out >= 0)
        wait_for(run, end, 0);
    if (run->got.length != expected->length || memcmp(run->got.bytes, expected->bytes, expected->length) != 0)
        differs(run, "another answer");
    run->got.length = expected->length = 0;
}

/* A line that has not ended is not answered: the pause is not long, but there is one after many lines. */
static void expect_nothing(struct run *run)
{
    struct pollfd out = {.fd = run->out, .events = POLLIN};
    if (poll(&out, 1, (int)random_between(&run->teller.random, 1, 3)) == 0)
        return;
    read_some(run);
    differs(run, "an answer to half a line");
}

/* ---- Lines. ---- */

/* The reference's answer to any line. */
static void next_line(struct run *run)
{
    struct random *random = &run->teller.random;
    uint32_t chance = random_below(random, 16);
    if (!run->talk.desk.open && random_one_in(random, 4))
        opening_line(&run->teller);
    else if (chance == 0)
        comment_line(&run->teller);
    else if (chance == 1)
        no_call_line(&run->teller);
    else if (chance == 2)
        run->teller.line.length = 0;
    else
        call_line(&run->teller, random_below(random, CALLS));
    talk_line(&run->talk, &run->teller.line, random_one_in(random, 4) ? "\r\n" : "\n");
}

/* In two parts, with a pause between: anywhere, or just before its end, which may be \r and \n. */
static void in_halves(struct run *run, const char *line, size_t length)
{
    struct random *random = &run->teller.random;
    size_t part = random_one_in(random, 2) ? length - 1 : random_below(random, (uint32_t)length);
    send_bytes(run, line, part);
    expect_nothing(run);
    send_bytes(run, line + part, length - part);
    run->halves++;
}

static void one_step(struct run *run)
{
    struct random *random = &run->teller.random;
    uint32_t way = random_below(random, 10);
    size_t from = run->talk.input.length;
    for (uint32_t lines = way == 0 ? random_between(random, 2, MOST_TOGETHER) : 1; lines > 0; lines--)
        next_line(run);
    const char *line = run->talk.input.bytes + from;
    size_t length = run->talk.input.length - from;
    run->together += way == 0;
    if (way == 1)
        in_halves(run, line, length);
    else
        send_bytes(run, line, length);
    expect_answers(run);
}

/* A last line without its end is answered at the input's end, and then the desk ends too. */
static void expect_end(struct run *run)
{
    int status;
    call_line(&run->teller, CALL_COUNTS);
    talk_line(&run->talk, &run->teller.line, "");
    send_bytes(run, run->teller.line.bytes, run->teller.line.length);
    expect_nothing(run);
    close(run->in);
    run->in = -1;
    while (run->out >= 0)
        wait_for(run, milliseconds() + run->limit, 0);
    expect_answers(run);
    if (waitpid(run->desk, &status, 0) != run->desk || !WIFEXITED(status) || WEXITSTATUS(status) != 0)
        differs(run, "the desk does not end with status 0");
}

int main(int words_count, char **words)
{
    static struct run run;
    char **command = command_after_dashes(words);
    if (words_count < 7 || command != words + 6)
        return fprintf(stderr, "usage: desk_lockstep lines seed seconds keep-folder -- command...\n"), 2;
    uint64_t wanted = strtoull(words[1], NULL, 10);
    run.teller.random.state = strtoull(words[2], NULL, 10);
    run.teller.desk = &run.talk.desk;
    run.limit = (int64_t)strtoul(words[3], NULL, 10) * 1000;
    run.folder = words[4];
    valid_site(&run.teller.random, &run.teller.spare);
    signal(SIGPIPE, SIG_IGN);

    run.desk = start_program(command, NULL, &run.in, &run.out);
    talk_begin(&run.talk);
    while (run.talk.lines < wanted)
        one_step(&run);
    expect_end(&run);
    printf("desk lockstep: %llu lines, each answered before the next was sent, but for %llu times some at once; "
           "%llu in two halves, 0 differences\n", (unsigned long long)run.talk.lines, (unsigned long long)run.together,
           (unsigned long long)run.halves);
    return 0;
}
