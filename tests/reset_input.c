/* Runs a program whose input fails after so many bytes: a connection that its sender resets. */
/* Usage: reset_input file bytes command... */
#include <arpa/inet.h>
#include <stdio.h>
#include <stdlib.h>
#include <sys/ioctl.h>
#include <sys/socket.h>
#include <sys/wait.h>
#include <unistd.h>

static void fail(const char *what)
{
    perror(what);
    exit(2);
}

/* Both ends of a connection on this machine. */
static void connect_ends(int *sender, int *receiver)
{
    struct sockaddr_in here = {.sin_family = AF_INET, .sin_addr.s_addr = htonl(INADDR_LOOPBACK)};
    socklen_t size = sizeof here;
    int listener = socket(AF_INET, SOCK_STREAM, 0);
    if (listener < 0 || bind(listener, (struct sockaddr *)&here, size) != 0 || listen(listener, 1) != 0)
        fail("listen");
    if (getsockname(listener, (struct sockaddr *)&here, &size) != 0)
        fail("getsockname");
    *sender = socket(AF_INET, SOCK_STREAM, 0);
    if (connect(*sender, (struct sockaddr *)&here, size) != 0)
        fail("connect");
    *receiver = accept(listener, NULL, NULL);
    close(listener);
}

static void send_first(int to, const char *name, size_t bytes)
{
    FILE *file = fopen(name, "rb");
    char *room = malloc(bytes + 1);
    if (file == NULL || room == NULL || fread(room, 1, bytes, file) != bytes)
        fail(name);
    for (size_t sent = 0; sent < bytes;) {
        ssize_t put = write(to, room + sent, bytes - sent);
        if (put <= 0)
            fail("send");
        sent += (size_t)put;
    }
    fclose(file);
    free(room);
}

/* A reset takes back what was not read yet, so the program first takes all of it. */
static void wait_until_taken(int sender, int receiver)
{
    int unsent = 1, unread = 1;
    while (unsent > 0 || unread > 0) {
        if (ioctl(sender, TIOCOUTQ, &unsent) != 0 || ioctl(receiver, FIONREAD, &unread) != 0)
            fail("ioctl");
        usleep(1000);
    }
}

int main(int count, char **words)
{
    int sender, receiver, status;
    const struct linger reset = {.l_onoff = 1, .l_linger = 0};
    if (count < 4)
        return fprintf(stderr, "usage: reset_input file bytes command...\n"), 2;
    connect_ends(&sender, &receiver);
    pid_t program = fork();
    if (program == 0) {
        dup2(receiver, 0);
        close(sender);
        close(receiver);
        execv(words[3], words + 3);
        fail(words[3]);
    }
    send_first(sender, words[1], strtoul(words[2], NULL, 10));
    wait_until_taken(sender, receiver);
    setsockopt(sender, SOL_SOCKET, SO_LINGER, &reset, sizeof reset);
    close(sender);
    close(receiver);
    return waitpid(program, &status, 0) == program && WIFEXITED(status) ? WEXITSTATUS(status) : 1;
}
