/* A conversation: its lines, what the reference answers to each, and whether a desk answers the same. */
#ifndef DESK_TALK_H
#define DESK_TALK_H

#include "desk_text.h"
#include "reference_desk.h"

struct talk {
    struct desk desk;   /* the reference's, after every line so far */
    struct reply reply; /* its last answer */
    struct text input, expected;
    uint64_t lines;
};

/* A new conversation, without an account. */
void talk_begin(struct talk *talk);

/* A line with its end, which is \n, \r\n or, after the last line, nothing; the reference's answer is in `reply` then. */
void talk_line(struct talk *talk, const struct text *line, const char *end);

/* Whether the command, given all of it in pieces, answers the same and ends by itself with status 0. Where it does not,
 * prints `difference` and keeps the conversation in the folder, by its name. */
int talk_agrees(const struct talk *talk, char **command, const char *folder, const char *name, struct random *random);

/* A line as a message shows it: in quotes, other bytes than text as \x.., a long one without its middle. */
void print_line(const char *who, const char *line, size_t length);

/* Keeps what was said as FOLDER/NAME.txt, and says so. */
void keep_talk(const struct talk *talk, const char *folder, const char *name);

#endif
