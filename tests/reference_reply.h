/* A reply of the desk, put together from words, numbers and bytes. */
#ifndef REFERENCE_REPLY_H
#define REFERENCE_REPLY_H

#include "reference_desk.h"

/* Memory, or the end of the program where there is none; never NULL. */
void *desk_memory(size_t bytes);

/* The place after the reply's text, with room for `more` characters. */
char *reply_room(struct reply *reply, size_t more);

/* Takes up a line that was written there, without the line's end. */
void reply_line(struct reply *reply, const char *end);

void say(struct reply *reply, const char *words);
void say_bytes(struct reply *reply, const void *bytes, size_t length);
void say_hex(struct reply *reply, const uint8_t *bytes, size_t length);

/* A space, or the words before it, then the number in decimal. */
void say_number(struct reply *reply, const char *words, int64_t number);

#endif
