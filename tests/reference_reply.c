/* The reply grows by doubling, so that one that is used again soon needs no more memory. */
#include "reference_reply.h"

#include "lines.h"

#include <stdio.h>
#include <stdlib.h>
#include <string.h>

void *desk_memory(size_t bytes)
{
    void *memory = malloc(bytes > 0 ? bytes : 1);
    if (memory == NULL) {
        perror("memory for the desk");
        exit(2);
    }
    return memory;
}

char *reply_room(struct reply *reply, size_t more)
{
    if (reply->text == NULL || reply->room - reply->length < more) {
        size_t room = 2 * reply->length + more;
        char *text = desk_memory(room);
        if (reply->length > 0)
            memcpy(text, reply->text, reply->length);
        free(reply->text);
        reply->text = text;
        reply->room = room;
    }
    return reply->text + reply->length;
}

void reply_line(struct reply *reply, const char *end)
{
    reply->length = (size_t)(end - reply->text) - 1;
}

void say_bytes(struct reply *reply, const void *bytes, size_t length)
{
    memcpy(reply_room(reply, length), bytes, length);
    reply->length += length;
}

void say(struct reply *reply, const char *words)
{
    say_bytes(reply, words, strlen(words));
}

void say_hex(struct reply *reply, const uint8_t *bytes, size_t length)
{
    static const char digits[] = "0123456789abcdef";
    char *at = reply_room(reply, 2 * length);
    for (size_t i = 0; i < length; i++) {
        *at++ = digits[bytes[i] >> 4];
        *at++ = digits[bytes[i] & 15];
    }
    reply->length += 2 * length;
}

void say_number(struct reply *reply, const char *words, int64_t number)
{
    say(reply, words);
    if (number < 0)
        say(reply, "-");
    char *at = reply_room(reply, 20);
    reply->length += (size_t)(put_number(at, (uint64_t)(number < 0 ? -number : number)) - at);
}
