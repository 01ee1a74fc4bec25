/* The desk's calls: what each line must be, and what the desk says of one that is not. */
#ifndef DESK_FORMS_H
#define DESK_FORMS_H

#include <stddef.h>
#include <stdint.h>

enum call {
    CALL_SITE, CALL_MINUTE, CALL_WRITE_SITE, CALL_WRITE_MINUTE, CALL_CLASS, CALL_OPEN, CALL_ADD, CALL_FILL, CALL_CHECK,
    CALL_PART, CALL_TOTAL, CALL_MONTH, CALL_COUNTS, CALL_CLOSE, CALL_CHART, CALL_SINGLE,
    CALLS
};

/* Of each word after the name: h bytes in hexadecimal; b, w, d a number of 8, 16, 32 bits; i a signed one of 16. */
struct form {
    const char *name, *text;
    const char *words; /* their names, one space apart; for `open` also that of a day */
    const char *kinds; /* a letter for each */
    int needs_account;
};

extern const struct form forms[CALLS];

/* No message is longer. */
enum { MESSAGE_ROOM = 256, NO_WORD = -1 };

/* What the desk says where that word, counted from 0, is not of its kind; NO_WORD: too many words or too few. */
void form_message(enum call call, int word, char message[MESSAGE_ROOM]);
extern const char no_call_message[];

/* The longest line, and what is said of a longer one. */
enum { LONGEST = 320000 };
void too_long_message(char message[MESSAGE_ROOM]);

/* The ends of a kind of number. */
void ends_of_kind(char kind, int64_t *least, int64_t *most);

#endif
