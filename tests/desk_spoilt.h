/* Words and lines that are none: too large, too many, of another kind. */
#ifndef DESK_SPOILT_H
#define DESK_SPOILT_H

#include "desk_calls.h"

/* Puts a word that is not of that kind, of form.kinds, into `word`. */
void spoilt_word(struct random *random, char kind, struct text *word);

/* A call's line with that word spoilt, or with too many words or too few: form_message says what it is answered. */
void spoilt_line(struct teller *teller, enum call call, int word);

/* Words that begin as no call does. */
void no_call_line(struct teller *teller);

/* One byte more than a line may have, or a few, or the same again. */
void too_long_line(struct teller *teller);

/* A comment of any bytes but a line's end. */
void comment_line(struct teller *teller);

#endif
