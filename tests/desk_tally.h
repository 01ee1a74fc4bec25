/* How often each answer came: a run that does not meet one says nothing about it. */
#ifndef DESK_TALLY_H
#define DESK_TALLY_H

#include "desk_calls.h"

/* What a call was answered: 0, a refusal's number, that of a place in a run or of the second record, or no account. */
enum { SECOND = REFUSALS, NO_ACCOUNT = 2 * REFUSALS, OUTCOMES };

/* Other lines than calls. */
enum other { TOO_LONG, NO_CALL, COMMENT, EMPTY, OTHERS };

enum { MOST_WORDS = 16 };
struct tally {
    uint64_t calls;
    uint64_t outcomes[CALLS][OUTCOMES];
    uint64_t what[CALLS][MOST_WORDS]; /* NO_WORD stands at 0, so that word i stands at i + 1 */
    uint64_t others[OTHERS];
    uint64_t rules[RULES], classes[3], openings; /* of added minutes, of `class`; and accounts opened */
    uint64_t months[2][MONTHS]; /* months answered that have minutes with methane, of an ordinary and of a leap year */
};

/* Counts a call that is one, by its line, the reference's answer and its desk after that. */
void tally_call(struct tally *tally, enum call call, const struct text *line, const struct reply *reply,
                const struct desk *desk);

void tally_print(const struct tally *tally);

/* False where one that can come has come fewer times, and says which: `too few`. */
int tally_is_enough(const struct tally *tally, uint64_t enough);

#endif
