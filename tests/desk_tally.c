/* Answers sorted by what they begin with; which can come at all is document 01's. */
#define _GNU_SOURCE
#include "desk_tally.h"

#include <stdio.h>
#include <stdlib.h>
#include <string.h>

/* ---- Sorting. ---- */

static int begins(const struct reply *reply, const char *words)
{
    size_t length = strlen(words);
    return reply->length >= length && memcmp(reply->text, words, length) == 0;
}

/* The number after these words, wherever they stand; -1 where they do not. */
static int number_after(const struct reply *reply, const char *words)
{
    const char *at = memmem(reply->text, reply->length, words, strlen(words));
    if (at == NULL)
        return -1;
    int number = 0;
    for (at += strlen(words); at < reply->text + reply->length && *at >= '0' && *at <= '9'; at++)
        number = 10 * number + (*at - '0');
    return number;
}

/* Of the two records' refusals 1 and 2 it is the minute's where the site has its length and version. */
static int outcome_of_single(const struct text *line, const struct reply *reply)
{
    int number = atoi(reply->text);
    const char *site = line->bytes + strlen("single ");
    int header = line->length > 67 && strncasecmp(site, "001c01", 6) == 0 && memchr(site, ' ', 61) == site + 60;
    int of_minute = number >= FLAGS && number != BUFFER;
    return of_minute || (header && number <= VERSION && number > 0) ? SECOND + number : number;
}

static int outcome_of(enum call call, const struct text *line, const struct reply *reply)
{
    if (begins(reply, "no account"))
        return NO_ACCOUNT;
    if (call == CALL_SINGLE)
        return outcome_of_single(line, reply);
    if (begins(reply, "part empty"))
        return DAY;
    int number = number_after(reply, "refused ");
    return number < 0 ? ACCEPTED : begins(reply, "day ") ? SECOND + number : number;
}

/* A month of zeros says little: the same is answered where nothing was ever added. */
static void tally_month(struct tally *tally, const struct reply *reply, const struct desk *desk)
{
    static const char nothing[] = " emitted 0 ";
    int month = number_after(reply, "month ");
    if (memmem(reply->text, reply->length, nothing, strlen(nothing)) == NULL)
        tally->months[desk->account.site.year % 4 == 0][(month - 1) % MONTHS]++;
}

void tally_call(struct tally *tally, enum call call, const struct text *line, const struct reply *reply,
                const struct desk *desk)
{
    int outcome = outcome_of(call, line, reply);
    tally->calls++;
    tally->outcomes[call][outcome]++;
    if (outcome != ACCEPTED)
        return;
    if (call == CALL_ADD)
        tally->rules[number_after(reply, " rule ") % RULES]++;
    if (call == CALL_CLASS)
        tally->classes[begins(reply, "open") ? OPEN_FLARE : begins(reply, "low") ? LOW_FLARE : TALL_FLARE]++;
    if (call == CALL_MONTH)
        tally_month(tally, reply, desk);
    tally->openings += call == CALL_OPEN;
}

/* ---- What can come. ---- */

#define BIT(n) (1ull << (n))
#define BITS(from, to) (BIT((to) + 1) - BIT(from))

/* The refusals of each call, in 01's order, but for `no account`; a run's places and the single call's minute in SECOND. */
static uint64_t can_come(enum call call)
{
    const uint64_t site = BITS(LENGTH, SCHEDULE), alone = BITS(LENGTH, VERSION) | BITS(FLAGS, EXHAUST);
    const uint64_t in_turn = BIT(FULL) | BITS(LENGTH, VERSION) | BITS(FLAGS, OXYGEN);
    switch (call) {
    case CALL_SITE:
    case CALL_CLASS:
        return site;
    case CALL_MINUTE:
        return alone;
    case CALL_WRITE_SITE:
        return BIT(BUFFER) | BITS(METHOD, SCHEDULE);
    case CALL_WRITE_MINUTE:
        return BIT(BUFFER) | BITS(FLAGS, EXHAUST);
    case CALL_OPEN:
        return BITS(LENGTH, LIST);
    case CALL_ADD:
        return in_turn;
    case CALL_FILL: /* it puts the right minute in */
        return in_turn & ~BIT(ORDER);
    case CALL_CHECK:
        return BIT(LENGTH) | in_turn << SECOND;
    case CALL_PART:
        return BIT(DAY);
    case CALL_MONTH:
        return BIT(MONTH);
    case CALL_CLOSE:
        return BIT(INCOMPLETE);
    case CALL_SINGLE:
        return BIT(BUFFER) | site | (in_turn & ~BIT(FULL)) << SECOND;
    default:
        return 0;
    }
}

/* ---- Printing. ---- */

static const char *const other_names[OTHERS] = {"lines too long", "lines that are no call", "comments", "empty lines"};

static void outcome_words(enum call call, int outcome, char words[64])
{
    const char *what = outcome < SECOND ? "refused" : call == CALL_CHECK ? "placed" : "minute refused";
    if (outcome == ACCEPTED || outcome == NO_ACCOUNT || outcome == DAY)
        snprintf(words, 64, "%s", outcome == ACCEPTED ? "answered" : outcome == DAY ? "empty" : "no account");
    else
        snprintf(words, 64, "%s %d", what, outcome % REFUSALS);
}

static void print_call(const struct tally *tally, enum call call)
{
    char words[64];
    const char *before = "";
    printf("  %s:", forms[call].name);
    for (int i = 0; i < OUTCOMES; i++) {
        outcome_words(call, i, words);
        if (tally->outcomes[call][i] > 0) {
            printf("%s %s %llu", before, words, (unsigned long long)tally->outcomes[call][i]);
            before = ",";
        }
    }
    printf("; what?");
    for (size_t i = 0; i <= strlen(forms[call].kinds); i++)
        printf(" %llu", (unsigned long long)tally->what[call][i]);
    printf("\n");
}

static void print_list(const char *name, const uint64_t *counts, int count)
{
    printf("  %s:", name);
    for (int i = 0; i < count; i++)
        printf(" %llu", (unsigned long long)counts[i]);
    printf("\n");
}

void tally_print(const struct tally *tally)
{
    for (enum call call = 0; call < CALLS; call++)
        print_call(tally, call);
    for (int i = 0; i < OTHERS; i++)
        print_list(other_names[i], &tally->others[i], 1);
    print_list("added under each rule", tally->rules, RULES);
    print_list("classes open, low, tall", tally->classes, 3);
    print_list("months with methane, ordinary years", tally->months[0], MONTHS);
    print_list("months with methane, leap years", tally->months[1], MONTHS);
}

/* ---- What is missing. ---- */

static int is_enough(uint64_t count, uint64_t enough, const char *name, const char *what)
{
    if (count < enough)
        printf("too few: %s, %s: %llu\n", name, what, (unsigned long long)count);
    return count >= enough;
}

static int call_is_enough(const struct tally *tally, enum call call, uint64_t enough)
{
    uint64_t can = can_come(call) | BIT(ACCEPTED) | (forms[call].needs_account ? BIT(NO_ACCOUNT) : 0);
    char words[64], message[MESSAGE_ROOM];
    int good = 1;
    for (int i = 0; i < OUTCOMES; i++) {
        outcome_words(call, i, words);
        if (can & BIT(i))
            good &= is_enough(tally->outcomes[call][i], enough, forms[call].name, words);
    }
    for (int word = NO_WORD; word < (int)strlen(forms[call].kinds); word++) {
        form_message(call, word, message);
        good &= is_enough(tally->what[call][word + 1], enough, forms[call].name, message);
    }
    return good;
}

int tally_is_enough(const struct tally *tally, uint64_t enough)
{
    int good = 1;
    for (enum call call = 0; call < CALLS; call++)
        good &= call_is_enough(tally, call, enough);
    for (int i = 0; i < OTHERS; i++)
        good &= is_enough(tally->others[i], enough, "of all", other_names[i]);
    for (int i = 0; i < RULES; i++)
        good &= is_enough(tally->rules[i], enough, "add", "each of the rules");
    for (int i = 0; i < 3; i++)
        good &= is_enough(tally->classes[i], enough, "class", "each of the three");
    for (int i = 0; i < 2 * MONTHS; i++) /* half as often in either kind of year */
        good &= is_enough(tally->months[i / MONTHS][i % MONTHS], enough / 2, "month", "each of the twelve, with methane");
    return good;
}
