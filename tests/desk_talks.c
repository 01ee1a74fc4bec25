/* Random conversations with the desk, beside the reference. Usage: desk_talks calls seed keep-folder -- command... */
#include "desk_spoilt.h"
#include "desk_talk.h"
#include "desk_tally.h"
#include "program.h"

#include <stdio.h>
#include <stdlib.h>
#include <string.h>

/* Of so many calls each answer that can come must come so often; a shorter run is not meant to meet them all. */
enum { MANY = 200000, ENOUGH = 100 };
enum { CALLS_OF_TALK = 2500 };

struct run {
    char **command;
    const char *folder;
    struct teller teller;
    struct talk talk;
    struct tally tally;
    uint64_t wanted, talk_ends, talks, years, bytes;
    uint32_t returns; /* lines of this conversation end with \r\n: none, all, or some */
    int good;
};

/* ---- Saying a line. ---- */

/* The reference is not what the forms say: no need to ask the desk. */
static void reference_differs(struct run *run, const char *expected)
{
    printf("difference: the reference's answer is not what the form says\n");
    print_line("line     ", run->teller.line.bytes, run->teller.line.length);
    print_line("form     ", expected, strlen(expected));
    print_line("reference", run->talk.reply.text, run->talk.reply.length);
    keep_talk(&run->talk, run->folder, "desk-talk-reference");
    run->good = 0;
}

static void say_line(struct run *run)
{
    int returns = run->returns == 1 || (run->returns == 2 && random_one_in(&run->teller.random, 3));
    talk_line(&run->talk, &run->teller.line, returns ? "\r\n" : "\n");
}

static int reply_is(const struct run *run, const char *words)
{
    return run->talk.reply.length == strlen(words) && memcmp(run->talk.reply.text, words, strlen(words)) == 0;
}

/* A line that is a call. */
static void say_call(struct run *run, enum call call)
{
    int none = forms[call].needs_account && !run->talk.desk.open;
    say_line(run);
    int what = run->talk.reply.length > 4 && memcmp(run->talk.reply.text, "what?", 5) == 0;
    if (what || reply_is(run, "no account") != none)
        reference_differs(run, none ? "no account" : "an answer");
    else
        tally_call(&run->tally, call, &run->teller.line, &run->talk.reply, &run->talk.desk);
}

/* A line that is none, with what is said of it. */
static void say_other(struct run *run, const char *message, uint64_t *count)
{
    say_line(run);
    ++*count;
    if (!reply_is(run, message))
        reference_differs(run, message);
}

static void some_call(struct run *run, enum call call)
{
    call_line(&run->teller, call);
    say_call(run, call);
}

/* ---- Lines that are no calls. ---- */

/* Every message of every form as often as any other, and the line that begins with no name among them. */
static void some_spoilt_line(struct run *run)
{
    char message[MESSAGE_ROOM];
    enum call call = CALLS;
    int word = NO_WORD, at = 0, messages = 1;
    for (enum call i = 0; i < CALLS; i++)
        messages += 1 + (int)strlen(forms[i].kinds);
    int chosen = (int)random_below(&run->teller.random, (uint32_t)messages);
    for (enum call i = 0; i < CALLS; i++)
        for (int j = NO_WORD; j < (int)strlen(forms[i].kinds); j++)
            if (at++ == chosen)
                call = i, word = j;
    if (call == CALLS) {
        no_call_line(&run->teller);
        say_other(run, no_call_message, &run->tally.others[NO_CALL]);
        return;
    }
    spoilt_line(&run->teller, call, word);
    form_message(call, word, message);
    say_other(run, message, &run->tally.what[call][word + 1]);
}

static void some_comment(struct run *run)
{
    comment_line(&run->teller);
    say_line(run);
    run->tally.others[COMMENT]++;
}

static void some_empty_line(struct run *run)
{
    run->teller.line.length = 0;
    say_other(run, "", &run->tally.others[EMPTY]);
}

static void some_long_line(struct run *run)
{
    char message[MESSAGE_ROOM];
    too_long_line(&run->teller);
    too_long_message(message);
    say_other(run, message, &run->tally.others[TOO_LONG]);
}

/* ---- Chapters: an opening and what follows it. ---- */

/* How often each call comes; a chapter about an account does not lose it. */
static const uint8_t any_call[CALLS] = {
    [CALL_SITE] = 5, [CALL_MINUTE] = 6, [CALL_WRITE_SITE] = 6, [CALL_WRITE_MINUTE] = 8, [CALL_CLASS] = 5, [CALL_OPEN] = 6,
    [CALL_ADD] = 18, [CALL_FILL] = 9, [CALL_CHECK] = 10, [CALL_PART] = 3, [CALL_TOTAL] = 1, [CALL_MONTH] = 2,
    [CALL_COUNTS] = 1, [CALL_CLOSE] = 1, [CALL_CHART] = 1, [CALL_SINGLE] = 12,
};
static const uint8_t account_call[CALLS] = {
    [CALL_ADD] = 10, [CALL_FILL] = 5, [CALL_CHECK] = 6, [CALL_TOTAL] = 1, [CALL_MONTH] = 3, [CALL_COUNTS] = 1,
    [CALL_CLOSE] = 2, [CALL_CHART] = 1,
};
static const uint8_t no_account_call[CALLS] = {
    [CALL_SITE] = 1, [CALL_OPEN] = 2, [CALL_ADD] = 3, [CALL_FILL] = 3, [CALL_CHECK] = 3, [CALL_TOTAL] = 3, [CALL_MONTH] = 3,
    [CALL_COUNTS] = 3, [CALL_CLOSE] = 3, [CALL_CHART] = 3, [CALL_SINGLE] = 1,
};

static enum call by_weight(struct random *random, const uint8_t *weights)
{
    uint32_t all = 0, call = 0;
    for (int i = 0; i < CALLS; i++)
        all += weights[i];
    uint32_t chosen = random_below(random, all);
    while (chosen >= weights[call])
        chosen -= weights[call++];
    return (enum call)call;
}

static int goes_on(const struct run *run)
{
    return run->good && run->tally.calls < run->wanted;
}

static void some_lines(struct run *run, const uint8_t *weights, uint32_t lines)
{
    struct random *random = &run->teller.random;
    for (; lines > 0 && goes_on(run); lines--) {
        uint32_t chance = random_below(random, 200);
        if (chance < 11)
            some_spoilt_line(run);
        else if (chance < 13)
            some_comment(run);
        else if (chance < 15)
            some_empty_line(run);
        else
            some_call(run, by_weight(random, weights));
    }
}

/* Minutes of one record up to there; adding goes on from it. */
static void fill_to(struct run *run, uint32_t minute)
{
    if (!goes_on(run))
        return;
    fill_up_to(&run->teller, minute);
    say_call(run, CALL_FILL);
}

static void how_it_stands(struct run *run)
{
    for (enum call call = CALL_TOTAL; call <= CALL_CHART && goes_on(run); call++)
        some_call(run, call);
}

static void ask_month(struct run *run, uint32_t month)
{
    if (!goes_on(run))
        return;
    month_line(&run->teller, month);
    say_call(run, CALL_MONTH);
}

/* The numbers beside the twelve too. */
static void every_month(struct run *run)
{
    for (uint32_t month = 0; month <= MONTHS + 1; month++)
        ask_month(run, month);
}

/* Up to the last minute of a month, that minute, and the first of the next, each by a record of its own. */
static void over_month_ends(struct run *run)
{
    for (uint32_t month = 1; month < MONTHS; month++) {
        uint32_t end = month_end(&run->teller, month);
        if (random_one_in(&run->teller.random, 6))
            continue; /* the next record goes over this one as over any other minute */
        for (uint32_t minute = end - 1; minute <= end + 1; minute++) {
            fill_to(run, minute);
            ask_month(run, month);
            ask_month(run, month + 1);
        }
    }
}

/* Almost to the end of the year, up to its last minute, over it, and what is answered when it is full. */
static void end_of_year(struct run *run)
{
    static const uint32_t some[] = {0, 1, 2, 3, 6, 12};
    struct random *random = &run->teller.random;
    uint32_t end = reference_year_minutes(teller_site(&run->teller)->year), before = PICK(random, some);
    some_lines(run, account_call, random_below(random, 6));
    if (!random_one_in(random, 4))
        over_month_ends(run);
    fill_to(run, end - before);
    for (uint32_t adds = before / 2; adds > 0 && goes_on(run); adds--)
        some_call(run, CALL_ADD);
    if (minutes_left(&run->teller) > 1)
        fill_to(run, end - 1);
    how_it_stands(run);
    every_month(run);
    some_lines(run, account_call, random_between(random, 10, 30));
    if (minutes_left(&run->teller) > 0)
        fill_to(run, end);
    every_month(run);
    some_lines(run, account_call, random_between(random, 30, 50));
    run->years++;
}

static void round_midnight(struct run *run)
{
    struct random *random = &run->teller.random;
    uint32_t midnight = DAY_MINUTES * random_between(random, 1, 4);
    fill_to(run, midnight - random_below(random, 5));
    some_lines(run, account_call, random_between(random, 5, 25));
}

/* The years that are filled are ordinary ones and leap years in turn. */
static int of_its_kind(const struct run *run)
{
    return (run->teller.spare.year % 4 == 0) == (run->years % 2 != 0);
}

static void one_chapter(struct run *run, int year)
{
    do
        opening_line(&run->teller);
    while (year && !of_its_kind(run));
    say_call(run, CALL_OPEN);
    if (year)
        end_of_year(run);
    else if (random_one_in(&run->teller.random, 12))
        round_midnight(run);
    some_lines(run, any_call, random_between(&run->teller.random, 5, 70));
    how_it_stands(run);
}

/* ---- Conversations. ---- */

/* The first lines find no account. One conversation in two comes to the end of a year; each has a line too long, or two. */
static void make_talk(struct run *run)
{
    struct random *random = &run->teller.random;
    uint32_t year_in = random_below(random, 10), too_long = random_between(random, 1, 2), chapter = 0;
    uint64_t end = run->tally.calls + CALLS_OF_TALK;
    talk_begin(&run->talk);
    run->returns = random_below(random, 3);
    valid_site(random, &run->teller.spare);
    some_lines(run, no_account_call, random_below(random, 60));
    for (; goes_on(run) && run->tally.calls < end; chapter++) {
        one_chapter(run, run->talks % 2 == 0 && chapter == year_in);
        if (chapter < too_long)
            some_long_line(run);
    }
    call_line(&run->teller, CALL_TOTAL);
    talk_line(&run->talk, &run->teller.line, random_one_in(random, 2) ? "\n" : run->returns == 1 ? "\r" : "");
}

static void one_talk(struct run *run)
{
    char name[64];
    make_talk(run);
    snprintf(name, sizeof name, "desk-talk-%llu", (unsigned long long)run->talks);
    struct random pieces = {random_bits(&run->teller.random)}; /* how far the desk reads must not change the next one */
    if (run->good)
        run->good = talk_agrees(&run->talk, run->command, run->folder, name, &pieces);
    run->bytes += run->talk.input.length;
    run->talks++;
}

static uint64_t other_lines(const struct tally *tally)
{
    uint64_t lines = 0;
    for (int i = 0; i < OTHERS; i++)
        lines += tally->others[i];
    for (int i = 0; i < CALLS * MOST_WORDS; i++)
        lines += tally->what[i / MOST_WORDS][i % MOST_WORDS];
    return lines;
}

int main(int words_count, char **words)
{
    static struct run run;
    char **command = command_after_dashes(words);
    if (words_count < 6 || command != words + 5)
        return fprintf(stderr, "usage: desk_talks calls seed keep-folder -- command...\n"), 2;
    run.wanted = strtoull(words[1], NULL, 10);
    run.teller.random.state = strtoull(words[2], NULL, 10);
    run.teller.desk = &run.talk.desk;
    run.folder = words[3];
    run.command = command;
    run.good = 1;

    while (goes_on(&run))
        one_talk(&run);
    if (!run.good)
        return 1;
    tally_print(&run.tally);
    int enough = run.tally.calls < MANY || tally_is_enough(&run.tally, ENOUGH);
    printf("desk talks: %llu calls in %llu conversations, %llu other lines, %llu accounts opened, %llu years filled, "
           "%llu bytes, 0 differences\n",
           (unsigned long long)run.tally.calls, (unsigned long long)run.talks, (unsigned long long)other_lines(&run.tally),
           (unsigned long long)run.tally.openings, (unsigned long long)run.years, (unsigned long long)run.bytes);
    return enough ? 0 : 1;
}
