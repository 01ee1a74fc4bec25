/* The desk's calls, each a form and an answer; what the answers say of a flare comes from the reference. */
#include "reference_desk.h"

#include "lines.h"
#include "reference_words.h"

#include <stdlib.h>
#include <string.h>

enum { UNTOUCHED = 0xa5 }; /* what a buffer holds before a call */

static void say_refused(struct reply *reply, uint8_t refusal)
{
    say_number(reply, "refused ", refusal);
}

/* ---- Records alone. ---- */

static void answer_site(struct desk *desk, const struct words *words, struct reply *reply)
{
    struct site site;
    uint8_t refusal = reference_read_site(words->records[0].bytes, words->records[0].length, &site);
    (void)desk;
    if (refusal != ACCEPTED) {
        say_refused(reply, refusal);
        return;
    }
    say_number(reply, "site method ", site.method);
    say_number(reply, " year ", site.year);
    say_number(reply, " gwp ", site.gwp);
    say_number(reply, " height ", site.height);
    say_number(reply, " diameter ", site.diameter);
    say_number(reply, " temperatures ", site.coldest);
    say_number(reply, " ", site.hottest);
    say_number(reply, " flows ", site.least_flow);
    say_number(reply, " ", site.most_flow);
    say_number(reply, " days ", site.days);
}

static void answer_minute(struct desk *desk, const struct words *words, struct reply *reply)
{
    struct minute minute;
    uint8_t refusal = reference_read_minute(words->records[0].bytes, words->records[0].length, &minute);
    (void)desk;
    if (refusal != ACCEPTED) {
        say_refused(reply, refusal);
        return;
    }
    say_number(reply, "minute ", minute.number);
    say_number(reply, " flags ", minute.flags);
    say_number(reply, " temperature ", minute.temperature);
    say_number(reply, " litres ", minute.litres);
    say(reply, " gas");
    for (int i = 0; i < COMPONENTS; i++)
        say_number(reply, " ", minute.ppm[i]);
    say_number(reply, " exhaust ", minute.exhaust_oxygen);
    say_number(reply, " ", minute.exhaust_methane);
}

static uint8_t *untouched_buffer(size_t room)
{
    return memset(desk_memory(room), UNTOUCHED, room);
}

static void say_written(struct reply *reply, uint8_t refusal, const uint8_t *buffer, size_t room)
{
    if (refusal == ACCEPTED)
        say(reply, "wrote");
    else
        say_refused(reply, refusal);
    say(reply, " ");
    say_hex(reply, buffer, room);
}

static void answer_write_site(struct desk *desk, const struct words *words, struct reply *reply)
{
    const int64_t *field = words->numbers;
    struct site site = {
        .method = (uint8_t)field[0], .year = (uint16_t)field[1], .gwp = (uint16_t)field[2],
        .height = (uint32_t)field[3], .diameter = (uint32_t)field[4],
        .coldest = (int16_t)field[5], .hottest = (int16_t)field[6],
        .least_flow = (uint32_t)field[7], .most_flow = (uint32_t)field[8], .days = (uint16_t)field[9],
    };
    size_t room = (size_t)field[10];
    uint8_t *buffer = untouched_buffer(room);
    (void)desk;
    say_written(reply, reference_write_site(&site, buffer, room), buffer, room);
    free(buffer);
}

static void answer_write_minute(struct desk *desk, const struct words *words, struct reply *reply)
{
    const int64_t *field = words->numbers;
    struct minute minute = {
        .number = (uint32_t)field[0], .flags = (uint8_t)field[1],
        .temperature = (int16_t)field[2], .litres = (uint32_t)field[3],
        .exhaust_oxygen = (uint32_t)field[12], .exhaust_methane = (uint32_t)field[13],
    };
    for (int i = 0; i < COMPONENTS; i++)
        minute.ppm[i] = (uint32_t)field[4 + i];
    size_t room = (size_t)field[14];
    uint8_t *buffer = untouched_buffer(room);
    (void)desk;
    say_written(reply, reference_write_minute(&minute, buffer, room), buffer, room);
    free(buffer);
}

static void answer_class(struct desk *desk, const struct words *words, struct reply *reply)
{
    static const char *const names[] = {[OPEN_FLARE] = "open", [LOW_FLARE] = "low", [TALL_FLARE] = "tall"};
    struct site site;
    uint8_t refusal = reference_read_site(words->records[0].bytes, words->records[0].length, &site);
    (void)desk;
    if (refusal != ACCEPTED)
        say_refused(reply, refusal);
    else
        say(reply, names[reference_class(&site)]);
}

static void answer_single(struct desk *desk, const struct words *words, struct reply *reply)
{
    const struct lent *site = &words->records[0], *minute = &words->records[1];
    uint16_t days = (uint16_t)words->numbers[0];
    size_t room = (size_t)words->numbers[1];
    uint8_t *answer = untouched_buffer(room);
    (void)desk;
    say_number(reply, "", reference_minute(site->bytes, site->length, minute->bytes, minute->length, days, answer, room));
    say(reply, " ");
    say_hex(reply, answer, room);
    free(answer);
}

/* ---- The account. ---- */

/* A refusal leaves the account that was open. */
static void answer_open(struct desk *desk, const struct words *words, struct reply *reply)
{
    const struct lent *site = &words->records[0];
    uint8_t refusal = reference_open(&desk->account, site->bytes, site->length, words->days, words->listed);
    if (refusal != ACCEPTED) {
        say_refused(reply, refusal);
        return;
    }
    desk->open = 1;
    say(reply, "opened");
}

static void answer_add(struct desk *desk, const struct words *words, struct reply *reply)
{
    const struct lent *minute = &words->records[0];
    uint8_t refusal;
    char *at = reply_room(reply, LINE_ROOM);
    reply_line(reply, line_of_record(at, &desk->account, minute->bytes, minute->length, &refusal));
}

/* The minute expected, in bytes 3 to 6 as far as the record has them. */
static void put_expected(const struct lent *record, uint32_t expected)
{
    for (size_t i = 0; i < 4 && 3 + i < record->length; i++)
        record->bytes[3 + i] = (uint8_t)(expected >> (24 - 8 * i));
}

static void answer_fill(struct desk *desk, const struct words *words, struct reply *reply)
{
    const struct lent *record = &words->records[0];
    int64_t count = words->numbers[0], taken = 0;
    uint8_t refusal = ACCEPTED;
    struct figures figures;

    while (taken < count && refusal == ACCEPTED) {
        put_expected(record, desk->account.next);
        refusal = reference_add(&desk->account, record->bytes, record->length, &figures);
        taken += refusal == ACCEPTED;
    }
    say_number(reply, "taken ", taken);
    if (refusal == ACCEPTED)
        return;
    say(reply, " ");
    reply_line(reply, line_refused(reply_room(reply, LINE_ROOM), desk->account.next, refusal));
}

static void answer_total(struct desk *desk, const struct words *words, struct reply *reply)
{
    (void)words;
    reply_line(reply, line_of_total(reply_room(reply, LINE_ROOM), &desk->account));
}

static void answer_month(struct desk *desk, const struct words *words, struct reply *reply)
{
    struct row row;
    uint32_t month = (uint32_t)words->numbers[0];
    uint8_t refusal = reference_month(&desk->account, month, &row);
    if (refusal != ACCEPTED)
        say_refused(reply, refusal);
    else
        reply_line(reply, line_of_month(reply_room(reply, LINE_ROOM), &desk->account, month, &row));
}

static void answer_counts(struct desk *desk, const struct words *words, struct reply *reply)
{
    (void)words;
    say(reply, "counts");
    for (int rule = 0; rule < RULES; rule++)
        say_number(reply, " ", desk->account.counts[rule]);
}

static void answer_close(struct desk *desk, const struct words *words, struct reply *reply)
{
    uint64_t tonnes;
    uint8_t refusal = reference_close(&desk->account, &tonnes);
    (void)words;
    if (refusal != ACCEPTED)
        say_refused(reply, refusal);
    else
        reply_line(reply, line_of_year(reply_room(reply, LINE_ROOM), &desk->account));
}

/* The bits of a double, sign first. */
static void say_bits(struct reply *reply, double number)
{
    uint64_t bits;
    uint8_t bytes[sizeof bits];
    memcpy(&bits, &number, sizeof bits);
    for (int i = 0; i < 8; i++)
        bytes[i] = (uint8_t)(bits >> (56 - 8 * i));
    say(reply, " ");
    say_hex(reply, bytes, sizeof bytes);
}

static void answer_chart(struct desk *desk, const struct words *words, struct reply *reply)
{
    struct chart_point point = reference_chart(&desk->account);
    (void)words;
    say(reply, "chart");
    say_bits(reply, point.fed);
    say_bits(reply, point.co2e);
}

/* ---- Runs. ---- */

static void answer_check(struct desk *desk, const struct words *words, struct reply *reply)
{
    struct run_answer answer = reference_check(&desk->account, words->records[0].bytes, words->records[0].length);
    if (answer.refusal == ACCEPTED) {
        say(reply, "fine");
        return;
    }
    if (answer.placed) {
        say_number(reply, "day ", answer.day);
        say_number(reply, " minute ", answer.minute);
        say(reply, " ");
    }
    say_refused(reply, answer.refusal);
}

static void answer_part(struct desk *desk, const struct words *words, struct reply *reply)
{
    struct run_part part = reference_day_part(words->records[0].length, (uint32_t)words->numbers[0]);
    (void)desk;
    if (part.length == 0) {
        say(reply, "part empty");
        return;
    }
    say_number(reply, "part at ", (int64_t)part.at);
    say_number(reply, " bytes ", (int64_t)part.length);
}

/* ---- Lines. ---- */

struct call {
    const char *form, *kinds;
    int needs_account;
    void (*answer)(struct desk *desk, const struct words *words, struct reply *reply);
};

static const struct call calls[] = {
    {"site HEX", "h", 0, answer_site},
    {"minute HEX", "h", 0, answer_minute},
    {"write-site METHOD YEAR GWP HEIGHT DIAMETER LOWEST HIGHEST LOWEST HIGHEST DAYS ROOM", "bwwddiiddww", 0,
     answer_write_site},
    {"write-minute NUMBER FLAGS TEMPERATURE LITRES CH4 CO CO2 O2 H2 H2S NH3 N2 OXYGEN METHANE ROOM", "dbidddddddddddw", 0,
     answer_write_minute},
    {"class HEX", "h", 0, answer_class},
    {"open HEX [days DAY ..]", "hl", 0, answer_open},
    {"add HEX", "h", 1, answer_add},
    {"fill COUNT HEX", "dh", 1, answer_fill},
    {"check HEX", "h", 1, answer_check},
    {"part DAY HEX", "dh", 0, answer_part},
    {"total", "", 1, answer_total},
    {"month MONTH", "d", 1, answer_month},
    {"counts", "", 1, answer_counts},
    {"close", "", 1, answer_close},
    {"chart", "", 1, answer_chart},
    {"single SITE MINUTE DAYS ROOM", "hhww", 0, answer_single},
};

enum { CALLS = sizeof calls / sizeof calls[0] };

static const struct call *call_named(struct word name)
{
    for (size_t i = 0; i < CALLS; i++)
        if (word_is(name, calls[i].form, strcspn(calls[i].form, " ")))
            return &calls[i];
    return NULL;
}

static void say_calls(struct reply *reply)
{
    say(reply, "what? expected a call:");
    for (size_t i = 0; i < CALLS; i++) {
        say(reply, " ");
        say_bytes(reply, calls[i].form, strcspn(calls[i].form, " "));
    }
}

static void answer_call(struct desk *desk, struct rest rest, struct reply *reply)
{
    struct words words = {0};
    struct word name;
    next_word(&rest, &name);
    const struct call *call = call_named(name);
    if (call == NULL) {
        say_calls(reply);
        return;
    }
    if (read_words(call->form, call->kinds, rest, &words, reply)) {
        if (call->needs_account && !desk->open)
            say(reply, "no account");
        else
            call->answer(desk, &words, reply);
    }
    free_words(&words);
}

/* The length is asked first, the \r counted. */
void reference_answer(struct desk *desk, const uint8_t *line, size_t length, struct reply *reply)
{
    reply->length = 0;
    reply_room(reply, LINE_ROOM); /* an empty answer has a text too */
    if (length > LONGEST_LINE) {
        say_number(reply, "what? expected a line of at most ", LONGEST_LINE);
        say(reply, " characters");
        return;
    }
    if (length > 0 && line[length - 1] == '\r')
        length--;
    if (length == 0)
        return;
    if (line[0] == '#')
        say_bytes(reply, line, length);
    else
        answer_call(desk, (struct rest){line, line + length}, reply);
}
