/* The lines of the program `flare`, as 01 prints them; of a summary, which has the minutes of each rule before the end; and of
 * the program `months`, which has the twelve months there. */
#ifndef LINES_H
#define LINES_H

#include "reference.h"

/* No line, and not total and year together, is longer; nor are the ten rules' lines, a summary, or what `months` prints. */
enum { LINE_ROOM = 256, RULES_ROOM = 640, SUMMARY_ROOM = RULES_ROOM + 2 * LINE_ROOM, SHEET_ROOM = (MONTHS + 2) * LINE_ROOM };

/* How an input ended: what the comparisons count. */
struct outcome {
    uint8_t site_refusal, minute_refusal;
    int cut, closed;
    uint32_t counts[RULES];
};

/* Each writes at `at` and gives the place after it; the record call also says whether it was refused. */
char *put_number(char *at, uint64_t number);
char *line_refused(char *at, uint32_t expected, uint8_t refusal);
char *line_site_refused(char *at, uint8_t refusal);
char *line_of_record(char *at, struct account *account, const uint8_t *bytes, size_t length, uint8_t *refusal);
char *lines_of_rules(char *at, const struct account *account);
char *line_of_month(char *at, const struct account *account, uint32_t month, const struct row *row);
char *lines_of_months(char *at, const struct account *account);
char *line_of_total(char *at, const struct account *account);
char *line_of_year(char *at, const struct account *account);
char *lines_of_end(char *at, const struct account *account);

/* The whole text for an input that lies in memory, with an empty list; `text` has room for text_room(length). */
size_t text_room(size_t length);
size_t text_of_input(const uint8_t *input, size_t length, char *text, struct outcome *outcome);

/* What `months` prints of it: the twelve months, a refused minute, total and year; `text` has SHEET_ROOM. */
size_t sheet_of_input(const uint8_t *input, size_t length, char *text, struct outcome *outcome);

/* The summary with that list: rules, a refused minute, total and year; `text` has SUMMARY_ROOM. */
size_t summary_of_input(const uint8_t *input, size_t length, const int32_t *days, size_t count, char *text,
                        struct outcome *outcome);

#endif
