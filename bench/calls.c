/* Minutes a second of flare_minute and of reference_minute over a day's varied records, in turn; best of the rounds. */
/* Usage: calls rounds; a line for each kind of site: its name, then both numbers. */
#include "flare.h"
#include "year.h"

#include <stdio.h>
#include <stdlib.h>
#include <time.h>

enum { DAYS_A_ROUND = 200 };

typedef uint8_t minute_call(const uint8_t *, size_t, const uint8_t *, size_t, uint16_t, uint8_t *, size_t);

static double now(void)
{
    struct timespec time;
    clock_gettime(CLOCK_MONOTONIC, &time);
    return (double)time.tv_sec + (double)time.tv_nsec / 1e9;
}

/* The answers are added up, so that both calls must have given the same ones. */
static double seconds_of_round(minute_call *one, const uint8_t *input, uint64_t *sum)
{
    uint8_t answer[ANSWER_BYTES];
    double begun = now();
    for (int day = 0; day < DAYS_A_ROUND; day++)
        for (int i = 0; i < DAY_MINUTES; i++) {
            const uint8_t *minute = input + SITE_BYTES + i * MINUTE_BYTES;
            *sum += one(input, SITE_BYTES, minute, MINUTE_BYTES, 0, answer, ANSWER_BYTES);
            *sum += answer[7] + 256u * answer[15] + 65536u * answer[23] + answer[24];
        }
    return now() - begun;
}

static int one_kind(enum year_kind kind, int rounds)
{
    minute_call *const calls[] = {flare_minute, reference_minute};
    double best[] = {1e9, 1e9};
    uint64_t sums[] = {0, 0};
    size_t length;
    uint8_t *input = year_input(kind, 2028, DAY_MINUTES, &length);
    for (; rounds > 0; rounds--)
        for (int i = 0; i < 2; i++) {
            double seconds = seconds_of_round(calls[i], input, &sums[i]);
            best[i] = seconds < best[i] ? seconds : best[i];
        }
    free(input);
    double minutes = (double)DAYS_A_ROUND * DAY_MINUTES;
    printf("%s %.0f %.0f\n", year_names[kind], minutes / best[0], minutes / best[1]);
    return sums[0] == sums[1];
}

int main(int count, char **words)
{
    int rounds = count > 1 ? atoi(words[1]) : 15;
    int same = 1;
    for (enum year_kind kind = 0; kind < YEAR_KINDS; kind++)
        same &= one_kind(kind, rounds);
    if (!same)
        fprintf(stderr, "the two calls gave different answers\n");
    return same ? 0 : 1;
}
