/* Lines for the desk that are too long or too many to be stored: years of different minutes, runs of days, the longest lines.
   Usage: desk_long [year-2027|year-2028|open-day|chart|runs|lengths], without a word their names; tests/desk/long has the answers. */
#include "inputs.h"
#include "reference_desk.h"

#include <stdio.h>
#include <stdlib.h>
#include <string.h>

enum { DAY_BYTES = DAY_MINUTES * MINUTE_BYTES };

/* ---- Minutes whose readings go by the minute's number, so that every rule of a flare comes up. ---- */

static const char pattern_words[] =
    "# Minute n has no flame where n is a multiple of 13, no temperature at those of 19, no exhaust readings at those of 23,\n"
    "# temperature 4500 + 500 x (n mod 17), litres 6000 x (n mod 11),\n"
    "# CH4 500000 + n mod 1009, CO n mod 101, CO2 300000, O2 n mod 103, H2 n mod 107, H2S n mod 109, NH3 n mod 113, N2 the rest,\n"
    "# exhaust oxygen n mod 210000, exhaust methane n mod 50001.\n"
    "# The specification is temperature 5000 to 12000 and flow 100 to 50000.\n";

static void fill_gas(uint32_t n, uint32_t *ppm)
{
    ppm[CH4] = 500000 + n % 1009;
    ppm[CO] = n % 101;
    ppm[CO2] = 300000;
    ppm[O2] = n % 103;
    ppm[H2] = n % 107;
    ppm[H2S] = n % 109;
    ppm[NH3] = n % 113;
    ppm[N2] = 1000000;
    for (int i = 0; i < N2; i++)
        ppm[N2] -= ppm[i];
}

static void minute_record(uint32_t n, struct record *record)
{
    struct minute minute = {.number = n, .litres = 6000 * (n % 11)};
    if (n % 13 != 0)
        minute.flags |= FLAME_SEEN;
    if (n % 19 != 0) {
        minute.flags |= TEMPERATURE_PRESENT;
        minute.temperature = (int16_t)(4500 + 500 * (n % 17));
    }
    if (n % 23 != 0) {
        minute.flags |= EXHAUST_PRESENT;
        minute.exhaust_oxygen = n % 210000;
        minute.exhaust_methane = n % 50001;
    }
    fill_gas(n, minute.ppm);
    write_minute(&minute, record);
}

/* ---- Lines. ---- */

static void hex(const uint8_t *bytes, size_t length)
{
    static const char digits[] = "0123456789abcdef";
    for (size_t i = 0; i < length; i++) {
        putchar(digits[bytes[i] >> 4]);
        putchar(digits[bytes[i] & 15]);
    }
}

/* line("check ", bytes, length): a call whose last word is these bytes. */
static void line(const char *words, const uint8_t *bytes, size_t length)
{
    fputs(words, stdout);
    hex(bytes, length);
    putchar('\n');
}

/* The same with one digit more, which makes it no call. */
static void odd_line(const char *words, const uint8_t *bytes, size_t length)
{
    fputs(words, stdout);
    hex(bytes, length);
    puts("0");
}

/* A flare 1,000 mm wide. `list` is nothing, or " days " and the days. */
static void open_flare(uint8_t method, uint16_t year, uint32_t height, uint16_t days, const char *list)
{
    struct site site = {.method = method, .year = year, .gwp = 28, .height = height, .diameter = 1000,
                        .coldest = 5000, .hottest = 12000, .least_flow = 100, .most_flow = 50000, .days = days};
    struct record record;
    write_site(&site, &record);
    fputs("open ", stdout);
    hex(record.bytes, record.length);
    puts(list);
}

static void open_tall(const char *list)
{
    open_flare(MEASURED_METHOD, 2027, 10001, 365, list);
}

static void add(uint32_t n)
{
    struct record record;
    minute_record(n, &record);
    line("add ", record.bytes, record.length);
}

static void add_from(uint32_t first, uint32_t end)
{
    for (uint32_t n = first; n < end; n++)
        add(n);
}

/* ---- Years. ---- */

static void each_month(void)
{
    for (int month = 1; month <= MONTHS; month++)
        printf("month %d\n", month);
}

/* The rest of a year of so many minutes: closed too early and in time, and added to when it is full. */
static void rest_of_year(uint32_t minutes)
{
    static const uint8_t zeros[MINUTE_BYTES];
    add_from(0, minutes - 1);
    puts("# closing one minute before the end\nclose\n# the last minute");
    add(minutes - 1);
    puts("total\ncounts\nchart\n# each month");
    each_month();
    puts("# closing, and closing again\nclose\nclose\n# one minute more, and a record of zeros");
    add(minutes);
    line("add ", zeros, sizeof zeros);
    puts("total\ncounts\nchart\nclose");
}

static void ordinary_year(void)
{
    puts("# The ordinary year 2027 at a low measured flare, 90 days allowed, maintenance on days -30, 100 and 280.");
    fputs(pattern_words, stdout);
    open_flare(MEASURED_METHOD, 2027, 10000, 90, " days -30 100 280");
    rest_of_year(525600);
}

static void leap_year(void)
{
    puts("# The leap year 2028 at a low default flare, no maintenance listed.");
    fputs(pattern_words, stdout);
    open_flare(DEFAULT_METHOD, 2028, 10000, 0, "");
    rest_of_year(527040);
}

static void open_day(void)
{
    puts("# The first day of 2028 at an open flare.");
    fputs(pattern_words, stdout);
    open_flare(DEFAULT_METHOD, 2028, 2000, 0, "");
    add_from(0, DAY_MINUTES);
    puts("total\ncounts\nchart\nclose");
}

static void chart(void)
{
    puts("# Chart points of a tall measured flare: one day without maintenance.");
    fputs(pattern_words, stdout);
    open_tall("");
    add_from(0, DAY_MINUTES);
    puts("total\ncounts\nchart\n\n# One year, with maintenance on day 0.");
    open_tall(" days 0");
    add_from(0, 525600);
    puts("total\ncounts\nchart\nclose");
}

/* ---- Runs. ---- */

/* The records from the first minute on, freed by the caller. */
static uint8_t *run_of(uint32_t first, uint32_t minutes)
{
    struct record record;
    uint8_t *run = malloc((size_t)minutes * MINUTE_BYTES);
    if (run == NULL) {
        perror("memory for a run");
        exit(2);
    }
    for (uint32_t i = 0; i < minutes; i++) {
        minute_record(first + i, &record);
        memcpy(run + (size_t)i * MINUTE_BYTES, record.bytes, MINUTE_BYTES);
    }
    return run;
}

/* Where one record of the run has its flags. */
static uint8_t *flags_of(uint8_t *run, uint32_t place)
{
    return run + (size_t)place * MINUTE_BYTES + 7;
}

static void over_midnight(void)
{
    uint8_t *run = run_of(1438, 4);
    puts("# Four records over midnight: the account expects minute 1438.");
    fputs(pattern_words, stdout);
    open_tall("");
    add_from(0, 1438);
    puts("total\n# nothing broken");
    line("check ", run, 4 * MINUTE_BYTES);
    for (uint32_t place = 0; place < 4; place++) {
        uint8_t good = *flags_of(run, place);
        *flags_of(run, place) = 15;
        printf("# record %u broken: flags 15\n", place);
        line("check ", run, 4 * MINUTE_BYTES);
        *flags_of(run, place) = good;
    }
    puts("# the account afterwards\ntotal");
    free(run);
}

static void parts_of_two_days(uint8_t *run)
{
    static const uint32_t days[] = {0, 1, 2, 67108864, 4294967295}; /* 67,108,864 x 77,760 is a multiple of 2^32 */
    char words[32];
    puts("\n# Day parts of a run of two days, 155520 bytes.");
    for (size_t i = 0; i < sizeof days / sizeof days[0]; i++) {
        snprintf(words, sizeof words, "part %u ", days[i]);
        printf("# day %u\n", days[i]);
        line(words, run, 2 * DAY_BYTES);
    }
    puts("# one byte short, day 1, and day 0");
    line("part 1 ", run, 2 * DAY_BYTES - 1);
    line("part 0 ", run, 2 * DAY_BYTES - 1);
    puts("# one day, day 0, and one byte short of it");
    line("part 0 ", run, DAY_BYTES);
    line("part 0 ", run, DAY_BYTES - 1);
    puts("# no record, day 0");
    line("part 0 ", run, 0);
    puts("# two days, and one digit more");
    odd_line("part 0 ", run, 2 * DAY_BYTES);
}

static void checks_of_two_days(uint8_t *run)
{
    puts("\n# The same run against a new account.");
    open_tall("");
    line("check ", run, 2 * DAY_BYTES);
    puts("# its last record broken");
    *flags_of(run, 2 * DAY_MINUTES - 1) = 15;
    line("check ", run, 2 * DAY_BYTES);
    puts("# its record 1440 broken too");
    *flags_of(run, DAY_MINUTES) = 15;
    line("check ", run, 2 * DAY_BYTES);
    puts("# and one byte short, and one digit too many");
    line("check ", run, 2 * DAY_BYTES - 1);
    odd_line("check ", run, 2 * DAY_BYTES);
    puts("total");
}

static void three_days(void)
{
    uint8_t *run = run_of(0, 3 * DAY_MINUTES);
    puts("\n# Three days are more than a line holds.");
    line("part 2 ", run, 3 * DAY_BYTES);
    line("check ", run, 3 * DAY_BYTES);
    free(run);
}

static void runs(void)
{
    uint8_t *run = run_of(0, 2 * DAY_MINUTES);
    over_midnight();
    parts_of_two_days(run);
    checks_of_two_days(run);
    three_days();
    free(run);
}

/* ---- The longest lines, and line ends. ---- */

/* The words, then digits up to so many characters in all, then the end. */
static void line_of_length(const char *words, size_t length, const char *end)
{
    fputs(words, stdout);
    for (size_t i = strlen(words); i < length; i++)
        putchar('0');
    fputs(end, stdout);
}

static void lengths(void)
{
    puts("# The longest line has 320000 characters: a record far too long, one digit more, and with a return, also shorter.");
    line_of_length("class ", LONGEST_LINE, "\n");
    line_of_length("class ", LONGEST_LINE + 1, "\n");
    line_of_length("class ", LONGEST_LINE, "\r\n");
    line_of_length("class ", LONGEST_LINE - 2, "\r\n");
    puts("# A comment can be too long, and what is no call. The next line is read as ever.");
    line_of_length("# ", LONGEST_LINE + 1, "\n");
    line_of_length("", 3 * LONGEST_LINE, "\n");
    line_of_length("", LONGEST_LINE, "\n");
    puts("total\n# One return before a line's end is no part of the line; a second one is, and so is one elsewhere.\r");
    fputs("total\r\n\r\ntotal\r\r\n\rtotal\nadd \r\n", stdout);
    open_tall("\r");
    puts("# The last line needs no end.");
    fputs("total", stdout);
}

int main(int count, char **words)
{
    static const struct {
        const char *name;
        void (*print)(void);
    } scripts[] = {{"year-2027", ordinary_year}, {"year-2028", leap_year}, {"open-day", open_day},
                   {"chart", chart}, {"runs", runs}, {"lengths", lengths}};
    int known = count == 1;
    for (size_t i = 0; i < sizeof scripts / sizeof scripts[0]; i++) {
        if (count == 1)
            puts(scripts[i].name);
        if (count == 2 && strcmp(words[1], scripts[i].name) == 0) {
            scripts[i].print();
            known = 1;
        }
    }
    if (!known)
        return fprintf(stderr, "usage: desk_long [year-2027|year-2028|open-day|chart|runs|lengths]\n"), 2;
    return fflush(stdout) == 0 && !ferror(stdout) ? 0 : 1;
}
