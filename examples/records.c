/* Makes a record file for ./flare from a CSV, as a workbook saves it.
 *
 *   mkdir -p target && cc -o target/records examples/records.c
 *   target/records < my.csv > my-records && ./flare my-records
 *
 * The first line with numbers is the site, each later one a minute, in order from minute 0 of the year. The columns:
 *
 *   site:   method (0 default, 1 measured each minute), year, GWP of methane, enclosure height and diameter in mm,
 *           lowest and highest temperature in tenths of a degree Celsius, lowest and highest flow in litres a minute,
 *           days allowed between maintenance
 *   minute: minute of the year, flags, temperature in tenths of a degree Celsius, litres in this minute,
 *           CH4, CO, CO2, O2, H2, H2S, NH3 and N2 in ppm by volume, exhaust oxygen in ppm, exhaust methane in mg/m3
 *
 * The flags are a sum: 1 flame seen, 2 temperature present, 4 exhaust readings present. A reading whose flag is off is 0.
 * Numbers are whole, with commas between the columns. examples/open-day.csv is such a file.
 *
 * Lines that start with #, empty lines and empty columns at the end of a line are passed over; numbers may stand in double
 * quotes. It checks that each number fits its bytes; what the numbers mean is for ./flare to judge. Only when every line
 * was understood does it write anything, so that a mistake never leaves a shorter year that looks whole.
 *
 * Status: 0 all well; 1 the CSV has a mistake; 2 wrong use, or reading or writing failed.
 */
#define _POSIX_C_SOURCE 200809L
#include <ctype.h>
#include <stdint.h>
#include <stdio.h>
#include <stdlib.h>
#include <string.h>
#include <unistd.h>

enum { ALL_WELL = 0, MISTAKE = 1, FAILURE = 2 };

/* One column: its name, what its whole number is or counts, its bytes, and what fits them. */
struct column {
    const char *name, *unit;
    int bytes;
    long long lowest, highest;
};
#define ONE 1, 0, 255
#define TWO 2, 0, 65535
#define SIGNED 2, -32768, 32767
#define FOUR 4, 0, 4294967295
#define TENTHS "of tenths of a degree Celsius"
#define PPM "of ppm by volume"
#define WHEN_PRESENT " (0 when its flag is off)"

/* A record: its length field, and the columns of its line. */
struct shape {
    const char *name;
    int length, count;
    struct column columns[14];
};
static const struct shape site = {"site", 28, 10, {
    {"method", "(0 default, 1 measured each minute)", ONE},
    {"year", "(the calendar year)", TWO},
    {"GWP", "(GWP of methane)", TWO},
    {"enclosure height", "of mm", FOUR},
    {"diameter", "of mm", FOUR},
    {"lowest temperature", TENTHS, SIGNED},
    {"highest temperature", TENTHS, SIGNED},
    {"lowest flow", "of litres a minute", FOUR},
    {"highest flow", "of litres a minute", FOUR},
    {"days between maintenance", "of days", TWO},
}};
static const struct shape minute = {"minute", 52, 14, {
    {"minute", "(minute of the year, from 0)", FOUR},
    {"flags", "(1 flame seen + 2 temperature present + 4 exhaust readings present)", ONE},
    {"temperature", TENTHS WHEN_PRESENT, SIGNED},
    {"litres", "of litres in this minute", FOUR},
    {"CH4", PPM, FOUR}, {"CO", PPM, FOUR}, {"CO2", PPM, FOUR}, {"O2", PPM, FOUR},
    {"H2", PPM, FOUR}, {"H2S", PPM, FOUR}, {"NH3", PPM, FOUR}, {"N2", PPM, FOUR},
    {"exhaust oxygen", "of ppm" WHEN_PRESENT, FOUR},
    {"exhaust methane", "of mg/m3" WHEN_PRESENT, FOUR},
}};

/* The records so far, which wait here until the last line is understood. */
struct records {
    uint8_t *bytes;
    size_t used, room;
};

static void put(struct records *records, long long number, int bytes)
{
    while (bytes-- > 0)
        records->bytes[records->used++] = (uint8_t)(number >> 8 * bytes & 255);
}

/* Makes room for a record, and puts its length and version there. */
static void begin_record(struct records *records, const struct shape *shape)
{
    if (records->room - records->used < (size_t)shape->length + 2) {
        records->room = 2 * records->room + 4096;
        records->bytes = realloc(records->bytes, records->room);
        if (records->bytes == NULL) {
            perror("records: keeping the records");
            exit(FAILURE);
        }
    }
    put(records, shape->length, 2);
    put(records, 1, 1);
}

#define LONGEST 65536 /* bytes; a spreadsheet's widest row, 16,384 columns that are mostly empty, is shorter */
#define CELLS 15      /* one more than any record has */

/* A line as it was read, the record that it should be, and its cells up to the last that is filled. */
struct line {
    unsigned long number;
    size_t length;
    char text[LONGEST + 2];
    const struct shape *shape;
    int count;
    char *cells[CELLS];
};

/* Reads the next line, up to a little more than the longest, without its end: LF, CR LF or CR. Answers whether there was one. */
static int read_line(struct line *line)
{
    int c = getc_unlocked(stdin);
    int there = c != EOF;
    line->number += there;
    line->length = 0;
    for (; c != EOF && c != '\n' && c != '\r' && line->length <= LONGEST; c = getc_unlocked(stdin))
        line->text[line->length++] = (char)c;
    line->text[line->length] = 0;
    if (c == '\r' && (c = getc_unlocked(stdin)) != '\n')
        ungetc(c, stdin);
    return there && !ferror(stdin);
}

static int starts_file(const struct line *line, const char *bytes)
{
    return line->number == 1 && strncmp(line->text, bytes, strlen(bytes)) == 0;
}

/* Why the line cannot be taken apart into cells, or NULL. */
static const char *unreadable(const struct line *line)
{
    if (starts_file(line, "\xFF\xFE") || starts_file(line, "\xFE\xFF"))
        return "the file is UTF-16; save it as CSV UTF-8";
    if (memchr(line->text, 0, line->length) != NULL)
        return "a NUL byte stands there, so this is not text; give the CSV, not a record file or a workbook";
    if (line->length > LONGEST)
        return "the line is too long for a row of a spreadsheet; give the CSV, with a line for each minute";
    return NULL;
}

static int is_blank(const char *rest)
{
    return rest == NULL || rest[strspn(rest, " \t,\"")] == 0;
}

/* Whether the line is a comment, and not a minute whose first cell is a spreadsheet's error, as #REF! or #N/A. */
static int is_comment(const char *text)
{
    text += strspn(text, " \t\"");
    size_t length = strcspn(text, " \t\",");
    int error = length > 1 && (strchr("!?", text[length - 1]) != NULL || (length == 4 && strncmp(text, "#N/A", 4) == 0));
    return *text == '#' && !error;
}

/* Takes the next cell from the rest of a line, without the spaces and double quotes around it. A comma in quotes ends no cell. */
static char *next_cell(char **rest)
{
    char *cell = *rest, *end = cell;
    for (int quoted = 0; *end != 0 && (quoted || *end != ','); end++)
        quoted ^= *end == '"';
    *rest = *end == 0 ? NULL : end + 1;
    while (end > cell && strchr(" \t\"", end[-1]) != NULL)
        end--;
    *end = 0;
    return cell + strspn(cell, " \t\"");
}

static void split(struct line *line, char *rest)
{
    for (line->count = 0; line->count < CELLS && !is_blank(rest); line->count++)
        line->cells[line->count] = next_cell(&rest);
}

/* Whether every cell is empty or a word, not only what numbers, dates and times are written with. */
static int is_header(const struct line *line)
{
    for (int i = 0; i < line->count; i++) {
        const char *cell = line->cells[i];
        if (*cell != 0 && cell[strspn(cell, "0123456789+-.,:/ ")] == 0)
            return 0;
    }
    return 1;
}

/* Why a cell is not the number that was expected, where the cell itself tells. */
static const char *cause_in_cell(const char *cell, const struct column *column)
{
    char *mark;
    long long number = strtoll(cell, &mark, 10);
    if (mark == cell)
        return "";
    if (*mark == 0 && number > column->highest)
        return "; it is too large";
    if (*mark == 0)
        return column->lowest < 0 ? "; it is too low" : "; it is negative";
    if (*mark == '.' && strchr(mark + 1, '.') == NULL)
        return "; it has a decimal point; give whole numbers, in that unit";
    size_t separator = strspn(mark, " ,.'\u00A0\u202F"); /* the last two are spaces that do not break a line */
    if (separator > 0 && mark - cell <= 3 && strspn(mark + separator, "0123456789") == 3)
        return "; it seems to have a thousands separator; write digits alone";
    if (*mark == ',')
        return "; it has a decimal comma; give whole numbers, in that unit";
    return "";
}

/* The same of cell i, from 0, where the whole line may tell. */
static const char *cause(const struct line *line, int i)
{
    if (i == 0 && strchr(line->cells[i], ';') != NULL)
        return "; semicolons stand between the columns; save with commas";
    if (i == 0 && strchr(line->cells[i], '\t') != NULL)
        return "; tabs stand between the columns; save with commas";
    if (is_header(line))
        return "; this looks like a header; put # in front of it or delete it";
    if (line->shape == &site && line->count == minute.count)
        return "; this looks like a minute; the site's line comes before the minutes";
    if (line->shape == &minute && line->count == site.count && i == 1) /* a year is no sum of flags */
        return "; this looks like a second site; a file has one, before the minutes";
    if (i == line->shape->count)
        return "; a decimal comma such as 12,5 may be the cause";
    return cause_in_cell(line->cells[i], &line->shape->columns[i]);
}

/* The cell as a message shows it: cut short, and with ? for what may not print. */
static const char *shown(const char *cell)
{
    static char text[40];
    if (*cell == 0)
        return "nothing";
    snprintf(text, sizeof text, strlen(cell) > 30 ? "'%.28s..'" : "'%s'", cell);
    for (char *c = text; *c != 0; c++)
        if (!isprint((unsigned char)*c))
            *c = '?';
    return text;
}

static int wrong_cell(const struct line *line, int i)
{
    const struct column *column = &line->shape->columns[i];
    fprintf(stderr, "records: line %lu, column %d (%s): %s stands there; expected a whole number %s, %lld to %lld%s\n", line->number,
        i + 1, column->name, shown(line->cells[i]), column->unit, column->lowest, column->highest, cause(line, i));
    return MISTAKE;
}

static int too_few(const struct line *line)
{
    const struct column *next = &line->shape->columns[line->count], *last = next - 1;
    fprintf(stderr, "records: line %lu: the line ends after column %d (%s); a %s has %d columns; next comes column %d (%s), a whole number %s\n",
        line->number, line->count, last->name, line->shape->name, line->shape->count, line->count + 1, next->name, next->unit);
    return MISTAKE;
}

static int too_many(const struct line *line)
{
    int last = line->shape->count;
    fprintf(stderr, "records: line %lu, column %d: %s stands there, one column too many; a %s has %d, the last is column %d (%s)%s\n",
        line->number, last + 1, shown(line->cells[last]), line->shape->name, last, last, line->shape->columns[last - 1].name,
        cause(line, last));
    return MISTAKE;
}

/* Puts the record of one line behind the others. */
static int convert(const struct line *line, struct records *records)
{
    begin_record(records, line->shape);
    for (int i = 0; i < line->count && i < line->shape->count; i++) {
        const struct column *column = &line->shape->columns[i];
        char *end;
        long long number = strtoll(line->cells[i], &end, 10); /* what is far too large becomes the largest, which fits nowhere */
        if (end == line->cells[i] || *end != 0 || number < column->lowest || number > column->highest)
            return wrong_cell(line, i);
        put(records, number, column->bytes);
    }
    if (line->count < line->shape->count)
        return too_few(line);
    return line->count > line->shape->count ? too_many(line) : ALL_WELL;
}

/* Converts every line of standard input, and stops at the first mistake. */
static int convert_all(struct records *records)
{
    static struct line line;
    while (read_line(&line)) {
        const char *why = unreadable(&line);
        if (why != NULL) {
            fprintf(stderr, "records: line %lu: %s\n", line.number, why);
            return MISTAKE;
        }
        char *text = line.text + (starts_file(&line, "\xEF\xBB\xBF") ? 3 : 0); /* the byte order mark of UTF-8 */
        if (is_blank(text) || is_comment(text))
            continue;
        split(&line, text);
        line.shape = records->used == 0 ? &site : &minute;
        if (convert(&line, records) != ALL_WELL)
            return MISTAKE;
    }
    if (ferror(stdin)) {
        perror("records: reading standard input");
        return FAILURE;
    }
    if (records->used == 0) {
        fprintf(stderr, "records: no line with a site (lines read: %lu); the site's numbers come first, then the minutes'\n", line.number);
        return MISTAKE;
    }
    return ALL_WELL;
}

static int write_all(const struct records *records)
{
    if (isatty(STDOUT_FILENO)) {
        fprintf(stderr, "records: records are bytes, not text for a terminal; put '> my-records' or '| ./flare' behind\n");
        return FAILURE;
    }
    if (fwrite(records->bytes, 1, records->used, stdout) < records->used || fflush(stdout) != 0) {
        perror("records: writing standard output");
        return FAILURE;
    }
    return ALL_WELL;
}

int main(int argc, char **argv)
{
    (void)argv;
    if (argc > 1 || isatty(STDIN_FILENO)) {
        fprintf(stderr, "usage: target/records < my.csv > my-records && ./flare my-records\n"
                        "To build it: mkdir -p target && cc -o target/records examples/records.c\n"
                        "The columns and their units stand at the beginning of examples/records.c.\n");
        return FAILURE;
    }
    struct records records = {NULL, 0, 0};
    int status = convert_all(&records);
    if (status == ALL_WELL)
        status = write_all(&records);
    free(records.bytes);
    return status;
}
