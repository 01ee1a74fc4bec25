/* Written from the table of the lines, apart from the reference and from the product: the three must agree. */
#include "desk_forms.h"

#include <stdio.h>
#include <string.h>

const struct form forms[CALLS] = {
    [CALL_SITE] = {"site", "site HEX", "HEX", "h", 0},
    [CALL_MINUTE] = {"minute", "minute HEX", "HEX", "h", 0},
    [CALL_WRITE_SITE] = {"write-site",
                         "write-site METHOD YEAR GWP HEIGHT DIAMETER LOWEST HIGHEST LOWEST HIGHEST DAYS ROOM",
                         "METHOD YEAR GWP HEIGHT DIAMETER LOWEST HIGHEST LOWEST HIGHEST DAYS ROOM", "bwwddiiddww", 0},
    [CALL_WRITE_MINUTE] = {"write-minute",
                           "write-minute NUMBER FLAGS TEMPERATURE LITRES CH4 CO CO2 O2 H2 H2S NH3 N2 OXYGEN METHANE ROOM",
                           "NUMBER FLAGS TEMPERATURE LITRES CH4 CO CO2 O2 H2 H2S NH3 N2 OXYGEN METHANE ROOM",
                           "dbidddddddddddw", 0},
    [CALL_CLASS] = {"class", "class HEX", "HEX", "h", 0},
    [CALL_OPEN] = {"open", "open HEX [days DAY ..]", "HEX DAY", "hi", 0},
    [CALL_ADD] = {"add", "add HEX", "HEX", "h", 1},
    [CALL_FILL] = {"fill", "fill COUNT HEX", "COUNT HEX", "dh", 1},
    [CALL_CHECK] = {"check", "check HEX", "HEX", "h", 1},
    [CALL_PART] = {"part", "part DAY HEX", "DAY HEX", "dh", 0},
    [CALL_TOTAL] = {"total", "total", "", "", 1},
    [CALL_MONTH] = {"month", "month MONTH", "MONTH", "d", 1},
    [CALL_COUNTS] = {"counts", "counts", "", "", 1},
    [CALL_CLOSE] = {"close", "close", "", "", 1},
    [CALL_CHART] = {"chart", "chart", "", "", 1},
    [CALL_SINGLE] = {"single", "single SITE MINUTE DAYS ROOM", "SITE MINUTE DAYS ROOM", "hhww", 0},
};

const char no_call_message[] = "what? expected a call: site minute write-site write-minute class open add fill check part "
                               "total month counts close chart single";

void too_long_message(char message[MESSAGE_ROOM])
{
    snprintf(message, MESSAGE_ROOM, "what? expected a line of at most %d characters", LONGEST);
}

static const char *kind_in_words(char kind)
{
    switch (kind) {
    case 'h':
        return "hexadecimal digits, two for each byte";
    case 'b':
        return "a number from 0 to 255";
    case 'w':
        return "a number from 0 to 65535";
    case 'd':
        return "a number from 0 to 4294967295";
    default:
        return "a number from -32768 to 32767";
    }
}

void ends_of_kind(char kind, int64_t *least, int64_t *most)
{
    *least = kind == 'i' ? -32768 : 0;
    *most = kind == 'b' ? 255 : kind == 'w' ? 65535 : kind == 'i' ? 32767 : 4294967295;
}

void form_message(enum call call, int word, char message[MESSAGE_ROOM])
{
    const char *name = forms[call].words;
    if (word == NO_WORD) {
        snprintf(message, MESSAGE_ROOM, "what? expected %s", forms[call].text);
        return;
    }
    for (int i = 0; i < word; i++)
        name = strchr(name, ' ') + 1;
    snprintf(message, MESSAGE_ROOM, "what? expected %s: %.*s is %s", forms[call].text, (int)strcspn(name, " "), name,
             kind_in_words(forms[call].kinds[word]));
}
