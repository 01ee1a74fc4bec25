/* Llethrudd: one minute of one flare, judged by CDM TOOL06.
 *
 * Link with target/staticlib/libhost.a (x86-64; `tools/build host` makes it). The call needs no set-up, keeps nothing
 * between calls, allocates nothing, and may be made from several threads at once.
 */
#ifndef FLARE_H
#define FLARE_H

#include <stddef.h>
#include <stdint.h>

#ifdef __cplusplus
extern "C" {
#endif

#define FLARE_SITE_BYTES 30
#define FLARE_MINUTE_BYTES 54
#define FLARE_ANSWER_BYTES 25

/* The rules are 0 to one less than this: as many counts as a host that adds the minutes up by rule needs. */
#define FLARE_RULES 10

/* For `days`: the flare was never maintained. */
#define FLARE_NEVER_MAINTAINED 65535

/* Judges one minute record at one site record.
 *
 * site, site_len      the site record; any bytes of any length may be given
 * minute, minute_len  the minute record; the same
 * days                days from the last maintenance to the day of this minute, so that it grows from day to day, or
 *                     FLARE_NEVER_MAINTAINED; it matters only to the measured method
 * answer, answer_len  25 bytes that the call may write to
 *
 * Returns 0, and then the answer holds, big-endian:
 *   bytes 0-7 methane fed, 8-15 emitted, 16-23 destroyed, in mg; byte 24 the rule, below FLARE_RULES.
 * Or returns the number of the first refusal in this order, and the answer is as it was:
 *   22 BUFFER       answer_len is not 25
 *    1 LENGTH       the site is not 30 bytes, or its length field is not 28
 *    2 VERSION      the site's version is not 1
 *    3 METHOD       not 0 (default) or 1 (measured)
 *    4 YEAR         not 2000 to 2099
 *    5 GWP          not 1 to 100
 *    6 SIZE         height above 100,000 mm, or diameter not 1 to 100,000 mm
 *    7 SPEC         a temperature or flow limit out of range, or the lowest above the highest
 *    8 OPEN         measured, and the flare is at most twice as high as wide
 *    9 SCHEDULE     days between maintenance above 3,660, or 0 when measured
 *    1 LENGTH       the minute is not 54 bytes, or its length field is not 52
 *    2 VERSION      the minute's version is not 1
 *   12 FLAGS        bits 3 to 7 are not zero
 *   13 ORDER        the site's year has no such minute
 *   14 FLOW         above 100,000 litres
 *   15 COMPOSITION  gas, and the eight fractions do not add up to 1,000,000 ppm
 *   16 METHANE      gas, and CH4 is 0 or below CO, H2, H2S or NH3
 *   17 TEMPERATURE  present and not -500 to 15,000 tenths of a degree, or absent and not 0
 *   18 EXHAUST      present and oxygen above 209,999 ppm or methane above 50,000 mg/m3, or absent and not both 0
 *   19 OXYGEN       gas, measured, exhaust present, and too much oxygen in the gas for the equations
 * 1 and 2 stand for both records: when 1 or 2 comes back, check the site first.
 *
 * The three buffers must not overlap, and a pointer must not be null unless its length is 0.
 * README.md lays out both records byte by byte.
 */
uint8_t flare_minute(const uint8_t *site, size_t site_len,
                     const uint8_t *minute, size_t minute_len,
                     uint16_t days, uint8_t *answer, size_t answer_len);

#ifdef __cplusplus
}
#endif

#endif
