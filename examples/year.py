#!/usr/bin/env python3
# A made-up year of records, to be looked at by month: examples/year.py > year, then ./flare months year
import datetime
import os
import struct
import sys

YEAR, DAY = 525600, 1440  # minutes
FLAME, TEMPERATURE = 1, 2  # the flags of a minute: what was seen and what was read

# Default method, 2027, GWP 28, 12 m high and 1 m wide, 500 to 1,100 degrees, 1,000 to 20,000 litres a minute.
SITE = struct.pack(">HBBHHIIhhIIH", 28, 1, 0, 2027, 28, 12000, 1000, 5000, 11000, 1000, 20000, 0)

# From when, until when, and what was the matter. Else all is well.
TROUBLE = [
    ("01-18 06:00", "01-18 14:00", "no gas"),          # the blower is repaired
    ("02-09 03:20", "02-11 14:05", "no flame"),        # a storm blows it out, and nobody can get there
    ("03-04 08:00", "03-04 10:30", "too cold"),        # lit again after an inspection
    ("03-30 09:00", "03-30 12:45", "no gas"),          # new wells are connected
    ("04-22 01:10", "04-22 07:40", "no flame"),
    ("05-17 00:00", "05-18 00:00", "no temperature"),  # its sensor fails, and is changed the next day
    ("06-15 10:00", "06-15 16:00", "no gas"),          # the filters are changed
    ("07-21 11:30", "07-21 19:00", "too hot"),
    ("07-22 12:00", "07-22 18:30", "too hot"),
    ("08-14 02:00", "08-15 05:15", "too much gas"),    # two blowers run by mistake
    ("09-03 22:40", "09-05 08:10", "no flame"),        # over a weekend
    ("10-12 07:00", "10-12 18:00", "no gas"),          # a power cut
    ("11-26 05:00", "11-26 06:20", "too cold"),
    ("12-24 17:30", "12-27 09:00", "no flame"),        # over Christmas
]


def minute_of(moment):
    since = datetime.datetime.fromisoformat("2027-" + moment) - datetime.datetime(2027, 1, 1)
    return since.days * DAY + since.seconds // 60


def wave(minute, period):
    """Rises from 0 to 1,000 and falls to 0 again in each period: whole numbers, so that every machine has the same."""
    place = minute % period * 2000 // period
    return min(place, 2000 - place)


def record(minute, trouble):
    season, hour = wave(minute, YEAR), wave(minute, DAY)  # both are highest in the middle, in July and at noon
    litres = 9000 + 3 * season + hour // 2 + minute * 7919 % 401
    methane = 480000 + 50 * season + 20 * hour  # ppm; the rest of the gas is carbon dioxide, oxygen and nitrogen
    oxygen, nitrogen = 5000, 60000 - 20 * season
    temperature = 8600 + season // 2 + hour + minute * 104729 % 301  # tenths of a degree
    flags = FLAME + TEMPERATURE
    if trouble == "no gas":
        litres, flags, temperature = 0, TEMPERATURE, 300 + hour // 10
    elif trouble == "no flame":
        flags, temperature = TEMPERATURE, 150 + hour // 5
    elif trouble == "no temperature":
        flags, temperature = FLAME, 0
    elif trouble == "too cold":
        temperature -= 5000
    elif trouble == "too hot":
        temperature += 2000
    elif trouble == "too much gas":
        litres *= 2
    gas = methane, 0, 1000000 - methane - oxygen - nitrogen, oxygen, 0, 0, 0, nitrogen
    return struct.pack(">HBIBhI8III", 52, 1, minute, flags, temperature, litres, *gas, 0, 0)


def main():
    if sys.stdout.isatty() or sys.argv[1:]:
        sys.exit("usage: examples/year.py > year, which is 28 MB of records; it takes no other word")
    troubles = [None] * YEAR
    for begin, end, trouble in TROUBLE:
        for minute in range(minute_of(begin), minute_of(end)):
            troubles[minute] = trouble
    try:
        os.write(1, SITE)
        for day in range(0, YEAR, DAY):
            os.write(1, b"".join(record(minute, troubles[minute]) for minute in range(day, day + DAY)))
    except OSError as failure:
        sys.exit(f"year.py: {failure.strerror}: the year is not whole")


main()
