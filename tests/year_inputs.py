#!/usr/bin/env python3
"""Inputs of `./flare year`, by a seed, the same on every machine.

    tests/year_inputs.py cases SEED FOLDER    FOLDER/good-NNN and FOLDER/bad-NNN, each with `site`, `minutes` and `intended`
    tests/year_inputs.py year FOLDER          the year of a measured low flare, as FOLDER/site and FOLDER/minutes

`intended` is what the maker had in mind, `good` or the fault as tests/year_expected.py writes it; a bad file ends at its bad line.
"""
import datetime
import os
import random
import sys

from year_faults import bad_cases
from year_texts import Csv, Site, site_bytes

GOOD_CASES, GOOD_LINES = 36, 92000  # one in six has only a line or three


# ---- The cases. ----

def write_case(folder, site, minutes, intended):
    os.makedirs(folder)
    for name, data in ("site", site), ("minutes", minutes), ("intended", intended.encode()):
        with open(os.path.join(folder, name), "wb") as file:
            file.write(data)


def good_cases(chance):
    for number in range(GOOD_CASES):
        site = Site(chance)
        csv = Csv(chance, site)
        lines = csv.good(site, GOOD_LINES // GOOD_CASES if number % 6 else chance.randint(1, 3))
        yield site_bytes(chance, site.entries(chance))[0], csv.text(csv.line(csv.names), lines)[0], "good\n"


def edge_cases():
    """The longest line and site file and one byte more, the most columns, and a leap day: (kind, site, minutes, intended)."""
    site = Site(random.Random(0), False)
    site.year, site.maintained = 2028, []
    text = site_bytes(random.Random(0), site.entries(random.Random(0)))[0].rstrip(b"\r\n") + b"\n"
    full = lambda size: text + b"#" * (size - len(text) - 1) + b"\n"
    long = lambda size: b"minute,flame,litres,#\n0,0,0\n" + b"1,0,0,".ljust(size, b"x") + b"\n2,0,0\n"
    yield "good", full(65536), b"minute,flame,litres\n0,0,0\n", "good\n"
    yield "bad", full(65537), b"minute,flame,litres\n0,0,0\n", "long-site - -\n"
    yield "good", text, long(65535), "good\n"
    yield "bad", text, long(65536), "long-line 3 -\n"
    yield "bad", text, long(1000000), "long-line 3 -\n"
    yield "good", text, b"#," * 29 + b"litres,flame,minute\n" + b"," * 29 + b"0,1,0\n", "good\n"
    moment, days = datetime.datetime(2028, 1, 1), []
    for minute in range(61 * 1440):
        days.append(f"{moment + datetime.timedelta(minutes=minute):%Y-%m-%dT%H:%M}\t1\t{minute % 999}\t500000\n")
    yield "good", text, ("time\tflame\tlitres\tch4_ppm\n" + "".join(days)).encode(), "good\n"


# ---- A year of a measured low flare, as a spreadsheet of a country with decimal commas saves it. ----

YEAR_SITE = """# A low flare, 6 m high and 1.2 m wide, measured each minute
method measured
year 2027
gwp 28
height 6000
diameter 1200
lowest_temperature 750,0
highest_temperature 1100,0
lowest_flow 1000
highest_flow 20000
maintenance_days 90
maintained 2026-11-20
maintained 2027-02-17
maintained 2027-05-25 # a week late
maintained 2027-08-20
maintained 2027-11-17
"""


def year_line(minute, date):
    """Whole numbers only: waves of the year and of the day, and remainders for what varies from minute to minute."""
    wave = lambda period: abs(2000 * (minute % period) // period - 1000)
    litres = 9000 + 3 * wave(525600) + wave(1440) + minute * 7919 % 401
    methane = 480000 + 40 * wave(525600) + 20 * wave(1440) + minute * 31 % 97
    temperature = 8600 + wave(1440) + minute * 104729 % 301
    oxygen, slip, flame = 80000 + minute * 613 % 20000, 5 + minute * 577 % 90, 1
    hour, day = minute // 60, minute // 1440
    if hour % 97 == 5:      # the flame is out
        flame, temperature = 0, 300
    if day % 29 == 11 and hour % 24 < 3:   # lit again and cold
        temperature -= 7000
    if hour % 211 == 40:    # two blowers at once
        litres *= 2
    if hour % 150 == 77:    # a poor burn
        slip = 9000 + minute * 577 % 9000
    read = ["" if minute * 37 % 1201 < 3 else f"{temperature // 10},{temperature % 10}",
            *(("", "") if hour % 63 == 20 or minute * 41 % 997 < 2 else (f"{oxygen // 10000},{oxygen % 10000:04}", f"{slip}"))]
    gas = f"{methane // 10000},{methane % 10000:04};{(994000 - methane) // 10000},{(994000 - methane) % 10000:04};0,6"
    if day % 45 == 30 and hour % 24 in (9, 10):  # shut down
        return f"{date} {hour % 24:02}:{minute % 60:02};0;;0;;;;;;shut down"
    return f"{date} {hour % 24:02}:{minute % 60:02};{flame};{read[0]};{litres};{gas};{read[1]};{read[2]};"


def write_year(folder):
    os.makedirs(folder, exist_ok=True)
    with open(os.path.join(folder, "site"), "w") as file:
        file.write(YEAR_SITE)
    with open(os.path.join(folder, "minutes"), "w", newline="") as file:
        file.write("\uFEFFtime;flame;temperature;litres;ch4_percent;co2_percent;o2_percent;exhaust_o2_percent;exhaust_ch4_mg_m3;#remark\r\n")
        for day in range(365):
            date = datetime.date(2027, 1, 1) + datetime.timedelta(day)
            file.write("".join(year_line(minute, date) + "\r\n" for minute in range(1440 * day, 1440 * day + 1440)))


def main():
    if len(sys.argv) == 3 and sys.argv[1] == "year":
        return write_year(sys.argv[2])
    if len(sys.argv) != 4 or sys.argv[1] != "cases":
        sys.exit("usage: tests/year_inputs.py cases SEED FOLDER | year FOLDER")
    chance = random.Random(int(sys.argv[2]))
    cases = [("good", *case) for case in good_cases(chance)] + [("bad", *case) for case in bad_cases(chance)]
    for number, (kind, *case) in enumerate([*cases, *edge_cases()]):
        write_case(os.path.join(sys.argv[3], f"{kind}-{number:03}"), *case)
    return None


if __name__ == "__main__":
    main()
